package demo;

public class Inc {
    public static int main(int[] a) {
        Svc.inc(a);
        return a[0];
    }
}
