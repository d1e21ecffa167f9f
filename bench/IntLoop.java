/** A plain loop of int arithmetic, whose turns all make as many instructions. */
public class IntLoop {
    public static int main(int[] words) {
        int turns = words[0];
        int sum = 1;
        for (int i = 0; i < turns; i++) {
            sum = sum * 31 + (i ^ sum >>> 7);
            sum -= i & 63;
        }
        return sum;
    }
}
