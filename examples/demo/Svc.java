package demo;

/** Methods that are to run on a server. */
public class Svc {
    public static void inc(int[] a) {
        a[0]++;
    }

    public static void two(int[] a, int[] b) {
        a[0] = 7;
        b[0] = b[0] + 1;
    }

    public static Node pass(Node n) {
        return n;
    }

    public static void cut(Node h) {
        h.next.v = 9;
        h.next = null;
    }

    public static Node second(Node h) {
        return h.next;
    }

    public static void swap(Node a) {
        int v = a.v;
        a.v = a.next.v;
        a.next.v = v;
    }

    public static void insert(Node h) {
        Node n = new Node();
        n.v = 5;
        n.next = h.next;
        h.next = n;
    }

    public static void tens(Sub s) {
        s.v += 10;
        ((Base) s).v += 10;
    }

    public static int fail(Node h) {
        h.v = 4;
        int zero = h.v - 4;
        return 1 / zero;
    }
}
