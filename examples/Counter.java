/** A class with fields, constants, a handler and frames, as a test of the reader of class files. */
public class Counter implements Runnable, Comparable {
    static final int STEP = 7;
    static final long LIMIT = 5000000000L;
    static final String NAME = "counter";
    int count;

    public void run() {
        for (int i = 0; i < STEP; i++) {
            count = count + 1;
        }
    }

    public int compareTo(Object other) {
        try {
            return count - ((Counter) other).count;
        } catch (ClassCastException e) {
            return -1;
        }
    }
}
