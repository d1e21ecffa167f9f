package nrmi;

/** Stands for the built-in class that prints, while programs are compiled. It isn't loaded. */
public final class Out {
    private Out() {
    }

    /** Prints the characters as UTF-8; a half of a surrogate pair alone is a question mark. */
    public static void print(char[] text) {
    }

    /** Prints one character, as an array of it would be. */
    public static void print(char unit) {
    }

    /** Prints the number in decimal digits, with `-` in front where it is negative. */
    public static void print(int number) {
    }

    /** Prints the number as print(int) does. */
    public static void print(long number) {
    }

    /** Ends the line. */
    public static void line() {
    }
}
