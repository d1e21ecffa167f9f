package nrmi;

import java.io.ByteArrayOutputStream;
import java.nio.charset.Charset;

/** What prints where the real java runs a program of the profile: as the built-in class does, into a list of bytes. */
public final class Out {
    private static final Charset UTF_8 = Charset.forName("UTF-8");
    private static final ByteArrayOutputStream PRINTED = new ByteArrayOutputStream();

    private Out() {
    }

    /** What was printed since the last call of this. */
    public static byte[] taken() {
        byte[] bytes = PRINTED.toByteArray();
        PRINTED.reset();
        return bytes;
    }

    private static void put(String text) {
        byte[] bytes = text.getBytes(UTF_8);
        PRINTED.write(bytes, 0, bytes.length);
    }

    public static void print(char[] text) {
        put(new String(text));
    }

    public static void print(char unit) {
        put(String.valueOf(unit));
    }

    public static void print(int number) {
        put(Integer.toString(number));
    }

    public static void print(long number) {
        put(Long.toString(number));
    }

    public static void line() {
        put("\n");
    }
}
