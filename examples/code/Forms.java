package code;

/** Forms of code that a decoder meets: switches, wide locals, long branches, handlers and arrays. */
public class Forms implements Runs {
  int count;
  long total;

  static int dense(int n) {
    switch (n) {
      case 1: return 10;
      case 2: return 20;
      case 3: return 30;
      case 5: return 50;
      default: return 0;
    }
  }

  static int sparse(int n) {
    switch (n) {
      case -2000000000: return 1;
      case -1: return 2;
      case 7: return 3;
      case 70000: return 4;
      case 2000000000: return 5;
    }
    return 6;
  }

  static int padded(int n) {
    int a = n + 1;
    switch (a) {
      case 0: a = 3; break;
      case 1: a++; break;
    }
    int b = a;
    switch (b) {
      case 100: b = 1; break;
      case 5: b = 2; break;
    }
    return b;
  }

  static int nested(int[] a, int i) {
    int got = 0;
    try {
      try {
        got = a[i];
        if (got > 3) throw new IllegalStateException();
      } catch (ArrayIndexOutOfBoundsException e) {
        got = -1;
      } finally {
        got = got + 1;
      }
    } catch (NullPointerException e) {
      got = -2;
    } catch (RuntimeException e) {
      got = -3;
      throw e;
    }
    return got;
  }

  static Object arrays(int n) {
    boolean[] z = new boolean[n];
    char[] c = new char[n];
    byte[] b = new byte[n];
    short[] s = new short[n];
    int[] i = new int[n];
    long[] j = new long[n];
    Object[] o = new Object[n];
    int[][] two = new int[n][];
    long[][][] three = new long[n][n][];
    Object[][] both = new Object[n][n];
    z[0] = true;
    c[0] = 'x';
    b[0] = (byte) n;
    s[0] = (short) c[0];
    i[0] = b[0] + s[0] + (z[0] ? 1 : 0);
    j[0] = i[0];
    o[0] = z;
    two[0] = i;
    three[0][0] = j;
    both[0][0] = o;
    return both[0][0] instanceof Object[] ? (Object) two : three;
  }

  public long run(Runs other, long a, int b) {
    count += 1;
    total = total * 31 + other.run(this, a ^ b, b) % 7;
    other.stop();
    return total >>> 3;
  }

  public void stop() {
    count = 40000;
    total = -5000000000L;
  }

  static long math(long a, int b) {
    long c = (a << b) | (a >> 3) & ~a;
    int d = (int) (c / 7) * -b + (b >>> 2) - (b << 1) % 5;
    c = c - d + (long) (short) d + (char) d - (byte) d;
    return a < c ? c : a == c ? -a : a * c;
  }

  static boolean same(Object a, Object b) {
    if (a == null) return b == null;
    if (a != b) return false;
    return !(a instanceof String) || b != null && a != null;
  }
}
