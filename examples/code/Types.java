package code;

/** Objects of several classes, arrays, longs, handlers and initialisers: much that the verifier has to look at. */
public class Types implements java.io.Serializable {
  static abstract class Shape implements Cloneable { abstract long area(int n); Shape next; }
  static class Square extends Shape { int side; Square(int s) { super(); side = s > 0 ? s : -s; } long area(int n) { return (long) side * side * n; } }
  static class Cube extends Square { Cube(int s) { super(s + 1); next = new Square(s < 3 ? s : 3); } long area(int n) { return n > 1 ? super.area(n) * 6 : super.area(2); } }
  interface Fun { long f(Object o, long a, int b) throws Exception; }
  static class Fault extends RuntimeException { int code; Fault(int c) { code = c; } }

  private int[] cells = new int[4];
  protected long[][] rows;
  private Shape shape;
  byte b; char c; short s; boolean z;

  Types(int n) { this(n, n > 2 ? new Square(n) : new Cube(n)); cells[n & 3] = n; }
  Types(int n, Shape s) { shape = s; rows = new long[n][3]; }

  long walk(int n) {
    long sum = 0;
    Shape at = shape;
    for (int i = 0; at != null && i < n; i++) {
      long part = at.area(i);
      if (at instanceof Square) { sum += ((Square) at).side; } else sum -= part;
      at = at.next;
      switch (i) { case 0: sum++; break; case 1: sum += 2; case 2: sum ^= part; break; default: sum = -sum; }
    }
    return sum;
  }

  static int mixed(boolean a, byte b, short c, char d, int e, long f, Object g) {
    int x = a ? b : c;
    long y = f * d + (e >> 2);
    try {
      if (g == null) throw new Fault(x);
      x += ((int[]) g)[e];
      y = y / x;
    } catch (Fault t) {
      x = t.code;
    } catch (ClassCastException t) {
      return -1;
    } catch (RuntimeException t) {
      y = 3L;
      throw t;
    } finally {
      x += (int) y;
    }
    return x;
  }

  static Object pick(int n, Shape a, Square b, Cube d) {
    Shape s = n == 0 ? a : n == 1 ? b : d;
    Object[] all = new Shape[] { a, b, d, s };
    Object o = all[n];
    Shape[][] two = new Shape[n][n + 1];
    two[0] = new Square[3];
    two[0][1] = b;
    if (o == a) return two; else if (o != s) return all;
    byte[] bytes = new byte[2]; bytes[1] = (byte) n;
    char[] chars = { 'a', (char) n };
    short[] shorts = { 1, (short) n };
    boolean[] bools = { true, n > 0 };
    return bools[1] ? (Object) bytes : chars[0] > 3 ? chars : (Object) shorts;
  }

  long apply(Fun f, long a) throws Exception {
    long got = f.f(this, a, (int) a);
    while (got > 100L) {
      got = f.f(new Square(3), got % 7, cells.length);
      if (got == 42) break;
      if (got < 0) continue;
      count(got);
    }
    b = (byte) got; c = (char) got; s = (short) got; z = got == 0;
    return z ? b : c + s;
  }

  private void count(long l) { cells[(int) l & 3] += 2; rows[0][1]++; shape.next = new Cube((int) l); }

  static long longs(long a, long b, int n) {
    long t = a;
    for (int i = 0; i < n; i++) { t = t + b; long u = t; t = u * a; a = b++; }
    int[] x = { 1, 2, 3 };
    x[n]++;
    long[] y = new long[3];
    y[n] += t;
    return x[0] > 1 ? y[0]-- : ~y[1];
  }
}
