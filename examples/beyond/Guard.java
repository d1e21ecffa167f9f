package beyond;

/** Methods that the profile leaves out: one that is synchronized, and one that is native. */
public class Guard {
  int held;

  synchronized int held() {
    return held;
  }

  native void drop();
}
