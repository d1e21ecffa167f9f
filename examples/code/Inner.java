package code;

/** Initialisers with arguments that branch, inner classes and calls of the superclass. */
public class Inner {
  int value;

  Inner(int value) {
    this.value = value > 3 ? value : -value;
  }

  class Part extends Inner {
    Part(int more) {
      super(more > 0 ? more : -more);
      value += Inner.this.value;
    }

    int value() {
      return super.value() + 1;
    }
  }

  int value() {
    return value;
  }

  static int loops(int n) {
    int sum = 0;
    outer:
    for (int i = 0; i < n; i++) {
      int j = 0;
      do {
        if (i * j == 12) continue outer;
        if (sum > 1000) break outer;
        sum += j;
        j++;
      } while (j < i);
    }
    return sum;
  }
}
