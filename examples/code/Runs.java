package code;

public interface Runs {
  long run(Runs other, long a, int b);

  void stop();
}
