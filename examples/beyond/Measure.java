package beyond;

/** A field of type double, which the profile leaves out. */
public class Measure {
  double metres;
}
