package beyond;

import java.util.ArrayList;
import java.util.List;

/** Attributes that are skipped: of an enum, of types with parameters, of throws clauses and of annotations. */
public enum Colour {
  RED, GREEN;

  List<Colour> mixed = new ArrayList<Colour>();

  @Deprecated
  <T extends Colour> T mix(T other) throws IllegalStateException {
    if (other == null) throw new IllegalStateException();
    mixed.add(other);
    return other;
  }
}
