package shapes;

/** Grows on both sides: first as each rectangle does. */
final class Square extends Rectangle {
    Square(int side) {
        super(side, side);
    }

    public void grow(int by) {
        super.grow(by);
        height = width;
    }
}
