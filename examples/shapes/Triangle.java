package shapes;

class Triangle implements Shape {
    private final int base;
    private int height;

    Triangle(int base, int height) {
        this.base = base;
        this.height = height;
    }

    public long area() {
        return (long) base * height / 2;
    }

    public void grow(int by) {
        height += by;
    }
}
