package shapes;

class Rectangle implements Shape {
    int width;
    int height;

    Rectangle(int width, int height) {
        this.width = width;
        this.height = height;
    }

    public long area() {
        return (long) width * height;
    }

    public void grow(int by) {
        width += by;
    }
}
