package shapes;

import nrmi.Out;

/**
 * Shows interfaces, overrides, calls of the superclass and tests of classes: an array of shapes grows by the first number,
 * and each one's area is printed, a `#` behind that of a square.
 */
public class Main {
    private static long total(Shape[] shapes) {
        long sum = 0;
        for (Shape shape : shapes) {
            sum += shape.area();
        }
        return sum;
    }

    public static int main(int[] words) {
        Shape[] shapes = {new Rectangle(2, 3), new Square(4), new Triangle(5, 6)};
        for (Shape shape : shapes) {
            shape.grow(words[0]);
            Out.print(shape.area());
            if (shape instanceof Square) {
                Out.print(' ');
                Out.print('#');
            }
            Out.line();
        }
        return (int) total(shapes);
    }
}
