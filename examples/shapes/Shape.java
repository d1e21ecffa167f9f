package shapes;

/** What can be measured and can grow. */
interface Shape {
    long area();

    void grow(int by);
}
