package demo;

public class Sub extends Base {
    static final long serialVersionUID = 1;
    int v;
}
