package demo;

public class Base implements nrmi.Restorable {
    static final long serialVersionUID = 1;
    int v;
}
