package demo;

public class Node implements nrmi.Restorable {
    static final long serialVersionUID = 1;
    int v;
    Node next;
}
