package demo;

public class Dim implements nrmi.Restorable {
    transient int x;
}
