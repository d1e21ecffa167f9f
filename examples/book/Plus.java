package book;

public class Plus implements nrmi.Restorable {
    long d;
}
