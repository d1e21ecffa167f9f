package book;

public class Book implements nrmi.Restorable {
    Account root;
}
