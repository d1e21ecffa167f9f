package book;

public class Account implements nrmi.Restorable {
    int id;
    long balance;
    Account left;
    Account right;

    Account(int id) {
        this.id = id;
        this.balance = id;
    }
}
