package book;

/** The part that moves to a server. */
public class Bank {
    public static int post(Book book, Plus plus) {
        int count = add(book.root, plus.d);
        book.root.right = null;
        return count;
    }

    private static int add(Account a, long d) {
        if (a == null) {
            return 0;
        }
        a.balance += d;
        return 1 + add(a.left, d) + add(a.right, d);
    }
}
