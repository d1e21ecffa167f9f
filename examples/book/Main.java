package book;

import nrmi.Out;

/** Keeps accounts in a tree, and looks at some of them after a call that changes all and cuts half of them loose. */
public class Main {
    private static Account tree(int low, int high) {
        if (low > high) {
            return null;
        }
        int middle = (low + high) / 2;
        Account a = new Account(middle);
        a.left = tree(low, middle - 1);
        a.right = tree(middle + 1, high);
        return a;
    }

    private static Account find(Account a, int id) {
        while (a.id != id) {
            a = id < a.id ? a.left : a.right;
        }
        return a;
    }

    private static long sum(Account a) {
        return a == null ? 0 : a.balance + sum(a.left) + sum(a.right);
    }

    public static int main(int[] words) {
        Book book = new Book();
        book.root = tree(0, 999);
        Account seven = find(book.root, 7);
        Account cut = find(book.root, 900);
        Plus plus = new Plus();
        plus.d = 10;
        int count = Bank.post(book, plus);
        Out.print(seven.balance);
        Out.line();
        Out.print(cut.balance);
        Out.line();
        Out.print(sum(book.root));
        Out.line();
        return count;
    }
}
