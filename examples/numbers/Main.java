package numbers;

import nrmi.Out;

/**
 * Shows int and long arithmetic: what wraps, divisions that truncate, shifts with and without the sign, conversions to
 * smaller types, and digits made of chars. What is returned is the sum of the decimal digits of the first number.
 */
public class Main {
    private static void tell(char name, long value) {
        Out.print(name);
        Out.print(' ');
        Out.print(value);
        Out.line();
    }

    private static void hex(int number) {
        char[] digits = new char[8];
        for (int i = 7; i >= 0; i--) {
            int digit = number & 15;
            digits[i] = (char) (digit < 10 ? '0' + digit : 'A' + digit - 10);
            number >>>= 4;
        }
        Out.print(digits);
        Out.line();
    }

    private static int digits(long number) {
        int sum = 0;
        for (long left = number < 0 ? -number : number; left > 0; left /= 10) {
            sum += left % 10;
        }
        return sum;
    }

    public static int main(int[] words) {
        int number = words[0];
        hex(number);
        tell('n', number / -1);
        tell('d', number / 7);
        tell('r', number % 7);
        tell('s', number >> 28);
        tell('u', number >>> 28);
        tell('l', number << 33);
        tell('b', (byte) number);
        tell('h', (short) number);
        tell('c', (char) number);
        tell('q', (long) number * number);
        tell('w', number * number);
        return digits(number);
    }
}
