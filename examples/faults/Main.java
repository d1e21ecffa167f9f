package faults;

import nrmi.Out;

/**
 * Shows what the machine throws by itself, what a program throws, and who catches it. Each number chooses a fault: it is caught
 * and told by a letter, and `finally` prints a dot after each. The fault 9 is caught by nobody, and ends the run.
 */
public class Main {
    private static int fault(int number) {
        int zero = number & 0;
        Object text = new char[1];
        switch (number) {
            case 0:
                return 1 / zero;
            case 1:
                return ((char[]) text)[number];
            case 2:
                return new int[zero - 1].length;
            case 3:
                return ((int[]) text).length;
            case 4:
                Object[] refusals = new Refusal[1];
                refusals[zero] = text;
                return 4;
            case 5:
                text = null;
                return ((char[]) text).length;
            case 6:
                throw new Refusal(60);
            case 9:
                throw new IllegalStateException();
            default:
                return number;
        }
    }

    private static int tried(int number) {
        try {
            return fault(number);
        } catch (ArithmeticException e) {
            Out.print('d');
        } catch (IndexOutOfBoundsException e) {
            Out.print('i');
        } catch (NegativeArraySizeException e) {
            Out.print('s');
        } catch (ClassCastException e) {
            Out.print('c');
        } catch (ArrayStoreException e) {
            Out.print('a');
        } catch (NullPointerException e) {
            Out.print('n');
        } catch (Refusal e) {
            Out.print('r');
            return e.code;
        } finally {
            Out.print('.');
        }
        return -1;
    }

    public static int main(int[] words) {
        int sum = 0;
        for (int word : words) {
            sum += tried(word);
        }
        Out.line();
        return sum;
    }
}
