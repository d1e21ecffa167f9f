/** A loop of fields and virtual calls: two objects of two classes take turns, each of which makes as many instructions. */
public class ObjectLoop {
    static class Cell {
        int value;
        long total;
        Cell next;

        int turn(int by) {
            value += by;
            total += value;
            return value & 15;
        }
    }

    static class Odd extends Cell {
        int turn(int by) {
            value = value * 3 ^ by;
            total -= by;
            return by + 1;
        }
    }

    public static int main(int[] words) {
        int turns = words[0];
        Cell at = new Cell();
        at.next = new Odd();
        at.next.next = at;
        int by = 1;
        for (int i = 0; i < turns; i++) {
            by = at.turn(by);
            at = at.next;
        }
        return by + at.value + (int) (at.total ^ at.next.total);
    }
}
