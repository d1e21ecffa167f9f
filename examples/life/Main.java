package life;

import nrmi.Out;

/**
 * Shows arrays of arrays and the printing of text: a glider on a board whose edges meet, drawn after so many rounds as the
 * first number says. What is returned is how many cells live.
 */
public class Main {
    private static final int SIDE = 8;

    private static int neighbours(boolean[][] board, int y, int x) {
        int count = 0;
        for (int dy = -1; dy <= 1; dy++) {
            for (int dx = -1; dx <= 1; dx++) {
                if ((dy != 0 || dx != 0) && board[(y + dy + SIDE) % SIDE][(x + dx + SIDE) % SIDE]) {
                    count++;
                }
            }
        }
        return count;
    }

    private static boolean[][] next(boolean[][] board) {
        boolean[][] made = new boolean[SIDE][SIDE];
        for (int y = 0; y < SIDE; y++) {
            for (int x = 0; x < SIDE; x++) {
                int count = neighbours(board, y, x);
                made[y][x] = count == 3 || count == 2 && board[y][x];
            }
        }
        return made;
    }

    private static int draw(boolean[][] board) {
        int living = 0;
        char[] line = new char[SIDE];
        for (boolean[] row : board) {
            for (int x = 0; x < SIDE; x++) {
                line[x] = row[x] ? '\u2588' : '.';
                living += row[x] ? 1 : 0;
            }
            Out.print(line);
            Out.line();
        }
        return living;
    }

    public static int main(int[] words) {
        boolean[][] board = new boolean[SIDE][SIDE];
        int[][] glider = {{0, 1}, {1, 2}, {2, 0}, {2, 1}, {2, 2}};
        for (int[] cell : glider) {
            board[cell[0]][cell[1]] = true;
        }
        for (int round = 0; round < words[0]; round++) {
            board = next(board);
        }
        return draw(board);
    }
}
