/** The game of life on a board without edges, drawn at each fourth step. */
public class Life {
    public static void main(String[] words) {
        int size = 12;
        boolean[][] board = new boolean[size][size];
        int[][] alive = {{1, 2}, {2, 3}, {3, 1}, {3, 2}, {3, 3}, {8, 7}, {8, 8}, {8, 9}};
        for (int[] cell : alive) {
            board[cell[0]][cell[1]] = true;
        }
        for (int step = 0; step <= 8; step++) {
            if (step % 4 == 0) {
                for (boolean[] row : board) {
                    StringBuilder line = new StringBuilder();
                    for (boolean is : row) {
                        line.append(is ? '#' : '.');
                    }
                    System.out.println(line.toString());
                }
                System.out.println();
            }
            boolean[][] next = new boolean[size][size];
            for (int y = 0; y < size; y++) {
                for (int x = 0; x < size; x++) {
                    int around = 0;
                    for (int dy = -1; dy <= 1; dy++) {
                        for (int dx = -1; dx <= 1; dx++) {
                            if ((dy != 0 || dx != 0) && board[(y + dy + size) % size][(x + dx + size) % size]) {
                                around++;
                            }
                        }
                    }
                    next[y][x] = around == 3 || board[y][x] && around == 2;
                }
            }
            board = next;
        }
    }
}
