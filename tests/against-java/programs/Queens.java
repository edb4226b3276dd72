/** Queens on boards of four to seven: how many ways, and the first one drawn. */
public class Queens {
    private final int size;
    private final int[] column;
    private int found;

    Queens(int size) {
        this.size = size;
        column = new int[size];
    }

    private boolean isFree(int row, int at) {
        for (int r = 0; r < row; r++) {
            int apart = column[r] - at;
            if (apart == 0 || apart == row - r || apart == r - row) {
                return false;
            }
        }
        return true;
    }

    private void draw() {
        for (int row = 0; row < size; row++) {
            for (int at = 0; at < size; at++) {
                System.out.print(column[row] == at ? 'Q' : '.');
            }
            System.out.println();
        }
    }

    private void place(int row) {
        if (row == size) {
            found++;
            if (found == 1) {
                draw();
            }
            return;
        }
        for (int at = 0; at < size; at++) {
            if (isFree(row, at)) {
                column[row] = at;
                place(row + 1);
            }
        }
    }

    public static void main(String[] words) {
        for (int size = 4; size < 8; size++) {
            Queens queens = new Queens(size);
            queens.place(0);
            System.out.println(size + ": " + queens.found);
        }
    }
}
