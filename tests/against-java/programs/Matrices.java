/** Products and determinants of matrices of long, with private methods, static nested classes and varargs. */
public class Matrices {
    static long[][] matrix(int width, long... cells) {
        long[][] rows = new long[cells.length / width][width];
        for (int i = 0; i < cells.length; i++) {
            rows[i / width][i % width] = cells[i];
        }
        return rows;
    }

    static long[][] times(long[][] a, long[][] b) {
        long[][] product = new long[a.length][b[0].length];
        for (int i = 0; i < a.length; i++) {
            for (int k = 0; k < b[0].length; k++) {
                for (int j = 0; j < b.length; j++) {
                    product[i][k] += a[i][j] * b[j][k];
                }
            }
        }
        return product;
    }

    static long determinant(long[][] a) {
        if (a.length == 1) {
            return a[0][0];
        }
        long sum = 0;
        for (int left = 0; left < a.length; left++) {
            long[][] rest = new long[a.length - 1][a.length - 1];
            for (int i = 1; i < a.length; i++) {
                int to = 0;
                for (int k = 0; k < a.length; k++) {
                    if (k != left) {
                        rest[i - 1][to++] = a[i][k];
                    }
                }
            }
            sum += (left % 2 == 0 ? 1 : -1) * a[0][left] * determinant(rest);
        }
        return sum;
    }

    static void show(long[][] a) {
        for (long[] row : a) {
            for (long cell : row) {
                System.out.print(cell + " ");
            }
            System.out.println();
        }
    }

    public static void main(String[] words) {
        long[][] a = matrix(3, 2, -1, 0, 1, 3, 5, -4, 2, 7);
        long[][] b = matrix(2, 1, 2, 3, 4, 5, 6);
        show(times(a, b));
        show(times(matrix(2, 1, 1, 1, 0), matrix(2, 1, 1, 1, 0)));
        System.out.println(determinant(a) + " " + determinant(matrix(4, 2, 0, 1, 3, -1, 4, 2, 2, 0, 1, 5, -3, 6, 2, 2, 1)));
        long[][] power = matrix(2, 1, 0, 0, 1);
        for (int i = 0; i < 90; i++) {
            power = times(power, matrix(2, 1, 1, 1, 0));
        }
        show(power);
        try {
            show(times(b, b));
        } catch (ArrayIndexOutOfBoundsException fault) {
            System.out.println("no product");
        }
    }
}
