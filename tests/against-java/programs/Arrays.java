/** Arrays of each kind, of more dimensions, with rows of different lengths, and what lies outside of them. */
public class Arrays {
    static void sort(int[] numbers) {
        for (int i = 1; i < numbers.length; i++) {
            int moved = numbers[i];
            int k = i - 1;
            while (k >= 0 && numbers[k] > moved) {
                numbers[k + 1] = numbers[k];
                k--;
            }
            numbers[k + 1] = moved;
        }
    }

    static String shown(int[] numbers) {
        String text = "";
        for (int n : numbers) {
            text += n + ",";
        }
        return text;
    }

    public static void main(String[] words) {
        int[] numbers = {5, -3, 12, 0, 7, 7, -99, 4};
        sort(numbers);
        System.out.println(shown(numbers));
        long[][] table = new long[4][6];
        for (int i = 0; i < table.length; i++) {
            for (int k = 0; k < table[i].length; k++) {
                table[i][k] = 1000000007L * i - k;
            }
        }
        long sum = 0;
        for (long[] row : table) {
            for (long cell : row) {
                sum += cell;
            }
        }
        System.out.println(sum);
        int[][] triangle = new int[6][];
        for (int i = 0; i < triangle.length; i++) {
            triangle[i] = new int[i + 1];
            triangle[i][0] = 1;
            triangle[i][i] = 1;
            for (int k = 1; k < i; k++) {
                triangle[i][k] = triangle[i - 1][k - 1] + triangle[i - 1][k];
            }
            System.out.println(shown(triangle[i]));
        }
        String[] texts = new String[3];
        texts[1] = "middle";
        System.out.println(texts[0] + texts[1] + texts[2]);
        int[][][] deep = new int[2][3][];
        System.out.println(deep[1].length + " " + (deep[1][2] == null));
        int[] outside = {-1, 8, 9, Integer.MAX_VALUE, Integer.MIN_VALUE};
        for (int at : outside) {
            try {
                numbers[at] = 1;
                System.out.println("stored at " + at);
            } catch (ArrayIndexOutOfBoundsException fault) {
                System.out.println("nothing at " + at);
            }
        }
        try {
            System.out.println(new int[numbers[0]].length);
        } catch (NegativeArraySizeException fault) {
            System.out.println("no array");
        }
        try {
            Object[] objects = new String[1];
            objects[0] = numbers;
            System.out.println("stored");
        } catch (ArrayStoreException fault) {
            System.out.println("not stored");
        }
    }
}
