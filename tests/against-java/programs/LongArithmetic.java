/** The arithmetic of long: overflow, shifts by more than 63, comparison, and conversions to int and back. */
public class LongArithmetic {
    static void all(long a, long b, int by) {
        System.out.println(a + " and " + b + ": " + (a + b) + " " + (a - b) + " " + (a * b) + " " + (a & b) + " " + (a | b) + " " + (a ^ b));
        System.out.println("shifted " + (a << by) + " " + (a >> by) + " " + (a >>> by) + ", negative " + (-a) + ", inverted " + (~a));
        System.out.println("as an int " + (int) a + ", back " + (long) (int) a + ", less " + (a < b) + ", same " + (a == b) + ", greater " + (a > b));
        if (b != 0) {
            System.out.println("divided " + (a / b) + " rest " + (a % b));
        }
    }

    public static void main(String[] words) {
        long[] numbers = {0, 1, -1, 3, -3, 4294967295L, 4294967296L, -4294967296L, 1L << 62, Long.MAX_VALUE, Long.MIN_VALUE};
        int[] shifts = {0, 1, 31, 32, 63, 64, 65, -1};
        for (int i = 0; i < numbers.length; i++) {
            for (int k = 0; k < numbers.length; k++) {
                all(numbers[i], numbers[k], shifts[(i + k) % shifts.length]);
            }
        }
        try {
            System.out.println(numbers[1] / numbers[0]);
        } catch (ArithmeticException fault) {
            System.out.println("not divided");
        }
    }
}
