/** The arithmetic of int: overflow, division towards zero, remainders, shifts by more than 31, and the bitwise operators. */
public class Arithmetic {
    static void all(int a, int b) {
        System.out.println(a + " and " + b + ": " + (a + b) + " " + (a - b) + " " + (a * b) + " " + (a & b) + " " + (a | b) + " " + (a ^ b));
        System.out.println("shifted " + (a << b) + " " + (a >> b) + " " + (a >>> b) + ", negative " + (-a) + ", inverted " + (~a));
        try {
            System.out.println("divided " + (a / b) + " rest " + (a % b));
        } catch (ArithmeticException fault) {
            System.out.println("not divided");
        }
    }

    public static void main(String[] words) {
        int[] numbers = {0, 1, -1, 2, -2, 7, -7, 31, 32, 33, 255, -256, 65535, 65536, 1 << 30, Integer.MAX_VALUE, Integer.MIN_VALUE};
        for (int i = 0; i < numbers.length; i++) {
            for (int k = 0; k < numbers.length; k++) {
                all(numbers[i], numbers[k]);
            }
        }
        int n = Integer.MAX_VALUE;
        n++;
        System.out.println(n);
        n -= 1;
        n += 3;
        System.out.println(n);
    }
}
