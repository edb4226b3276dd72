/** Numbers of many digits in arrays of int: sums, products, and what they are in decimal. */
public class BigNumbers {
    private final int[] digits;

    BigNumbers(int[] digits) {
        this.digits = digits;
    }

    static BigNumbers of(int n) {
        int[] digits = new int[40];
        for (int i = 0; n > 0; i++) {
            digits[i] = n % 10000;
            n /= 10000;
        }
        return new BigNumbers(digits);
    }

    BigNumbers plus(BigNumbers other) {
        int[] sum = new int[digits.length];
        int carry = 0;
        for (int i = 0; i < sum.length; i++) {
            int here = digits[i] + other.digits[i] + carry;
            sum[i] = here % 10000;
            carry = here / 10000;
        }
        return new BigNumbers(sum);
    }

    BigNumbers times(int factor) {
        int[] product = new int[digits.length];
        long carry = 0;
        for (int i = 0; i < product.length; i++) {
            long here = (long) digits[i] * factor + carry;
            product[i] = (int) (here % 10000);
            carry = here / 10000;
        }
        return new BigNumbers(product);
    }

    public String toString() {
        String text = "";
        boolean begun = false;
        for (int i = digits.length - 1; i >= 0; i--) {
            if (begun) {
                String more = "" + (10000 + digits[i]);
                for (int k = 1; k < more.length(); k++) {
                    text += more.charAt(k);
                }
            } else if (digits[i] > 0) {
                begun = true;
                text += digits[i];
            }
        }
        return begun ? text : "0";
    }

    public static void main(String[] words) {
        BigNumbers a = of(0);
        BigNumbers b = of(1);
        for (int i = 1; i <= 300; i++) {
            BigNumbers next = a.plus(b);
            a = b;
            b = next;
            if (i % 50 == 0) {
                System.out.println("fibonacci " + i + " is " + a.toString());
            }
        }
        BigNumbers factorial = of(1);
        for (int i = 2; i <= 60; i++) {
            factorial = factorial.times(i);
        }
        System.out.println(factorial.toString());
        System.out.println(of(0).toString());
    }
}
