/** The sieve of Eratosthenes, factors, and a power modulo a long. */
public class Primes {
    static long power(long base, long exponent, long modulus) {
        long result = 1;
        base %= modulus;
        while (exponent > 0) {
            if ((exponent & 1) == 1) {
                result = result * base % modulus;
            }
            base = base * base % modulus;
            exponent >>= 1;
        }
        return result;
    }

    static String factors(long n) {
        String text = n + " =";
        for (long by = 2; by * by <= n; by++) {
            while (n % by == 0) {
                text += " " + by;
                n /= by;
            }
        }
        return n > 1 ? text + " " + n : text;
    }

    public static void main(String[] words) {
        boolean[] composite = new boolean[500];
        int count = 0;
        for (int i = 2; i < composite.length; i++) {
            if (!composite[i]) {
                count++;
                System.out.print(i);
                System.out.print(count % 10 == 0 ? "\n" : " ");
                for (int k = i * i; k < composite.length; k += i) {
                    composite[k] = true;
                }
            }
        }
        System.out.println();
        System.out.println(count);
        System.out.println(factors(360) + "; " + factors(97) + "; " + factors(1000003L * 13) + "; " + factors(1L << 40));
        System.out.println(power(3, 1000000, 1000000007L) + " " + power(2, 62, 4294967291L));
    }
}
