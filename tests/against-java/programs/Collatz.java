/** Long loops on int and long with few objects: the longest chains of Collatz below a bound, and a generator's sum. */
public class Collatz {
    static int length(long n) {
        int steps = 0;
        while (n != 1) {
            n = n % 2 == 0 ? n / 2 : 3 * n + 1;
            steps++;
        }
        return steps;
    }

    public static void main(String[] words) {
        int best = 0;
        for (int n = 1; n < 300; n++) {
            int steps = length(n);
            if (steps > best) {
                best = steps;
                System.out.println(n + " takes " + steps);
            }
        }
        System.out.println(length(837799L) + " " + length(9780657630L));
        int seed = 1;
        int sum = 0;
        for (int i = 0; i < 3000; i++) {
            seed = seed * 1103515245 + 12345;
            sum ^= seed >>> 16;
            if ((seed & 1024) != 0) {
                sum += i;
            }
        }
        System.out.println(seed + " " + sum);
    }
}
