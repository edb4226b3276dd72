/** Switches, dense and sparse, with falling through, on int, char and byte, and within loops with labels. */
public class Switches {
    static String dense(int n) {
        switch (n) {
            case -1: return "minus one";
            case 0: return "zero";
            case 1:
            case 2: return "one or two";
            case 4: return "four";
            default: return "other";
        }
    }

    static long sparse(int n) {
        switch (n) {
            case Integer.MIN_VALUE: return 1L;
            case -1000: return 2L;
            case 7: return 3L;
            case 123456789: return 4L;
            case Integer.MAX_VALUE: return 5L;
            default: return 0L;
        }
    }

    static int fallen(char letter) {
        int sum = 0;
        switch (letter) {
            case 'a': sum += 1;
            case 'b': sum += 10;
            case 'c': sum += 100; break;
            case 'z': sum += 1000;
            default: sum += 10000;
        }
        return sum;
    }

    public static void main(String[] words) {
        for (int n = -3; n < 7; n++) {
            System.out.println(n + " " + dense(n));
        }
        int[] far = {Integer.MIN_VALUE, Integer.MIN_VALUE + 1, -1000, -999, 0, 7, 8, 123456789, Integer.MAX_VALUE};
        for (int n : far) {
            System.out.println(n + " " + sparse(n));
        }
        for (char c = 'a'; c <= 'e'; c++) {
            System.out.println(c + " " + fallen(c));
        }
        System.out.println(fallen('z'));
        int count = 0;
        outer:
        for (int i = 0; i < 10; i++) {
            for (int k = 0; k < 10; k++) {
                count++;
                if (k == i) {
                    continue outer;
                }
                if (i * k > 20) {
                    break outer;
                }
            }
        }
        System.out.println(count);
        byte kind = 3;
        do {
            switch (kind) {
                case 3: kind = 1; continue;
                case 1: kind = 0; break;
            }
            System.out.println("kind " + kind);
        } while (kind > 0);
    }
}
