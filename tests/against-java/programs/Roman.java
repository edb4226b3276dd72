/** Roman numerals there and back, and how often each letter stands in those up to 200. */
public class Roman {
    static final int[] VALUES = {1000, 900, 500, 400, 100, 90, 50, 40, 10, 9, 5, 4, 1};
    static final String[] LETTERS = {"M", "CM", "D", "CD", "C", "XC", "L", "XL", "X", "IX", "V", "IV", "I"};

    static String roman(int n) {
        StringBuilder text = new StringBuilder();
        for (int i = 0; i < VALUES.length; i++) {
            while (n >= VALUES[i]) {
                text.append(LETTERS[i]);
                n -= VALUES[i];
            }
        }
        return text.toString();
    }

    static int value(char letter) {
        switch (letter) {
            case 'I': return 1;
            case 'V': return 5;
            case 'X': return 10;
            case 'L': return 50;
            case 'C': return 100;
            case 'D': return 500;
            default: return 1000;
        }
    }

    static int number(String roman) {
        int sum = 0;
        for (int i = 0; i < roman.length(); i++) {
            int here = value(roman.charAt(i));
            boolean isBefore = i + 1 < roman.length() && here < value(roman.charAt(i + 1));
            sum += isBefore ? -here : here;
        }
        return sum;
    }

    public static void main(String[] words) {
        int[] counts = new int[128];
        boolean same = true;
        for (int n = 1; n <= 200; n++) {
            String roman = roman(n);
            same &= number(roman) == n;
            for (int i = 0; i < roman.length(); i++) {
                counts[roman.charAt(i)]++;
            }
        }
        System.out.println(same + " " + roman(1994) + " " + roman(3888) + " " + number("MMXXVI"));
        for (char c = 'A'; c <= 'Z'; c++) {
            if (counts[c] > 0) {
                System.out.println(c + " " + counts[c]);
            }
        }
    }
}
