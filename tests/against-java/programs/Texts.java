/** Strings: joining by +, equality of objects and of texts, charAt and length, and letters outside of ASCII. */
public class Texts {
    static String reversed(String text) {
        String result = "";
        for (int i = text.length() - 1; i >= 0; i--) {
            result = result + text.charAt(i);
        }
        return result;
    }

    static boolean isPalindrome(String text) {
        return text.equals(reversed(text));
    }

    static String hex(int n) {
        String digits = "0123456789abcdef";
        String result = "";
        for (int shift = 28; shift >= 0; shift -= 4) {
            result += digits.charAt(n >>> shift & 15);
        }
        return result;
    }

    public static void main(String[] words) {
        String none = null;
        System.out.println("joined: " + 1 + 2L + 'c' + true + none + "end" + (byte) -3 + (short) 300);
        System.out.println(1 + 2 + "three" + 4 + 5);
        System.out.println('a' + 'b' + "c" + 'd');
        String a = "same";
        String b = "sa";
        b += "me";
        System.out.println((a == "same") + " " + (a == b) + " " + a.equals(b) + " " + b.equals(a) + " " + a.equals(null));
        final String half = "sa";
        System.out.println(a == half + "me");
        System.out.println(reversed("stressed") + " " + isPalindrome("rotor") + " " + isPalindrome("motor"));
        System.out.println(hex(0) + " " + hex(-1) + " " + hex(0x1234abcd));
        System.out.println("é and ∀ and \uffff and \ud83d\udc18 and \u0000.".length());
        System.out.println("é and ∀ and \ud83d\udc18.");
        System.out.println((int) "∀".charAt(0) + " " + (int) "\ud83d\udc18".charAt(1));
        String long1 = "x";
        for (int i = 0; i < 10; i++) {
            long1 = long1 + long1;
        }
        System.out.println(long1.length());
        int[] at = {-1, 4, 3, 2147483647};
        for (int i : at) {
            try {
                System.out.println(a.charAt(i));
            } catch (StringIndexOutOfBoundsException fault) {
                System.out.println("no letter at " + i);
            }
        }
        try {
            System.out.println(none.length());
        } catch (NullPointerException fault) {
            System.out.println("no text");
        }
    }
}
