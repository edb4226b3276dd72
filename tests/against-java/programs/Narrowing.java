/** What is left of a number in a byte, a short, a char and a boolean, in variables, fields, array elements and results. */
public class Narrowing {
    static byte smallest;
    short small;
    char letter;
    boolean is;

    static byte toByte(int n) {
        return (byte) n;
    }

    static short toShort(int n) {
        return (short) n;
    }

    static char toChar(int n) {
        return (char) n;
    }

    public static void main(String[] words) {
        int[] numbers = {0, 1, -1, 127, 128, 255, 256, -128, -129, 32767, 32768, 65535, 65536, 70000, -70000, 1234567, Integer.MIN_VALUE};
        Narrowing kept = new Narrowing();
        byte[] bytes = new byte[numbers.length];
        short[] shorts = new short[numbers.length];
        char[] chars = new char[numbers.length];
        boolean[] booleans = new boolean[numbers.length];
        for (int i = 0; i < numbers.length; i++) {
            int n = numbers[i];
            bytes[i] = (byte) n;
            shorts[i] = (short) n;
            chars[i] = (char) n;
            booleans[i] = n % 2 == 0;
            smallest = (byte) (n + 1);
            kept.small = (short) (n + 1);
            kept.letter = (char) (n + 1);
            kept.is = n > 0;
            System.out.println(n + ": " + bytes[i] + " " + shorts[i] + " " + (int) chars[i] + " " + booleans[i]);
            System.out.println("  " + smallest + " " + kept.small + " " + (int) kept.letter + " " + kept.is);
            System.out.println("  " + toByte(n) + " " + toShort(n) + " " + (int) toChar(n) + " " + (long) (byte) n);
        }
        byte b = 127;
        b++;
        short s = -32768;
        s--;
        char c = 65535;
        c++;
        System.out.println(b + " " + s + " " + (int) c);
        b += 200;
        s *= 3;
        c -= 1;
        System.out.println(b + " " + s + " " + (int) c);
    }
}
