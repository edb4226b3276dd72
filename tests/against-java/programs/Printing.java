/** What print and println write: every kind, at its ends, letters outside of ASCII, and lines without a text. */
public class Printing {
    public static void main(String[] words) {
        System.out.print("a text");
        System.out.print('c');
        System.out.print(-7);
        System.out.print(8L);
        System.out.print(true);
        System.out.println();
        System.out.println((String) null);
        System.out.println("");
        System.out.println(Integer.MIN_VALUE);
        System.out.println(Integer.MAX_VALUE);
        System.out.println(Long.MIN_VALUE);
        System.out.println(Long.MAX_VALUE);
        System.out.println('\u00e9');
        System.out.println('\u2200');
        System.out.println("\u0000\u00e9\u07ff\u0800\uffff\ud83d\udc18");
        System.out.println("\ud83d alone, \udc18 alone");
        System.out.println(1 > 2);
        System.out.println((byte) 200);
        System.out.println((short) 40000);
        System.out.println((char) 65);
        System.out.println('a' + 1);
        System.out.println((char) ('a' + 1));
        System.out.println(1L << 40);
        System.out.print("no line end");
    }
}
