/** Prints three lines, each joined from a text and a number. The builder and the string of a line die as it is printed. */
public class Hello {
    public static void main(String[] words) {
        for (int i = 1; i <= 3; i++) {
            System.out.println("elephant " + i);
        }
    }
}
