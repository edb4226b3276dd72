/** Recursion: one that is deep, one that is wide, two methods that call each other, and one with long arguments. */
public class Recursion {
    static int depth(int n) {
        return n == 0 ? 0 : 1 + depth(n - 1);
    }

    static long ackermann(long m, long n) {
        if (m == 0) {
            return n + 1;
        }
        return n == 0 ? ackermann(m - 1, 1) : ackermann(m - 1, ackermann(m, n - 1));
    }

    static boolean isEven(int n) {
        return n == 0 || isOdd(n - 1);
    }

    static boolean isOdd(int n) {
        return n != 0 && isEven(n - 1);
    }

    static int moves;

    static void hanoi(int disks, char from, char to, char over) {
        if (disks == 0) {
            return;
        }
        hanoi(disks - 1, from, over, to);
        moves++;
        if (moves % 8 == 1) {
            System.out.println("move " + moves + " from " + from + " to " + to);
        }
        hanoi(disks - 1, over, to, from);
    }

    public static void main(String[] words) {
        System.out.println(depth(900));
        System.out.println(ackermann(2, 9));
        System.out.println(isEven(200) + " " + isOdd(200) + " " + isOdd(77));
        hanoi(7, 'a', 'c', 'b');
        System.out.println(moves);
    }
}
