/** A class with fields of several types, a constant and an inner class. */
public class Point implements Comparable<Point> {
    static final int ORIGIN = 7;
    static final String NAME = "point";
    static final long FAR = 1L << 40;

    private int x;
    private long weight;

    Point(int x) {
        this.x = x;
    }

    @Deprecated
    public int compareTo(Point other) {
        return x < other.x ? -1 : x == other.x ? 0 : 1;
    }

    static int sum(int[] values) {
        int total = ORIGIN;
        for (int value : values) {
            total += value;
        }
        return total;
    }

    static String name(int kind) {
        switch (kind) {
            case 1:
                return NAME;
            case 1000:
                return "far";
            default:
                return null;
        }
    }

    class Inner {
        int get() {
            return x;
        }
    }
}
