/**
 * The binary trees by which collectors are compared: a deep tree that goes at once, one that is kept to the end, and many of
 * each depth between that go as soon as they are counted.
 */
public class Trees {
    private static final int SHALLOWEST = 2;
    private static final int DEEPEST = 8;

    private static class Tree {
        Tree left;
        Tree right;

        Tree(int depth) {
            if (depth > 0) {
                left = new Tree(depth - 1);
                right = new Tree(depth - 1);
            }
        }

        int count() {
            return left == null ? 1 : 1 + left.count() + right.count();
        }
    }

    private static void told(int depth, int trees, int nodes) {
        System.out.println("depth " + depth + ": trees " + trees + ", nodes " + nodes);
    }

    public static void main(String[] arguments) {
        told(DEEPEST + 1, 1, new Tree(DEEPEST + 1).count());
        Tree kept = new Tree(DEEPEST);
        for (int depth = SHALLOWEST; depth <= DEEPEST; depth += 2) {
            int trees = 1 << DEEPEST - depth;
            int nodes = 0;
            for (int i = 0; i < trees; i++) {
                nodes += new Tree(depth).count();
            }
            told(depth, trees, nodes);
        }
        told(DEEPEST, 1, kept.count());
    }
}
