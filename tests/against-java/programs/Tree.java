/** A search tree of ints with removal, and the sums of its levels. */
public class Tree {
    private static class Node {
        int key;
        Node left;
        Node right;

        Node(int key) {
            this.key = key;
        }
    }

    private Node root;
    private int size;

    boolean add(int key) {
        if (root == null) {
            root = new Node(key);
            size = 1;
            return true;
        }
        Node at = root;
        while (true) {
            if (key == at.key) {
                return false;
            }
            Node next = key < at.key ? at.left : at.right;
            if (next == null) {
                if (key < at.key) {
                    at.left = new Node(key);
                } else {
                    at.right = new Node(key);
                }
                size++;
                return true;
            }
            at = next;
        }
    }

    private static Node without(Node node, int key) {
        if (node == null) {
            return null;
        }
        if (key < node.key) {
            node.left = without(node.left, key);
        } else if (key > node.key) {
            node.right = without(node.right, key);
        } else if (node.left == null) {
            return node.right;
        } else if (node.right == null) {
            return node.left;
        } else {
            Node least = node.right;
            while (least.left != null) {
                least = least.left;
            }
            node.key = least.key;
            node.right = without(node.right, least.key);
        }
        return node;
    }

    private static void show(Node node, StringBuilder text) {
        if (node != null) {
            text.append('(');
            show(node.left, text);
            text.append(node.key);
            show(node.right, text);
            text.append(')');
        }
    }

    private static void sum(Node node, int level, long[] sums) {
        if (node != null) {
            sums[level] += node.key;
            sum(node.left, level + 1, sums);
            sum(node.right, level + 1, sums);
        }
    }

    public static void main(String[] words) {
        Tree tree = new Tree();
        int state = 7;
        for (int i = 0; i < 60; i++) {
            state = state * 75 % 65537;
            tree.add(state % 100);
        }
        StringBuilder text = new StringBuilder();
        show(tree.root, text);
        System.out.println(tree.size + " " + text.toString());
        long[] sums = new long[20];
        sum(tree.root, 0, sums);
        for (long level : sums) {
            System.out.print(level);
            System.out.print(' ');
        }
        System.out.println();
        for (int key = 0; key < 100; key += 3) {
            tree.root = without(tree.root, key);
        }
        text = new StringBuilder();
        show(tree.root, text);
        System.out.println(text.toString());
    }
}
