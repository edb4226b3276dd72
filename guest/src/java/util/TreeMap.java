package java.util;

/**
 * A map in the order of its keys, as a red-black tree: no red node has a red parent, and each way from the root down to where
 * a node is missing has as many black ones.
 */
public class TreeMap<K, V> extends SortedEntries<K, V> implements NavigableMap<K, V>, Cloneable, java.io.Serializable {
    static final class Node<K, V> extends AbstractMap.Pair<K, V> {
        final K key;
        V value;
        Node<K, V> left;
        Node<K, V> right;
        Node<K, V> parent;
        boolean red = true;

        Node(K key, V value, Node<K, V> parent) {
            this.key = key;
            this.value = value;
            this.parent = parent;
        }

        @Override
        public K getKey() {
            return key;
        }

        @Override
        public V getValue() {
            return value;
        }

        @Override
        public V setValue(V value) {
            V old = this.value;
            this.value = value;
            return old;
        }

        Node<K, V> child(boolean onTheRight) {
            return onTheRight ? right : left;
        }
    }

    final Comparator<? super K> order;
    Node<K, V> root;
    int size;
    int changes;

    public TreeMap() {
        order = null;
    }

    public TreeMap(Comparator<? super K> order) {
        this.order = order;
    }

    public TreeMap(Map<? extends K, ? extends V> others) {
        order = null;
        putAll(others);
    }

    public TreeMap(SortedMap<K, ? extends V> others) {
        order = others.comparator();
        putAll(others);
    }

    private int compare(Object a, Object b) {
        return Values.compare(order, a, b);
    }

    // LOOKING

    Node<K, V> find(Object key) {
        if (key == null && order == null) {
            throw new NullPointerException();
        }
        Node<K, V> node = root;
        while (node != null) {
            int comparison = compare(key, node.key);
            if (comparison == 0) {
                return node;
            }
            node = node.child(comparison > 0);
        }
        return null;
    }

    @Override
    SortedEntries.NodeWalk<K, V> walk() {
        return new SortedEntries.NodeWalk<K, V>(this, this);
    }

    @Override
    Node<K, V> end(boolean first) {
        return root == null ? null : outermost(root, !first);
    }

    private static <K, V> Node<K, V> outermost(Node<K, V> node, boolean onTheRight) {
        while (node.child(onTheRight) != null) {
            node = node.child(onTheRight);
        }
        return node;
    }

    @Override
    Node<K, V> step(Node<K, V> node, boolean forward) {
        if (node.child(forward) != null) {
            return outermost(node.child(forward), !forward);
        }
        Node<K, V> above = node.parent;
        while (above != null && node == above.child(forward)) {
            node = above;
            above = above.parent;
        }
        return above;
    }

    @Override
    Node<K, V> near(K key, boolean forward, boolean inclusive) {
        if (key == null && order == null) {
            throw new NullPointerException();
        }
        Node<K, V> nearest = null;
        Node<K, V> node = root;
        while (node != null) {
            int comparison = compare(key, node.key);
            if (comparison == 0 && inclusive) {
                return node;
            }
            boolean isBeyond = forward ? comparison < 0 : comparison > 0;
            if (isBeyond) {
                nearest = node;
            }
            node = node.child(forward ? !isBeyond : isBeyond);
        }
        return nearest;
    }

    // CHANGING

    @Override
    public V put(K key, V value) {
        return put(key, value, true);
    }

    private V put(K key, V value, boolean replaces) {
        Node<K, V> parent = null;
        Node<K, V> node = root;
        int comparison = node == null ? compare(key, key) : 0;
        while (node != null) {
            comparison = compare(key, node.key);
            if (comparison == 0) {
                V old = node.value;
                if (replaces || old == null) {
                    node.value = value;
                }
                return old;
            }
            parent = node;
            node = node.child(comparison > 0);
        }
        Node<K, V> made = new Node<K, V>(key, value, parent);
        if (parent == null) {
            root = made;
        } else if (comparison < 0) {
            parent.left = made;
        } else {
            parent.right = made;
        }
        repairRed(made);
        size++;
        changes++;
        return null;
    }

    @Override
    public V putIfAbsent(K key, V value) {
        return put(key, value, false);
    }

    /** Where a node stood under its parent, another one stands. */
    private void stead(Node<K, V> node, Node<K, V> other) {
        if (node.parent == null) {
            root = other;
        } else if (node == node.parent.left) {
            node.parent.left = other;
        } else {
            node.parent.right = other;
        }
        if (other != null) {
            other.parent = node.parent;
        }
    }

    /** Turns a node down to the left or the right, and its other child up. */
    private void turn(Node<K, V> node, boolean toTheRight) {
        Node<K, V> up = node.child(!toTheRight);
        Node<K, V> moved = up.child(toTheRight);
        stead(node, up);
        if (toTheRight) {
            node.left = moved;
            up.right = node;
        } else {
            node.right = moved;
            up.left = node;
        }
        if (moved != null) {
            moved.parent = node;
        }
        node.parent = up;
    }

    private static boolean isRed(Node<?, ?> node) {
        return node != null && node.red;
    }

    /** A red node was put in: its parent may be red too. */
    private void repairRed(Node<K, V> node) {
        while (node.parent != null && node.parent.red) {
            Node<K, V> parent = node.parent;
            Node<K, V> above = parent.parent;
            boolean onTheRight = parent == above.right;
            Node<K, V> uncle = above.child(!onTheRight);
            if (isRed(uncle)) {
                parent.red = false;
                uncle.red = false;
                above.red = true;
                node = above;
            } else {
                if (node == parent.child(!onTheRight)) {
                    turn(parent, onTheRight);
                    parent = node;
                    node = parent.child(onTheRight);
                }
                parent.red = false;
                above.red = true;
                turn(above, !onTheRight);
            }
        }
        root.red = false;
    }

    @Override
    void take(Node<K, V> node) {
        boolean wasRed = node.red;
        Node<K, V> child;
        Node<K, V> parent;
        if (node.left == null || node.right == null) {
            child = node.left == null ? node.right : node.left;
            parent = node.parent;
            stead(node, child);
        } else {
            Node<K, V> next = outermost(node.right, false);
            wasRed = next.red;
            child = next.right;
            parent = next;
            if (next.parent != node) {
                parent = next.parent;
                stead(next, child);
                next.right = node.right;
                next.right.parent = next;
            }
            stead(node, next);
            next.left = node.left;
            next.left.parent = next;
            next.red = node.red;
        }
        if (!wasRed) {
            repairBlack(child, parent);
        }
        size--;
        changes++;
    }

    /** A black node is missing above this one, which may be null, under the parent. */
    private void repairBlack(Node<K, V> node, Node<K, V> parent) {
        while (parent != null && !isRed(node)) {
            boolean onTheRight = node == parent.right;
            Node<K, V> sibling = parent.child(!onTheRight);
            if (sibling.red) {
                sibling.red = false;
                parent.red = true;
                turn(parent, onTheRight);
                sibling = parent.child(!onTheRight);
            }
            if (!isRed(sibling.left) && !isRed(sibling.right)) {
                sibling.red = true;
                node = parent;
                parent = node.parent;
            } else {
                if (!isRed(sibling.child(!onTheRight))) {
                    sibling.child(onTheRight).red = false;
                    sibling.red = true;
                    turn(sibling, !onTheRight);
                    sibling = parent.child(!onTheRight);
                }
                sibling.red = parent.red;
                parent.red = false;
                sibling.child(!onTheRight).red = false;
                turn(parent, onTheRight);
                node = root;
                parent = null;
            }
        }
        if (node != null) {
            node.red = false;
        }
    }

    // THE MAP

    @Override
    public Comparator<? super K> comparator() {
        return order;
    }

    @Override
    public int size() {
        return size;
    }

    @Override
    public boolean containsKey(Object key) {
        return find(key) != null;
    }

    @Override
    public V get(Object key) {
        Node<K, V> node = find(key);
        return node == null ? null : node.value;
    }

    @Override
    public V remove(Object key) {
        Node<K, V> node = find(key);
        if (node == null) {
            return null;
        }
        take(node);
        return node.value;
    }

    @Override
    public void clear() {
        changes++;
        size = 0;
        root = null;
    }

    @Override
    public NavigableMap<K, V> descendingMap() {
        return new MapPart<K, V>(this, false, null, false, false, null, false, true);
    }

    @Override
    MapPart<K, V> part(boolean low, K from, boolean withFrom, boolean high, K to, boolean withTo) {
        return new MapPart<K, V>(this, low, from, withFrom, high, to, withTo, false);
    }

    public Object clone() {
        return new TreeMap<K, V>((SortedMap<K, V>) this);
    }
}
