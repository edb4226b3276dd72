package java.util;

/** The entries of a TreeMap between two bounds, or those there are, in its order or against it. */
final class MapPart<K, V> extends SortedEntries<K, V> {
    final TreeMap<K, V> tree;
    final boolean hasLow;
    final K low;
    final boolean withLow;
    final boolean hasHigh;
    final K high;
    final boolean withHigh;
    final boolean down;

    MapPart(TreeMap<K, V> tree, boolean hasLow, K low, boolean withLow, boolean hasHigh, K high, boolean withHigh, boolean down) {
        this.tree = tree;
        this.hasLow = hasLow;
        this.low = low;
        this.withLow = withLow;
        this.hasHigh = hasHigh;
        this.high = high;
        this.withHigh = withHigh;
        this.down = down;
        if (hasLow) {
            compare(low, low);
        }
        if (hasHigh) {
            compare(high, high);
        }
        if (hasLow && hasHigh && compare(low, high) > 0) {
            throw new IllegalArgumentException();
        }
    }

    private int compare(Object a, Object b) {
        return Values.compare(tree.order, a, b);
    }

    private boolean isTooLow(Object key) {
        if (!hasLow) {
            return false;
        }
        int comparison = compare(key, low);
        return comparison < 0 || comparison == 0 && !withLow;
    }

    private boolean isTooHigh(Object key) {
        if (!hasHigh) {
            return false;
        }
        int comparison = compare(key, high);
        return comparison > 0 || comparison == 0 && !withHigh;
    }

    private boolean isWithin(Object key) {
        return !isTooLow(key) && !isTooHigh(key);
    }

    /** A bound of a part of this part: within, or at a bound that isn't. */
    private boolean isBound(K key, boolean inclusive) {
        return inclusive ? isWithin(key)
            : (!hasLow || compare(key, low) >= 0) && (!hasHigh || compare(key, high) <= 0);
    }

    private TreeMap.Node<K, V> within(TreeMap.Node<K, V> node) {
        return node == null || !isWithin(node.key) ? null : node;
    }

    private TreeMap.Node<K, V> lowest() {
        return within(hasLow ? tree.near(low, true, withLow) : tree.end(true));
    }

    private TreeMap.Node<K, V> highest() {
        return within(hasHigh ? tree.near(high, false, withHigh) : tree.end(false));
    }

    @Override
    void take(TreeMap.Node<K, V> node) {
        tree.take(node);
    }

    @Override
    SortedEntries.NodeWalk<K, V> walk() {
        return new SortedEntries.NodeWalk<K, V>(this, tree);
    }

    @Override
    TreeMap.Node<K, V> end(boolean first) {
        return first != down ? lowest() : highest();
    }

    @Override
    TreeMap.Node<K, V> step(TreeMap.Node<K, V> node, boolean forward) {
        return within(tree.step(node, forward != down));
    }

    @Override
    TreeMap.Node<K, V> near(K key, boolean forward, boolean inclusive) {
        boolean up = forward != down;
        if (up && isTooLow(key)) {
            return lowest();
        }
        if (!up && isTooHigh(key)) {
            return highest();
        }
        return within(tree.near(key, up, inclusive));
    }

    @Override
    MapPart<K, V> part(boolean low, K from, boolean withFrom, boolean high, K to, boolean withTo) {
        if (low && !isBound(from, withFrom) || high && !isBound(to, withTo)) {
            throw new IllegalArgumentException();
        }
        return down ? bounded(high, to, withTo, low, from, withFrom) : bounded(low, from, withFrom, high, to, withTo);
    }

    private MapPart<K, V> bounded(boolean low, K from, boolean withFrom, boolean high, K to, boolean withTo) {
        return new MapPart<K, V>(tree, low || hasLow, low ? from : this.low, low ? withFrom : withLow,
            high || hasHigh, high ? to : this.high, high ? withTo : withHigh, down);
    }

    @Override
    public Comparator<? super K> comparator() {
        return down ? Collections.reverseOrder(tree.order) : tree.order;
    }

    @Override
    public NavigableMap<K, V> descendingMap() {
        return new MapPart<K, V>(tree, hasLow, low, withLow, hasHigh, high, withHigh, !down);
    }

    @Override
    public int size() {
        int size = 0;
        for (TreeMap.Node<K, V> node = lowest(); node != null; node = within(tree.step(node, true))) {
            size++;
        }
        return size;
    }

    @Override
    public boolean isEmpty() {
        return lowest() == null;
    }

    @Override
    public boolean containsKey(Object key) {
        return isWithin(key) && tree.containsKey(key);
    }

    @Override
    public V get(Object key) {
        return isWithin(key) ? tree.get(key) : null;
    }

    @Override
    public V put(K key, V value) {
        if (!isWithin(key)) {
            throw new IllegalArgumentException("key out of range");
        }
        return tree.put(key, value);
    }

    @Override
    public V remove(Object key) {
        return isWithin(key) ? tree.remove(key) : null;
    }

    @Override
    public void clear() {
        for (TreeMap.Node<K, V> node = lowest(); node != null; node = lowest()) {
            tree.take(node);
        }
    }
}
