package java.util;

/** What a TreeMap and the parts of one have in common: all by the node at either end and the one that is next. */
abstract class SortedEntries<K, V> extends AbstractMap<K, V> implements NavigableMap<K, V> {
    Set<Map.Entry<K, V>> entries;

    /** Takes out a node of the tree. */
    abstract void take(TreeMap.Node<K, V> node);

    abstract NodeWalk<K, V> walk();

    /** The first or the last node in this map's own direction. */
    abstract TreeMap.Node<K, V> end(boolean first);

    /** The node after or before one. */
    abstract TreeMap.Node<K, V> step(TreeMap.Node<K, V> node, boolean forward);

    /** The first node after a key, or the last one before it; that of the key itself counts or doesn't. */
    abstract TreeMap.Node<K, V> near(K key, boolean forward, boolean inclusive);

    /** The part between two keys, or from an end on where a bound isn't there. */
    abstract MapPart<K, V> part(boolean low, K from, boolean withFrom, boolean high, K to, boolean withTo);

    private static <K, V> Map.Entry<K, V> copy(TreeMap.Node<K, V> node) {
        return node == null ? null : new SimpleImmutableEntry<K, V>(node);
    }

    private static <K> K keyOf(TreeMap.Node<K, ?> node) {
        return node == null ? null : node.key;
    }

    private K present(TreeMap.Node<K, V> node) {
        if (node == null) {
            throw new NoSuchElementException();
        }
        return node.key;
    }

    private Map.Entry<K, V> poll(TreeMap.Node<K, V> node) {
        Map.Entry<K, V> entry = copy(node);
        if (node != null) {
            take(node);
        }
        return entry;
    }

    @Override
    public K firstKey() {
        return present(end(true));
    }

    @Override
    public K lastKey() {
        return present(end(false));
    }

    @Override
    public Map.Entry<K, V> firstEntry() {
        return copy(end(true));
    }

    @Override
    public Map.Entry<K, V> lastEntry() {
        return copy(end(false));
    }

    @Override
    public Map.Entry<K, V> pollFirstEntry() {
        return poll(end(true));
    }

    @Override
    public Map.Entry<K, V> pollLastEntry() {
        return poll(end(false));
    }

    @Override
    public Map.Entry<K, V> lowerEntry(K key) {
        return copy(near(key, false, false));
    }

    @Override
    public K lowerKey(K key) {
        return keyOf(near(key, false, false));
    }

    @Override
    public Map.Entry<K, V> floorEntry(K key) {
        return copy(near(key, false, true));
    }

    @Override
    public K floorKey(K key) {
        return keyOf(near(key, false, true));
    }

    @Override
    public Map.Entry<K, V> ceilingEntry(K key) {
        return copy(near(key, true, true));
    }

    @Override
    public K ceilingKey(K key) {
        return keyOf(near(key, true, true));
    }

    @Override
    public Map.Entry<K, V> higherEntry(K key) {
        return copy(near(key, true, false));
    }

    @Override
    public K higherKey(K key) {
        return keyOf(near(key, true, false));
    }

    // VIEWS

    @Override
    public Set<K> keySet() {
        return navigableKeySet();
    }

    @Override
    public NavigableSet<K> navigableKeySet() {
        if (keys == null) {
            keys = new SortedKeys<K>(this);
        }
        return (NavigableSet<K>) keys;
    }

    @Override
    public NavigableSet<K> descendingKeySet() {
        return descendingMap().navigableKeySet();
    }

    @Override
    public Set<Map.Entry<K, V>> entrySet() {
        if (entries == null) {
            entries = new NodeEntries<K, V>(this);
        }
        return entries;
    }

    @Override
    public NavigableMap<K, V> subMap(K from, boolean withFrom, K to, boolean withTo) {
        return part(true, from, withFrom, true, to, withTo);
    }

    @Override
    public NavigableMap<K, V> headMap(K to, boolean withTo) {
        return part(false, null, false, true, to, withTo);
    }

    @Override
    public NavigableMap<K, V> tailMap(K from, boolean withFrom) {
        return part(true, from, withFrom, false, null, false);
    }

    @Override
    public SortedMap<K, V> subMap(K from, K to) {
        return subMap(from, true, to, false);
    }

    @Override
    public SortedMap<K, V> headMap(K to) {
        return headMap(to, false);
    }

    @Override
    public SortedMap<K, V> tailMap(K from) {
        return tailMap(from, true);
    }

    /** The keys, as a set to which nothing can be added. */
    static final class SortedKeys<K> extends TreeSet<K> {
        SortedKeys(NavigableMap<K, ?> map) {
            super(map);
        }

        @Override
        public boolean add(K key) {
            throw new UnsupportedOperationException();
        }

        @Override
        public boolean addAll(Collection<? extends K> others) {
            throw new UnsupportedOperationException();
        }
    }

    static final class NodeEntries<K, V> extends AbstractMap.Entries<K, V> {
        final SortedEntries<K, V> sorted;

        NodeEntries(SortedEntries<K, V> sorted) {
            super(sorted);
            this.sorted = sorted;
        }

        @Override
        public Iterator<Map.Entry<K, V>> iterator() {
            return sorted.walk();
        }
    }

    /** A walk from node to node. */
    static final class NodeWalk<K, V> implements Iterator<Map.Entry<K, V>> {
        final SortedEntries<K, V> sorted;
        final TreeMap<K, V> tree;
        TreeMap.Node<K, V> next;
        TreeMap.Node<K, V> last;
        int changes;

        NodeWalk(SortedEntries<K, V> sorted, TreeMap<K, V> tree) {
            this.sorted = sorted;
            this.tree = tree;
            this.next = sorted.end(true);
            this.changes = tree.changes;
        }

        @Override
        public boolean hasNext() {
            return next != null;
        }

        @Override
        public Map.Entry<K, V> next() {
            if (next == null) {
                throw new NoSuchElementException();
            }
            if (changes != tree.changes) {
                throw new ConcurrentModificationException();
            }
            last = next;
            next = sorted.step(last, true);
            return last;
        }

        @Override
        public void remove() {
            if (last == null) {
                throw new IllegalStateException();
            }
            if (changes != tree.changes) {
                throw new ConcurrentModificationException();
            }
            tree.take(last);
            last = null;
            changes = tree.changes;
        }
    }
}
