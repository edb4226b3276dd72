package java.util;

import java.util.function.BiConsumer;
import java.util.function.BiFunction;
import java.util.function.Function;

/**
 * A map by hash codes. The table has a power of two of bins, at least one for each entry and a third more; an entry is in
 * the bin of the low bits of its hash code, after the high half of that is mixed into the low one. A walk goes from bin to
 * bin. A table that doubles parts each bin into two and keeps the order in each.
 */
public class HashMap<K, V> extends AbstractMap<K, V> implements Map<K, V>, Cloneable, java.io.Serializable {
    static final int FIRST_TABLE = 16;
    static final int LONGEST_TABLE = 1 << 30;
    /**
     * A table below this length doubles when a bin becomes too long: longer than eight by a key at its end, and longer than
     * seven by one at its beginning.
     */
    static final int WIDE_TABLE = 64;
    static final int LONG_BIN = 8;

    static class Node<K, V> extends AbstractMap.Pair<K, V> {
        final int hash;
        final K key;
        V value;
        Node<K, V> next;

        Node(int hash, K key, V value, Node<K, V> next) {
            this.hash = hash;
            this.key = key;
            this.value = value;
            this.next = next;
        }

        @Override
        public K getKey() {
            return key;
        }

        @Override
        public V getValue() {
            return value;
        }

        @Override
        public V setValue(V value) {
            V old = this.value;
            this.value = value;
            return old;
        }
    }

    /** Null until the first entry comes. */
    Node<K, V>[] table;
    int size;
    /** With a table, how many entries it takes; without one, how long it will be, or 0. */
    int threshold;
    int changes;
    Set<Map.Entry<K, V>> entries;

    public HashMap() {}

    public HashMap(int capacity) {
        if (capacity < 0) {
            throw new IllegalArgumentException();
        }
        threshold = tableFor(capacity);
    }

    public HashMap(Map<? extends K, ? extends V> others) {
        putAll(others);
    }

    /** The least power of two that isn't below. */
    static int tableFor(int capacity) {
        int length = 1;
        while (length < capacity && length < LONGEST_TABLE) {
            length <<= 1;
        }
        return length;
    }

    /** So many that three quarters of them are enough for these. */
    static int roomFor(int entries) {
        return (int) Math.min(4L * entries / 3 + 1, LONGEST_TABLE);
    }

    static int spread(Object key) {
        int hash = Values.hash(key);
        return hash ^ hash >>> 16;
    }

    // WHAT LinkedHashMap ADDS. A class of this package stands in the descriptor of each method that isn't private, since no
    // class of another package may declare a method of that name and descriptor below.

    Node<K, V> newNode(int hash, K key, V value, Node<K, V> next) {
        return new Node<K, V>(hash, key, value, next);
    }

    void inserted(Node<K, V> node) {}

    void removed(Node<K, V> node) {}

    EntryWalk<K, V> walk() {
        return new BinWalk<K, V>(this);
    }

    // THE TABLE

    @SuppressWarnings("unchecked")
    private void grow() {
        Node<K, V>[] old = table;
        int length = old != null ? 2 * old.length : threshold > 0 ? threshold : FIRST_TABLE;
        if (length > LONGEST_TABLE) {
            threshold = Integer.MAX_VALUE;
            return;
        }
        threshold = length / 4 * 3 + length % 4 * 3 / 4;
        table = (Node<K, V>[]) new Node[length];
        if (old != null) {
            for (int i = 0; i < old.length; i++) {
                part(old[i], i, old.length);
            }
        }
    }

    /** Parts the nodes of a bin of a table that had so many bins. */
    private void part(Node<K, V> bin, int place, int bins) {
        Node<K, V> lastLow = null;
        Node<K, V> lastHigh = null;
        while (bin != null) {
            Node<K, V> next = bin.next;
            bin.next = null;
            if ((bin.hash & bins) == 0) {
                if (lastLow == null) {
                    table[place] = bin;
                } else {
                    lastLow.next = bin;
                }
                lastLow = bin;
            } else {
                if (lastHigh == null) {
                    table[place + bins] = bin;
                } else {
                    lastHigh.next = bin;
                }
                lastHigh = bin;
            }
            bin = next;
        }
    }

    Node<K, V> find(Object key) {
        return table == null ? null : findHashed(spread(key), key);
    }

    private Node<K, V> findHashed(int hash, Object key) {
        for (Node<K, V> node = table[hash & table.length - 1]; node != null; node = node.next) {
            if (node.hash == hash && Values.same(key, node.key)) {
                return node;
            }
        }
        return null;
    }

    /** Puts a key at the end of its bin, or finds it. */
    private V put(K key, V value, boolean replaces) {
        if (table == null) {
            grow();
        }
        int hash = spread(key);
        int place = hash & table.length - 1;
        Node<K, V> last = null;
        int passed = 0;
        for (Node<K, V> node = table[place]; node != null; node = node.next) {
            if (node.hash == hash && Values.same(key, node.key)) {
                V old = node.value;
                if (replaces || old == null) {
                    node.value = value;
                }
                return old;
            }
            last = node;
            passed++;
        }
        Node<K, V> made = newNode(hash, key, value, null);
        if (last == null) {
            table[place] = made;
        } else {
            last.next = made;
            widen(passed);
        }
        changes++;
        size++;
        if (size > threshold) {
            grow();
        }
        inserted(made);
        return null;
    }

    private void widen(int passed) {
        if (passed >= LONG_BIN && table.length < WIDE_TABLE) {
            grow();
        }
    }

    /** What the methods do that compute a value: a new key comes to the beginning of its bin. */
    private void putFirst(int hash, K key, V value) {
        int place = hash & table.length - 1;
        int passed = 0;
        for (Node<K, V> node = table[place]; node != null; node = node.next) {
            passed++;
        }
        Node<K, V> made = newNode(hash, key, value, table[place]);
        table[place] = made;
        widen(passed + 1);
        changes++;
        size++;
        inserted(made);
    }

    private void growBefore() {
        if (table == null || size > threshold) {
            grow();
        }
    }

    Node<K, V> take(Object key) {
        if (table == null) {
            return null;
        }
        int hash = spread(key);
        Node<K, V> before = null;
        for (Node<K, V> node = table[hash & table.length - 1]; node != null; node = node.next) {
            if (node.hash == hash && Values.same(key, node.key)) {
                unlink(node, before);
                return node;
            }
            before = node;
        }
        return null;
    }

    private void unlink(Node<K, V> node, Node<K, V> before) {
        if (before == null) {
            table[node.hash & table.length - 1] = node.next;
        } else {
            before.next = node.next;
        }
        changes++;
        size--;
        removed(node);
    }

    /** Takes out a node that is there. */
    void takeNode(Node<K, V> node) {
        Node<K, V> before = null;
        for (Node<K, V> other = table[node.hash & table.length - 1]; other != node; other = other.next) {
            before = other;
        }
        unlink(node, before);
    }

    // THE MAP

    @Override
    public int size() {
        return size;
    }

    @Override
    public boolean isEmpty() {
        return size == 0;
    }

    @Override
    public boolean containsKey(Object key) {
        return find(key) != null;
    }

    @Override
    public V get(Object key) {
        Node<K, V> node = find(key);
        return node == null ? null : node.value;
    }

    @Override
    public V getOrDefault(Object key, V other) {
        Node<K, V> node = find(key);
        return node == null ? other : node.value;
    }

    @Override
    public V put(K key, V value) {
        return put(key, value, true);
    }

    @Override
    public V putIfAbsent(K key, V value) {
        return put(key, value, false);
    }

    @Override
    public void putAll(Map<? extends K, ? extends V> others) {
        int count = others.size();
        if (count > 0 && table == null) {
            int room = roomFor(count);
            if (room > threshold) {
                threshold = tableFor(room);
            }
        } else {
            while (count > threshold && table != null && table.length < LONGEST_TABLE) {
                grow();
            }
        }
        for (Map.Entry<? extends K, ? extends V> entry : others.entrySet()) {
            put(entry.getKey(), entry.getValue(), true);
        }
    }

    @Override
    public V remove(Object key) {
        Node<K, V> node = take(key);
        return node == null ? null : node.value;
    }

    @Override
    public boolean remove(Object key, Object value) {
        Node<K, V> node = find(key);
        if (node == null || !Values.same(value, node.value)) {
            return false;
        }
        takeNode(node);
        return true;
    }

    @Override
    public boolean replace(K key, V old, V value) {
        Node<K, V> node = find(key);
        if (node == null || !Values.same(old, node.value)) {
            return false;
        }
        node.value = value;
        return true;
    }

    @Override
    public V replace(K key, V value) {
        Node<K, V> node = find(key);
        if (node == null) {
            return null;
        }
        return node.setValue(value);
    }

    @Override
    public void clear() {
        changes++;
        if (table != null) {
            for (int i = 0; i < table.length; i++) {
                table[i] = null;
            }
        }
        size = 0;
    }

    @Override
    public boolean containsValue(Object value) {
        for (Iterator<Map.Entry<K, V>> all = walk(); all.hasNext(); ) {
            if (Values.same(value, all.next().getValue())) {
                return true;
            }
        }
        return false;
    }

    @Override
    public V computeIfAbsent(K key, Function<? super K, ? extends V> function) {
        Objects.requireNonNull(function);
        growBefore();
        int hash = spread(key);
        Node<K, V> node = findHashed(hash, key);
        if (node != null && node.value != null) {
            return node.value;
        }
        int before = changes;
        V made = function.apply(key);
        checkUnchanged(this, before);
        if (made != null) {
            become(hash, key, node, made);
        }
        return made;
    }

    @Override
    public V computeIfPresent(K key, BiFunction<? super K, ? super V, ? extends V> function) {
        Objects.requireNonNull(function);
        Node<K, V> node = find(key);
        if (node == null || node.value == null) {
            return null;
        }
        int before = changes;
        V made = function.apply(key, node.value);
        checkUnchanged(this, before);
        become(node.hash, key, node, made);
        return made;
    }

    @Override
    public V compute(K key, BiFunction<? super K, ? super V, ? extends V> function) {
        Objects.requireNonNull(function);
        growBefore();
        int hash = spread(key);
        Node<K, V> node = findHashed(hash, key);
        int before = changes;
        V made = function.apply(key, node == null ? null : node.value);
        checkUnchanged(this, before);
        become(hash, key, node, made);
        return made;
    }

    @Override
    public V merge(K key, V value, BiFunction<? super V, ? super V, ? extends V> function) {
        Objects.requireNonNull(value);
        Objects.requireNonNull(function);
        growBefore();
        int hash = spread(key);
        Node<K, V> node = findHashed(hash, key);
        V made = value;
        if (node != null && node.value != null) {
            int before = changes;
            made = function.apply(node.value, value);
            checkUnchanged(this, before);
        }
        become(hash, key, node, made);
        return made;
    }

    static void checkUnchanged(HashMap<?, ?> map, int before) {
        if (map.changes != before) {
            throw new ConcurrentModificationException();
        }
    }

    private void become(int hash, K key, Node<K, V> node, V value) {
        if (node == null) {
            if (value != null) {
                putFirst(hash, key, value);
            }
        } else if (value == null) {
            takeNode(node);
        } else {
            node.value = value;
        }
    }

    @Override
    public void forEach(BiConsumer<? super K, ? super V> action) {
        Objects.requireNonNull(action);
        int before = changes;
        Node<K, V>[] bins = table;
        for (int i = 0; bins != null && i < bins.length; i++) {
            for (Node<K, V> node = bins[i]; node != null; node = node.next) {
                action.accept(node.key, node.value);
            }
        }
        checkUnchanged(this, before);
    }

    @Override
    public Set<Map.Entry<K, V>> entrySet() {
        if (entries == null) {
            entries = new HashEntries<K, V>(this);
        }
        return entries;
    }

    public Object clone() {
        return new HashMap<K, V>(this);
    }

    static final class HashEntries<K, V> extends AbstractMap.Entries<K, V> {
        final HashMap<K, V> hashed;

        HashEntries(HashMap<K, V> hashed) {
            super(hashed);
            this.hashed = hashed;
        }

        @Override
        public boolean contains(Object other) {
            if (!(other instanceof Map.Entry)) {
                return false;
            }
            Node<K, V> node = hashed.find(((Map.Entry<?, ?>) other).getKey());
            return node != null && node.equals(other);
        }

        @Override
        public Iterator<Map.Entry<K, V>> iterator() {
            return hashed.walk();
        }
    }

    abstract static class EntryWalk<K, V> implements Iterator<Map.Entry<K, V>> {}

    /** A walk from bin to bin. */
    static final class BinWalk<K, V> extends EntryWalk<K, V> {
        final HashMap<K, V> map;
        Node<K, V> next;
        Node<K, V> last;
        int bin;
        int changes;

        BinWalk(HashMap<K, V> map) {
            this.map = map;
            this.changes = map.changes;
            find();
        }

        private void find() {
            Node<K, V>[] table = map.table;
            while (next == null && table != null && bin < table.length) {
                next = table[bin++];
            }
        }

        @Override
        public boolean hasNext() {
            return next != null;
        }

        @Override
        public Map.Entry<K, V> next() {
            if (changes != map.changes) {
                throw new ConcurrentModificationException();
            }
            if (next == null) {
                throw new NoSuchElementException();
            }
            last = next;
            next = last.next;
            find();
            return last;
        }

        @Override
        public void remove() {
            if (last == null) {
                throw new IllegalStateException();
            }
            if (changes != map.changes) {
                throw new ConcurrentModificationException();
            }
            map.takeNode(last);
            last = null;
            changes = map.changes;
        }
    }
}
