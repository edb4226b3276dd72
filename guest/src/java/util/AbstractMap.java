package java.util;

/** A map by the set of its entries. */
public abstract class AbstractMap<K, V> implements Map<K, V> {
    /** The views, once they were asked for. */
    Set<K> keys;
    Collection<V> values;

    protected AbstractMap() {}

    public abstract Set<Map.Entry<K, V>> entrySet();

    @Override
    public int size() {
        return entrySet().size();
    }

    @Override
    public boolean isEmpty() {
        return size() == 0;
    }

    private Map.Entry<K, V> find(Object key) {
        for (Map.Entry<K, V> entry : entrySet()) {
            if (Values.same(key, entry.getKey())) {
                return entry;
            }
        }
        return null;
    }

    @Override
    public boolean containsKey(Object key) {
        return find(key) != null;
    }

    @Override
    public boolean containsValue(Object value) {
        for (Map.Entry<K, V> entry : entrySet()) {
            if (Values.same(value, entry.getValue())) {
                return true;
            }
        }
        return false;
    }

    @Override
    public V get(Object key) {
        Map.Entry<K, V> entry = find(key);
        return entry == null ? null : entry.getValue();
    }

    @Override
    public V put(K key, V value) {
        throw new UnsupportedOperationException();
    }

    @Override
    public V remove(Object key) {
        for (Iterator<Map.Entry<K, V>> all = entrySet().iterator(); all.hasNext(); ) {
            Map.Entry<K, V> entry = all.next();
            if (Values.same(key, entry.getKey())) {
                V value = entry.getValue();
                all.remove();
                return value;
            }
        }
        return null;
    }

    @Override
    public void putAll(Map<? extends K, ? extends V> others) {
        for (Map.Entry<? extends K, ? extends V> entry : others.entrySet()) {
            put(entry.getKey(), entry.getValue());
        }
    }

    @Override
    public void clear() {
        entrySet().clear();
    }

    @Override
    public Set<K> keySet() {
        if (keys == null) {
            keys = new Keys<K, V>(this);
        }
        return keys;
    }

    @Override
    public Collection<V> values() {
        if (values == null) {
            values = new MapValues<K, V>(this);
        }
        return values;
    }

    @Override
    public boolean equals(Object other) {
        if (other == this) {
            return true;
        }
        if (!(other instanceof Map) || ((Map<?, ?>) other).size() != size()) {
            return false;
        }
        Map<?, ?> map = (Map<?, ?>) other;
        for (Map.Entry<K, V> entry : entrySet()) {
            V value = entry.getValue();
            Object its = map.get(entry.getKey());
            if (!Values.same(value, its) || value == null && !map.containsKey(entry.getKey())) {
                return false;
            }
        }
        return true;
    }

    @Override
    public int hashCode() {
        int sum = 0;
        for (Map.Entry<K, V> entry : entrySet()) {
            sum += Values.hash(entry);
        }
        return sum;
    }

    @Override
    public String toString() {
        StringBuilder text = new StringBuilder("{");
        boolean first = true;
        for (Map.Entry<K, V> entry : entrySet()) {
            K key = entry.getKey();
            V value = entry.getValue();
            text.append(first ? "" : ", ").append(key == this ? "(this Map)" : Values.text(key));
            text.append('=').append(value == this ? "(this Map)" : Values.text(value));
            first = false;
        }
        return text.append('}').toString();
    }

    /** What each entry of these classes has in common. */
    abstract static class Pair<K, V> implements Map.Entry<K, V> {
        @Override
        public boolean equals(Object other) {
            return other instanceof Map.Entry && Values.same(getKey(), ((Map.Entry<?, ?>) other).getKey())
                && Values.same(getValue(), ((Map.Entry<?, ?>) other).getValue());
        }

        @Override
        public int hashCode() {
            return Values.hash(getKey()) ^ Values.hash(getValue());
        }

        @Override
        public String toString() {
            return new StringBuilder(Values.text(getKey())).append('=').append(Values.text(getValue())).toString();
        }
    }

    /** An entry of no map. */
    public static class SimpleEntry<K, V> extends Pair<K, V> implements java.io.Serializable {
        private final K key;
        private V value;

        public SimpleEntry(K key, V value) {
            this.key = key;
            this.value = value;
        }

        public SimpleEntry(Map.Entry<? extends K, ? extends V> entry) {
            this(entry.getKey(), entry.getValue());
        }

        @Override
        public K getKey() {
            return key;
        }

        @Override
        public V getValue() {
            return value;
        }

        @Override
        public V setValue(V value) {
            V old = this.value;
            this.value = value;
            return old;
        }
    }

    /** An entry of no map, which stays as it is. */
    public static class SimpleImmutableEntry<K, V> extends Pair<K, V> implements java.io.Serializable {
        private final K key;
        private final V value;

        public SimpleImmutableEntry(K key, V value) {
            this.key = key;
            this.value = value;
        }

        public SimpleImmutableEntry(Map.Entry<? extends K, ? extends V> entry) {
            this(entry.getKey(), entry.getValue());
        }

        @Override
        public K getKey() {
            return key;
        }

        @Override
        public V getValue() {
            return value;
        }

        @Override
        public V setValue(V value) {
            throw new UnsupportedOperationException();
        }
    }

    /** The keys of a map. */
    static class Keys<K, V> extends AbstractSet<K> {
        final Map<K, V> map;

        Keys(Map<K, V> map) {
            this.map = map;
        }

        @Override
        public int size() {
            return map.size();
        }

        @Override
        public boolean contains(Object key) {
            return map.containsKey(key);
        }

        @Override
        public boolean remove(Object key) {
            boolean there = map.containsKey(key);
            map.remove(key);
            return there;
        }

        @Override
        public void clear() {
            map.clear();
        }

        @Override
        public Iterator<K> iterator() {
            return new KeyWalk<K, V>(map.entrySet().iterator());
        }
    }

    /** The values of a map. */
    static final class MapValues<K, V> extends AbstractCollection<V> {
        final Map<K, V> map;

        MapValues(Map<K, V> map) {
            this.map = map;
        }

        @Override
        public int size() {
            return map.size();
        }

        @Override
        public boolean contains(Object value) {
            return map.containsValue(value);
        }

        @Override
        public void clear() {
            map.clear();
        }

        @Override
        public Iterator<V> iterator() {
            return new ValueWalk<K, V>(map.entrySet().iterator());
        }
    }

    /** The entries of a map, of which a class below gives the walk. */
    abstract static class Entries<K, V> extends AbstractSet<Map.Entry<K, V>> {
        final Map<K, V> map;

        Entries(Map<K, V> map) {
            this.map = map;
        }

        @Override
        public int size() {
            return map.size();
        }

        @Override
        public boolean contains(Object other) {
            if (!(other instanceof Map.Entry)) {
                return false;
            }
            Map.Entry<?, ?> entry = (Map.Entry<?, ?>) other;
            V value = map.get(entry.getKey());
            return Values.same(value, entry.getValue()) && (value != null || map.containsKey(entry.getKey()));
        }

        @Override
        public boolean remove(Object other) {
            if (!contains(other)) {
                return false;
            }
            map.remove(((Map.Entry<?, ?>) other).getKey());
            return true;
        }

        @Override
        public void clear() {
            map.clear();
        }
    }

    static final class KeyWalk<K, V> implements Iterator<K> {
        final Iterator<Map.Entry<K, V>> entries;

        KeyWalk(Iterator<Map.Entry<K, V>> entries) {
            this.entries = entries;
        }

        @Override
        public boolean hasNext() {
            return entries.hasNext();
        }

        @Override
        public K next() {
            return entries.next().getKey();
        }

        @Override
        public void remove() {
            entries.remove();
        }
    }

    static final class ValueWalk<K, V> implements Iterator<V> {
        final Iterator<Map.Entry<K, V>> entries;

        ValueWalk(Iterator<Map.Entry<K, V>> entries) {
            this.entries = entries;
        }

        @Override
        public boolean hasNext() {
            return entries.hasNext();
        }

        @Override
        public V next() {
            return entries.next().getValue();
        }

        @Override
        public void remove() {
            entries.remove();
        }
    }
}
