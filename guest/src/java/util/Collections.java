package java.util;

/** What is done with collections, and collections that are made of others. */
public class Collections {
    private Collections() {}

    public static final List EMPTY_LIST = unmodifiableList(new ArrayList<Object>(0));
    public static final Set EMPTY_SET = unmodifiableSet(new HashSet<Object>(0));
    public static final Map EMPTY_MAP = unmodifiableMap(new HashMap<Object, Object>(0));

    // ORDER

    public static <T extends Comparable<? super T>> void sort(List<T> list) {
        list.sort(null);
    }

    public static <T> void sort(List<T> list, Comparator<? super T> order) {
        list.sort(order);
    }

    public static <T> int binarySearch(List<? extends Comparable<? super T>> list, T key) {
        return search(list, key, null);
    }

    public static <T> int binarySearch(List<? extends T> list, T key, Comparator<? super T> order) {
        return search(list, key, order);
    }

    private static int search(List<?> list, Object key, Comparator<?> order) {
        int low = 0;
        int high = list.size() - 1;
        while (low <= high) {
            int middle = low + high >>> 1;
            int comparison = Values.compare(order, list.get(middle), key);
            if (comparison == 0) {
                return middle;
            }
            if (comparison < 0) {
                low = middle + 1;
            } else {
                high = middle - 1;
            }
        }
        return -(low + 1);
    }

    public static <T extends Object & Comparable<? super T>> T min(Collection<? extends T> all) {
        return least(all, null, false);
    }

    public static <T> T min(Collection<? extends T> all, Comparator<? super T> order) {
        return least(all, order, false);
    }

    public static <T extends Object & Comparable<? super T>> T max(Collection<? extends T> all) {
        return least(all, null, true);
    }

    public static <T> T max(Collection<? extends T> all, Comparator<? super T> order) {
        return least(all, order, true);
    }

    /** The first of the least or of the greatest. */
    private static <T> T least(Collection<? extends T> all, Comparator<? super T> order, boolean greatest) {
        Iterator<? extends T> elements = all.iterator();
        T found = elements.next();
        while (elements.hasNext()) {
            T element = elements.next();
            int comparison = Values.compare(order, element, found);
            if (greatest ? comparison > 0 : comparison < 0) {
                found = element;
            }
        }
        return found;
    }

    @SuppressWarnings("unchecked")
    public static <T> Comparator<T> reverseOrder() {
        return (Comparator<T>) Orders.AGAINST;
    }

    public static <T> Comparator<T> reverseOrder(Comparator<T> order) {
        if (order == null) {
            return reverseOrder();
        }
        if (order instanceof Orders.Reversed) {
            return ((Orders.Reversed<T>) order).order;
        }
        return order == Orders.NATURAL || order == Orders.AGAINST ? order.reversed() : new Orders.Reversed<T>(order);
    }

    // CHANGES

    public static void reverse(List<?> list) {
        int size = list.size();
        for (int i = 0; i < size >> 1; i++) {
            swap(list, i, size - 1 - i);
        }
    }

    /** As with a Random that was made without a seed. */
    public static void shuffle(List<?> list) {
        shuffle(list, new Random());
    }

    /** From the last place down, each with a chosen one up to it. */
    public static void shuffle(List<?> list, Random random) {
        for (int i = list.size(); i > 1; i--) {
            swap(list, i - 1, random.nextInt(i));
        }
    }

    @SuppressWarnings("unchecked")
    public static void swap(List<?> list, int i, int j) {
        List<Object> objects = (List<Object>) list;
        objects.set(i, objects.set(j, objects.get(i)));
    }

    @SuppressWarnings("unchecked")
    public static void rotate(List<?> list, int distance) {
        int size = list.size();
        if (size == 0) {
            return;
        }
        Object[] elements = list.toArray();
        int shift = Math.floorMod(distance, size);
        List<Object> objects = (List<Object>) list;
        for (int i = 0; shift != 0 && i < size; i++) {
            objects.set((i + shift) % size, elements[i]);
        }
    }

    public static <T> void fill(List<? super T> list, T value) {
        for (int i = 0; i < list.size(); i++) {
            list.set(i, value);
        }
    }

    public static <T> void copy(List<? super T> to, List<? extends T> from) {
        if (from.size() > to.size()) {
            throw new IndexOutOfBoundsException("Source does not fit in dest");
        }
        for (int i = 0; i < from.size(); i++) {
            to.set(i, from.get(i));
        }
    }

    public static <T> boolean replaceAll(List<T> list, T old, T value) {
        boolean changed = false;
        for (int i = 0; i < list.size(); i++) {
            if (Values.same(old, list.get(i))) {
                list.set(i, value);
                changed = true;
            }
        }
        return changed;
    }

    public static <T> boolean addAll(Collection<? super T> all, T... added) {
        boolean changed = false;
        for (int i = 0; i < added.length; i++) {
            changed |= all.add(added[i]);
        }
        return changed;
    }

    // QUESTIONS

    public static int frequency(Collection<?> all, Object value) {
        int count = 0;
        for (Object element : all) {
            if (Values.same(value, element)) {
                count++;
            }
        }
        return count;
    }

    public static boolean disjoint(Collection<?> a, Collection<?> b) {
        for (Object element : a) {
            if (b.contains(element)) {
                return false;
            }
        }
        return true;
    }

    // SMALL COLLECTIONS

    @SuppressWarnings("unchecked")
    public static <T> List<T> emptyList() {
        return (List<T>) EMPTY_LIST;
    }

    @SuppressWarnings("unchecked")
    public static <T> Set<T> emptySet() {
        return (Set<T>) EMPTY_SET;
    }

    @SuppressWarnings("unchecked")
    public static <K, V> Map<K, V> emptyMap() {
        return (Map<K, V>) EMPTY_MAP;
    }

    public static <T> Iterator<T> emptyIterator() {
        return Collections.<T>emptyList().iterator();
    }

    public static <T> Set<T> singleton(T element) {
        Set<T> one = new HashSet<T>(1);
        one.add(element);
        return unmodifiableSet(one);
    }

    public static <T> List<T> singletonList(T element) {
        return nCopies(1, element);
    }

    public static <K, V> Map<K, V> singletonMap(K key, V value) {
        Map<K, V> one = new HashMap<K, V>(1);
        one.put(key, value);
        return unmodifiableMap(one);
    }

    public static <T> List<T> nCopies(int count, T element) {
        if (count < 0) {
            throw new IllegalArgumentException();
        }
        return new Copies<T>(count, element);
    }

    static final class Copies<E> extends AbstractList<E> implements RandomAccess, java.io.Serializable {
        final int count;
        final E element;

        Copies(int count, E element) {
            this.count = count;
            this.element = element;
        }

        @Override
        public int size() {
            return count;
        }

        @Override
        public E get(int index) {
            Values.checkIndex(index, count);
            return element;
        }
    }

    public static <E> Set<E> newSetFromMap(Map<E, Boolean> map) {
        return new SetOfMap<E>(map);
    }

    /** The keys of a map, as a set to which can be added. */
    static final class SetOfMap<E> extends AbstractSet<E> implements java.io.Serializable {
        final Map<E, Boolean> map;

        SetOfMap(Map<E, Boolean> map) {
            if (!map.isEmpty()) {
                throw new IllegalArgumentException("Map is non-empty");
            }
            this.map = map;
        }

        @Override
        public int size() {
            return map.size();
        }

        @Override
        public boolean contains(Object element) {
            return map.containsKey(element);
        }

        @Override
        public boolean add(E element) {
            return map.put(element, Boolean.TRUE) == null;
        }

        @Override
        public boolean remove(Object element) {
            return map.remove(element) != null;
        }

        @Override
        public void clear() {
            map.clear();
        }

        @Override
        public Iterator<E> iterator() {
            return map.keySet().iterator();
        }
    }

    // COLLECTIONS FOR SEVERAL THREADS

    public static <T> Collection<T> synchronizedCollection(Collection<T> all) {
        return new Locked.OfCollection<T>(all, null);
    }

    public static <T> Set<T> synchronizedSet(Set<T> all) {
        return new Locked.OfSet<T>(all, null);
    }

    public static <T> List<T> synchronizedList(List<T> all) {
        return new Locked.OfList<T>(all, null);
    }

    public static <K, V> Map<K, V> synchronizedMap(Map<K, V> map) {
        return new Locked.OfMap<K, V>(map);
    }

    // COLLECTIONS THAT CAN'T BE CHANGED BY THIS WAY

    public static <T> Collection<T> unmodifiableCollection(Collection<? extends T> all) {
        return new FixedCollection<T>(Objects.requireNonNull(all));
    }

    public static <T> Set<T> unmodifiableSet(Set<? extends T> all) {
        return new FixedSet<T>(Objects.requireNonNull(all));
    }

    public static <T> List<T> unmodifiableList(List<? extends T> all) {
        return new FixedList<T>(Objects.requireNonNull(all));
    }

    public static <K, V> Map<K, V> unmodifiableMap(Map<? extends K, ? extends V> map) {
        return new FixedMap<K, V>(Objects.requireNonNull(map));
    }

    static final class FixedWalk<E> implements Iterator<E> {
        final Iterator<? extends E> all;

        FixedWalk(Iterator<? extends E> all) {
            this.all = all;
        }

        @Override
        public boolean hasNext() {
            return all.hasNext();
        }

        @Override
        public E next() {
            return all.next();
        }
    }

    static final class FixedCollection<E> extends AbstractCollection<E> implements java.io.Serializable {
        final Collection<? extends E> all;

        FixedCollection(Collection<? extends E> all) {
            this.all = all;
        }

        @Override
        public int size() {
            return all.size();
        }

        @Override
        public boolean contains(Object element) {
            return all.contains(element);
        }

        @Override
        public Iterator<E> iterator() {
            return new FixedWalk<E>(all.iterator());
        }

        @Override
        public boolean remove(Object element) {
            throw new UnsupportedOperationException();
        }

        @Override
        public void clear() {
            throw new UnsupportedOperationException();
        }
    }

    static final class FixedSet<E> extends AbstractSet<E> implements java.io.Serializable {
        final Set<? extends E> all;

        FixedSet(Set<? extends E> all) {
            this.all = all;
        }

        @Override
        public int size() {
            return all.size();
        }

        @Override
        public boolean contains(Object element) {
            return all.contains(element);
        }

        @Override
        public Iterator<E> iterator() {
            return new FixedWalk<E>(all.iterator());
        }

        @Override
        public boolean remove(Object element) {
            throw new UnsupportedOperationException();
        }

        @Override
        public void clear() {
            throw new UnsupportedOperationException();
        }
    }

    static final class FixedList<E> extends AbstractList<E> implements RandomAccess, java.io.Serializable {
        final List<? extends E> all;

        FixedList(List<? extends E> all) {
            this.all = all;
        }

        @Override
        public int size() {
            return all.size();
        }

        @Override
        public E get(int index) {
            return all.get(index);
        }

        @Override
        public boolean contains(Object element) {
            return all.contains(element);
        }

        @Override
        public boolean remove(Object element) {
            throw new UnsupportedOperationException();
        }

        @Override
        public void clear() {
            throw new UnsupportedOperationException();
        }

        @Override
        public void sort(Comparator<? super E> order) {
            throw new UnsupportedOperationException();
        }
    }

    static final class FixedMap<K, V> extends AbstractMap<K, V> implements java.io.Serializable {
        final Map<? extends K, ? extends V> map;

        FixedMap(Map<? extends K, ? extends V> map) {
            this.map = map;
        }

        @Override
        public int size() {
            return map.size();
        }

        @Override
        public boolean containsKey(Object key) {
            return map.containsKey(key);
        }

        @Override
        public V get(Object key) {
            return map.get(key);
        }

        @Override
        public V remove(Object key) {
            throw new UnsupportedOperationException();
        }

        @Override
        public void clear() {
            throw new UnsupportedOperationException();
        }

        @Override
        public Set<Map.Entry<K, V>> entrySet() {
            return new FixedEntries<K, V>(this);
        }
    }

    /** Entries that can't be changed either. */
    static final class FixedEntries<K, V> extends AbstractSet<Map.Entry<K, V>> {
        final FixedMap<K, V> fixed;

        FixedEntries(FixedMap<K, V> fixed) {
            this.fixed = fixed;
        }

        @Override
        public int size() {
            return fixed.size();
        }

        @Override
        public Iterator<Map.Entry<K, V>> iterator() {
            return new FixedEntryWalk<K, V>(fixed.map.entrySet().iterator());
        }

        @Override
        public boolean remove(Object entry) {
            throw new UnsupportedOperationException();
        }

        @Override
        public void clear() {
            throw new UnsupportedOperationException();
        }
    }

    static final class FixedEntryWalk<K, V> implements Iterator<Map.Entry<K, V>> {
        final Iterator<? extends Map.Entry<? extends K, ? extends V>> all;

        FixedEntryWalk(Iterator<? extends Map.Entry<? extends K, ? extends V>> all) {
            this.all = all;
        }

        @Override
        public boolean hasNext() {
            return all.hasNext();
        }

        @Override
        public Map.Entry<K, V> next() {
            return new AbstractMap.SimpleImmutableEntry<K, V>(all.next());
        }
    }
}
