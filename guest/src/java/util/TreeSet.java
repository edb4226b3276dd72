package java.util;

/** The keys of a TreeMap, as a set. */
public class TreeSet<E> extends AbstractSet<E> implements NavigableSet<E>, Cloneable, java.io.Serializable {
    private static final Object THERE = new Object();

    private final NavigableMap<E, Object> map;

    public TreeSet() {
        map = new TreeMap<E, Object>();
    }

    public TreeSet(Comparator<? super E> order) {
        map = new TreeMap<E, Object>(order);
    }

    public TreeSet(Collection<? extends E> others) {
        map = new TreeMap<E, Object>();
        addAll(others);
    }

    public TreeSet(SortedSet<E> others) {
        map = new TreeMap<E, Object>(others.comparator());
        addAll(others);
    }

    /** The keys of this map. */
    @SuppressWarnings("unchecked")
    TreeSet(NavigableMap<E, ?> map) {
        this.map = (NavigableMap<E, Object>) map;
    }

    private static <E> E keyOf(Map.Entry<E, ?> entry) {
        return entry == null ? null : entry.getKey();
    }

    @Override
    public int size() {
        return map.size();
    }

    @Override
    public boolean isEmpty() {
        return map.isEmpty();
    }

    @Override
    public boolean contains(Object element) {
        return map.containsKey(element);
    }

    @Override
    public boolean add(E element) {
        return map.put(element, THERE) == null;
    }

    @Override
    public boolean remove(Object element) {
        boolean there = map.containsKey(element);
        map.remove(element);
        return there;
    }

    @Override
    public void clear() {
        map.clear();
    }

    @Override
    public Comparator<? super E> comparator() {
        return map.comparator();
    }

    @Override
    public E first() {
        return map.firstKey();
    }

    @Override
    public E last() {
        return map.lastKey();
    }

    @Override
    public E lower(E element) {
        return map.lowerKey(element);
    }

    @Override
    public E floor(E element) {
        return map.floorKey(element);
    }

    @Override
    public E ceiling(E element) {
        return map.ceilingKey(element);
    }

    @Override
    public E higher(E element) {
        return map.higherKey(element);
    }

    @Override
    public E pollFirst() {
        return keyOf(map.pollFirstEntry());
    }

    @Override
    public E pollLast() {
        return keyOf(map.pollLastEntry());
    }

    @Override
    public Iterator<E> iterator() {
        return new AbstractMap.KeyWalk<E, Object>(map.entrySet().iterator());
    }

    @Override
    public Iterator<E> descendingIterator() {
        return new AbstractMap.KeyWalk<E, Object>(map.descendingMap().entrySet().iterator());
    }

    @Override
    public NavigableSet<E> descendingSet() {
        return new TreeSet<E>(map.descendingMap());
    }

    @Override
    public NavigableSet<E> subSet(E from, boolean withFrom, E to, boolean withTo) {
        return new TreeSet<E>(map.subMap(from, withFrom, to, withTo));
    }

    @Override
    public NavigableSet<E> headSet(E to, boolean withTo) {
        return new TreeSet<E>(map.headMap(to, withTo));
    }

    @Override
    public NavigableSet<E> tailSet(E from, boolean withFrom) {
        return new TreeSet<E>(map.tailMap(from, withFrom));
    }

    @Override
    public SortedSet<E> subSet(E from, E to) {
        return subSet(from, true, to, false);
    }

    @Override
    public SortedSet<E> headSet(E to) {
        return headSet(to, false);
    }

    @Override
    public SortedSet<E> tailSet(E from) {
        return tailSet(from, true);
    }

    public Object clone() {
        return new TreeSet<E>((SortedSet<E>) this);
    }
}
