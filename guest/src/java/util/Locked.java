package java.util;

import java.util.function.BiConsumer;
import java.util.function.BiFunction;
import java.util.function.Consumer;
import java.util.function.Function;
import java.util.function.Predicate;
import java.util.function.UnaryOperator;

/** Collections of which each method takes a monitor: that of the first one, for those that it gives too. Walks take none. */
final class Locked {
    private Locked() {}

    static class OfCollection<E> implements Collection<E>, java.io.Serializable {
        final Collection<E> all;
        final Object lock;

        OfCollection(Collection<E> all, Object lock) {
            this.all = Objects.requireNonNull(all);
            this.lock = lock == null ? this : lock;
        }

        @Override
        public int size() {
            synchronized (lock) {
                return all.size();
            }
        }

        @Override
        public boolean isEmpty() {
            synchronized (lock) {
                return all.isEmpty();
            }
        }

        @Override
        public boolean contains(Object element) {
            synchronized (lock) {
                return all.contains(element);
            }
        }

        @Override
        public Iterator<E> iterator() {
            return all.iterator();
        }

        @Override
        public Object[] toArray() {
            synchronized (lock) {
                return all.toArray();
            }
        }

        @Override
        public <T> T[] toArray(T[] array) {
            synchronized (lock) {
                return all.toArray(array);
            }
        }

        @Override
        public boolean add(E element) {
            synchronized (lock) {
                return all.add(element);
            }
        }

        @Override
        public boolean remove(Object element) {
            synchronized (lock) {
                return all.remove(element);
            }
        }

        @Override
        public boolean containsAll(Collection<?> others) {
            synchronized (lock) {
                return all.containsAll(others);
            }
        }

        @Override
        public boolean addAll(Collection<? extends E> others) {
            synchronized (lock) {
                return all.addAll(others);
            }
        }

        @Override
        public boolean removeAll(Collection<?> others) {
            synchronized (lock) {
                return all.removeAll(others);
            }
        }

        @Override
        public boolean retainAll(Collection<?> others) {
            synchronized (lock) {
                return all.retainAll(others);
            }
        }

        @Override
        public boolean removeIf(Predicate<? super E> condition) {
            synchronized (lock) {
                return all.removeIf(condition);
            }
        }

        @Override
        public void forEach(Consumer<? super E> action) {
            synchronized (lock) {
                all.forEach(action);
            }
        }

        @Override
        public void clear() {
            synchronized (lock) {
                all.clear();
            }
        }

        @Override
        public String toString() {
            synchronized (lock) {
                return Values.text(all);
            }
        }
    }

    static final class OfSet<E> extends OfCollection<E> implements Set<E> {
        OfSet(Set<E> all, Object lock) {
            super(all, lock);
        }

        @Override
        public boolean equals(Object other) {
            if (this == other) {
                return true;
            }
            synchronized (lock) {
                return all.equals(other);
            }
        }

        @Override
        public int hashCode() {
            synchronized (lock) {
                return all.hashCode();
            }
        }
    }

    static final class OfList<E> extends OfCollection<E> implements List<E>, RandomAccess {
        final List<E> list;

        OfList(List<E> list, Object lock) {
            super(list, lock);
            this.list = list;
        }

        @Override
        public boolean equals(Object other) {
            if (this == other) {
                return true;
            }
            synchronized (lock) {
                return list.equals(other);
            }
        }

        @Override
        public int hashCode() {
            synchronized (lock) {
                return list.hashCode();
            }
        }

        @Override
        public E get(int index) {
            synchronized (lock) {
                return list.get(index);
            }
        }

        @Override
        public E set(int index, E element) {
            synchronized (lock) {
                return list.set(index, element);
            }
        }

        @Override
        public void add(int index, E element) {
            synchronized (lock) {
                list.add(index, element);
            }
        }

        @Override
        public E remove(int index) {
            synchronized (lock) {
                return list.remove(index);
            }
        }

        @Override
        public boolean addAll(int index, Collection<? extends E> others) {
            synchronized (lock) {
                return list.addAll(index, others);
            }
        }

        @Override
        public int indexOf(Object element) {
            synchronized (lock) {
                return list.indexOf(element);
            }
        }

        @Override
        public int lastIndexOf(Object element) {
            synchronized (lock) {
                return list.lastIndexOf(element);
            }
        }

        @Override
        public ListIterator<E> listIterator() {
            return list.listIterator();
        }

        @Override
        public ListIterator<E> listIterator(int index) {
            return list.listIterator(index);
        }

        @Override
        public List<E> subList(int from, int to) {
            synchronized (lock) {
                return new OfList<E>(list.subList(from, to), lock);
            }
        }

        @Override
        public void replaceAll(UnaryOperator<E> operator) {
            synchronized (lock) {
                list.replaceAll(operator);
            }
        }

        @Override
        public void sort(Comparator<? super E> order) {
            synchronized (lock) {
                list.sort(order);
            }
        }
    }

    static final class OfMap<K, V> implements Map<K, V>, java.io.Serializable {
        final Map<K, V> map;
        private Set<K> keys;
        private Collection<V> values;
        private Set<Map.Entry<K, V>> entries;

        OfMap(Map<K, V> map) {
            this.map = Objects.requireNonNull(map);
        }

        @Override
        public synchronized int size() {
            return map.size();
        }

        @Override
        public synchronized boolean isEmpty() {
            return map.isEmpty();
        }

        @Override
        public synchronized boolean containsKey(Object key) {
            return map.containsKey(key);
        }

        @Override
        public synchronized boolean containsValue(Object value) {
            return map.containsValue(value);
        }

        @Override
        public synchronized V get(Object key) {
            return map.get(key);
        }

        @Override
        public synchronized V getOrDefault(Object key, V other) {
            return map.getOrDefault(key, other);
        }

        @Override
        public synchronized V put(K key, V value) {
            return map.put(key, value);
        }

        @Override
        public synchronized V putIfAbsent(K key, V value) {
            return map.putIfAbsent(key, value);
        }

        @Override
        public synchronized void putAll(Map<? extends K, ? extends V> others) {
            map.putAll(others);
        }

        @Override
        public synchronized V remove(Object key) {
            return map.remove(key);
        }

        @Override
        public synchronized boolean remove(Object key, Object value) {
            return map.remove(key, value);
        }

        @Override
        public synchronized boolean replace(K key, V old, V value) {
            return map.replace(key, old, value);
        }

        @Override
        public synchronized V replace(K key, V value) {
            return map.replace(key, value);
        }

        @Override
        public synchronized void clear() {
            map.clear();
        }

        @Override
        public synchronized V computeIfAbsent(K key, Function<? super K, ? extends V> function) {
            return map.computeIfAbsent(key, function);
        }

        @Override
        public synchronized V computeIfPresent(K key, BiFunction<? super K, ? super V, ? extends V> function) {
            return map.computeIfPresent(key, function);
        }

        @Override
        public synchronized V compute(K key, BiFunction<? super K, ? super V, ? extends V> function) {
            return map.compute(key, function);
        }

        @Override
        public synchronized V merge(K key, V value, BiFunction<? super V, ? super V, ? extends V> function) {
            return map.merge(key, value, function);
        }

        @Override
        public synchronized void forEach(BiConsumer<? super K, ? super V> action) {
            map.forEach(action);
        }

        @Override
        public synchronized void replaceAll(BiFunction<? super K, ? super V, ? extends V> function) {
            map.replaceAll(function);
        }

        @Override
        public synchronized Set<K> keySet() {
            if (keys == null) {
                keys = new OfSet<K>(map.keySet(), this);
            }
            return keys;
        }

        @Override
        public synchronized Collection<V> values() {
            if (values == null) {
                values = new OfCollection<V>(map.values(), this);
            }
            return values;
        }

        @Override
        public synchronized Set<Map.Entry<K, V>> entrySet() {
            if (entries == null) {
                entries = new OfSet<Map.Entry<K, V>>(map.entrySet(), this);
            }
            return entries;
        }

        @Override
        public boolean equals(Object other) {
            if (this == other) {
                return true;
            }
            synchronized (this) {
                return map.equals(other);
            }
        }

        @Override
        public synchronized int hashCode() {
            return map.hashCode();
        }

        @Override
        public synchronized String toString() {
            return Values.text(map);
        }
    }
}
