package java.util;

import java.util.function.BiConsumer;

/** A hash map that is gone over in the order in which its keys came. */
public class LinkedHashMap<K, V> extends HashMap<K, V> implements Map<K, V> {
    static final class Link<K, V> extends HashMap.Node<K, V> {
        Link<K, V> before;
        Link<K, V> after;

        Link(int hash, K key, V value, HashMap.Node<K, V> next) {
            super(hash, key, value, next);
        }
    }

    Link<K, V> eldest;
    Link<K, V> youngest;

    public LinkedHashMap() {}

    public LinkedHashMap(int capacity) {
        super(capacity);
    }

    public LinkedHashMap(Map<? extends K, ? extends V> others) {
        putAll(others);
    }

    /** Whether the eldest entry is to go, now that one came. */
    protected boolean removeEldestEntry(Map.Entry<K, V> eldest) {
        return false;
    }

    @Override
    HashMap.Node<K, V> newNode(int hash, K key, V value, HashMap.Node<K, V> next) {
        Link<K, V> link = new Link<K, V>(hash, key, value, next);
        link.before = youngest;
        if (youngest == null) {
            eldest = link;
        } else {
            youngest.after = link;
        }
        youngest = link;
        return link;
    }

    @Override
    void inserted(HashMap.Node<K, V> node) {
        if (eldest != null && removeEldestEntry(eldest)) {
            take(eldest.key);
        }
    }

    @Override
    void removed(HashMap.Node<K, V> node) {
        Link<K, V> link = (Link<K, V>) node;
        if (link.before == null) {
            eldest = link.after;
        } else {
            link.before.after = link.after;
        }
        if (link.after == null) {
            youngest = link.before;
        } else {
            link.after.before = link.before;
        }
        link.before = null;
        link.after = null;
    }

    @Override
    public void clear() {
        super.clear();
        eldest = null;
        youngest = null;
    }

    @Override
    public void forEach(BiConsumer<? super K, ? super V> action) {
        Objects.requireNonNull(action);
        int before = changes;
        for (Link<K, V> link = eldest; link != null; link = link.after) {
            action.accept(link.key, link.value);
        }
        checkUnchanged(this, before);
    }

    @Override
    HashMap.EntryWalk<K, V> walk() {
        return new LinkWalk<K, V>(this);
    }

    @Override
    public Object clone() {
        return new LinkedHashMap<K, V>(this);
    }

    /** A walk from the eldest to the youngest. */
    static final class LinkWalk<K, V> extends HashMap.EntryWalk<K, V> {
        final LinkedHashMap<K, V> map;
        Link<K, V> next;
        Link<K, V> last;
        int changes;

        LinkWalk(LinkedHashMap<K, V> map) {
            this.map = map;
            this.next = map.eldest;
            this.changes = map.changes;
        }

        @Override
        public boolean hasNext() {
            return next != null;
        }

        @Override
        public Map.Entry<K, V> next() {
            if (changes != map.changes) {
                throw new ConcurrentModificationException();
            }
            if (next == null) {
                throw new NoSuchElementException();
            }
            last = next;
            next = last.after;
            return last;
        }

        @Override
        public void remove() {
            if (last == null) {
                throw new IllegalStateException();
            }
            if (changes != map.changes) {
                throw new ConcurrentModificationException();
            }
            map.takeNode(last);
            last = null;
            changes = map.changes;
        }
    }
}
