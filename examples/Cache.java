import java.lang.ref.Reference;
import java.lang.ref.ReferenceQueue;
import java.lang.ref.WeakReference;

/** A cache that holds its values weakly, and takes its entries out as their values have gone: each comes by a queue. */
public class Cache {
    private static class Entry extends WeakReference<Object> {
        final int key;

        Entry(int key, Object value, ReferenceQueue<Object> gone) {
            super(value, gone);
            this.key = key;
        }
    }

    private final Entry[] entries = new Entry[4];
    private final ReferenceQueue<Object> gone = new ReferenceQueue<>();

    void put(int key, Object value) {
        entries[key] = new Entry(key, value, gone);
    }

    /** Takes the entries out whose values have gone, and tells how many those were. */
    int clean() {
        int cleaned = 0;
        Reference<?> next = gone.poll();
        while (next != null) {
            entries[((Entry) next).key] = null;
            cleaned++;
            next = gone.poll();
        }
        return cleaned;
    }

    public static void main(String[] arguments) {
        Cache cache = new Cache();
        Object kept = new Object();
        cache.put(0, kept);
        cache.put(1, new Object());
        cache.put(2, new Object());
        int left = 2;
        while (left > 0) {
            left -= cache.clean();
        }
    }
}
