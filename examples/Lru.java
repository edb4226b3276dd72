import java.lang.ref.Reference;
import java.lang.ref.ReferenceQueue;
import java.lang.ref.WeakReference;
import java.util.ArrayDeque;
import java.util.HashMap;
import java.util.Map;
import java.util.Random;

/**
 * A cache of pages. The last eight that were used are held; each other one is held weakly, so it may be found again until a
 * flush takes it, and its entry goes as its reference comes by the queue. It uses the collections of guest/.
 */
public class Lru {
    private static final int HELD = 8;

    static final class Page {
        final int number;
        final int[] content = new int[64];

        Page(int number) {
            this.number = number;
        }
    }

    static final class PageReference extends WeakReference<Page> {
        final Integer number;

        PageReference(Page page, ReferenceQueue<Page> gone) {
            super(page, gone);
            this.number = page.number;
        }
    }

    private final Map<Integer, PageReference> pages = new HashMap<Integer, PageReference>();
    private final ReferenceQueue<Page> gone = new ReferenceQueue<Page>();
    private final ArrayDeque<Page> held = new ArrayDeque<Page>();
    private int loaded;
    private int found;

    Page get(int number) {
        clean();
        PageReference reference = pages.get(number);
        Page page = reference == null ? null : reference.get();
        if (page == null) {
            page = new Page(number);
            pages.put(number, new PageReference(page, gone));
            loaded++;
        } else {
            found++;
        }
        hold(page);
        return page;
    }

    /** Puts a page to the end of those that are held; the first one is held no more where they are too many. */
    private void hold(Page page) {
        int others = held.size();
        for (int i = 0; i < others; i++) {
            Page other = held.poll();
            if (other != page) {
                held.add(other);
            }
        }
        held.add(page);
        if (held.size() > HELD) {
            held.poll();
        }
    }

    /** Takes out the entries of pages that have gone; another page of the number may have come since. */
    private void clean() {
        for (Reference<?> next = gone.poll(); next != null; next = gone.poll()) {
            PageReference reference = (PageReference) next;
            if (pages.get(reference.number) == reference) {
                pages.remove(reference.number);
            }
        }
    }

    public static void main(String[] arguments) {
        Lru cache = new Lru();
        Random random = new Random(39);
        for (int i = 0; i < 300; i++) {
            cache.get((random.nextInt(12) + i / 10) % 40);
        }
        System.out.println(cache.loaded + " pages loaded, " + cache.found + " found");
    }
}
