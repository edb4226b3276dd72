import java.lang.ref.Reference;
import java.lang.ref.ReferenceQueue;
import java.lang.ref.WeakReference;

/** Weak references to objects that are kept reachable, cleared by hand, and a queue in which nothing waits. */
public class Weak {
    static class Noted extends WeakReference<Object> {
        final int number;

        Noted(Object referent, int number, ReferenceQueue<Object> queue) {
            super(referent, queue);
            this.number = number;
        }
    }

    public static void main(String[] words) {
        Object[] kept = new Object[6];
        ReferenceQueue<Object> queue = new ReferenceQueue<Object>();
        Noted[] noted = new Noted[kept.length];
        for (int i = 0; i < kept.length; i++) {
            kept[i] = new int[i];
            noted[i] = new Noted(kept[i], i, queue);
        }
        WeakReference<String> text = new WeakReference<String>("a constant");
        for (int i = 0; i < kept.length; i++) {
            System.out.println(noted[i].number + " " + (noted[i].get() == kept[i]));
        }
        System.out.println(text.get());
        noted[2].clear();
        System.out.println((noted[2].get() == null) + " " + (noted[3].get() == kept[3]));
        Reference<?> polled = queue.poll();
        System.out.println(polled == null);
        System.out.println(((int[]) kept[5]).length);
    }
}
