package java.lang;

import java.util.Iterator;
import java.util.function.Consumer;

/** What the for statement goes over. */
public interface Iterable<T> {
    Iterator<T> iterator();

    default void forEach(Consumer<? super T> action) {
        if (action == null) {
            throw new NullPointerException();
        }
        for (Iterator<T> all = iterator(); all.hasNext(); ) {
            action.accept(all.next());
        }
    }
}
