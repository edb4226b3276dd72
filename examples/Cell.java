/** A generic cell behind a lock, with an exception that is caught. */
public abstract class Cell<T> {
    private T value;

    synchronized void put(T next) {
        value = next;
    }

    T take() throws InterruptedException {
        synchronized (this) {
            while (value == null) {
                checked();
            }
            T taken = value;
            value = null;
            return taken;
        }
    }

    private void checked() {
        try {
            work();
        } catch (IllegalStateException e) {
            value = null;
        } finally {
            done = true;
        }
    }

    private boolean done;

    protected abstract void work();

    native int length();
}
