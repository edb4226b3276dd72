package java.util;

/** A vector whose last element is the top of a stack. */
public class Stack<E> extends Vector<E> {
    public Stack() {}

    public E push(E element) {
        addElement(element);
        return element;
    }

    public synchronized E pop() {
        E top = peek();
        removeElementAt(size() - 1);
        return top;
    }

    public synchronized E peek() {
        if (size() == 0) {
            throw new EmptyStackException();
        }
        return elementAt(size() - 1);
    }

    public boolean empty() {
        return size() == 0;
    }

    /** How far below the top the element is, from 1; -1 where it isn't there. */
    public synchronized int search(Object element) {
        int index = lastIndexOf(element);
        return index < 0 ? -1 : size() - index;
    }
}
