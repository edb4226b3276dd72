package java.util;

/** A list and a queue of two ends, of links that know the one before and the one after. */
public class LinkedList<E> extends AbstractList<E> implements List<E>, Deque<E>, Cloneable, java.io.Serializable {
    static final class Link<E> {
        E element;
        Link<E> before;
        Link<E> after;

        Link(Link<E> before, E element, Link<E> after) {
            this.element = element;
            this.before = before;
            this.after = after;
        }
    }

    Link<E> first;
    Link<E> last;
    int size;

    public LinkedList() {}

    public LinkedList(Collection<? extends E> others) {
        addAll(others);
    }

    // LINKS

    /** Puts an element before a link, or at the end where that is null. */
    void insert(E element, Link<E> after) {
        Link<E> before = after == null ? last : after.before;
        Link<E> link = new Link<E>(before, element, after);
        if (before == null) {
            first = link;
        } else {
            before.after = link;
        }
        if (after == null) {
            last = link;
        } else {
            after.before = link;
        }
        size++;
        modCount++;
    }

    E unlink(Link<E> link) {
        if (link.before == null) {
            first = link.after;
        } else {
            link.before.after = link.after;
        }
        if (link.after == null) {
            last = link.before;
        } else {
            link.after.before = link.before;
        }
        E element = link.element;
        link.element = null;
        link.before = null;
        link.after = null;
        size--;
        modCount++;
        return element;
    }

    /** The link at an index, from the nearer end; null behind the last one. */
    Link<E> at(int index) {
        Link<E> link;
        if (index < size >> 1) {
            link = first;
            for (int i = 0; i < index; i++) {
                link = link.after;
            }
        } else {
            link = null;
            for (int i = size; i > index; i--) {
                link = link == null ? last : link.before;
            }
        }
        return link;
    }

    private E present(Link<E> link) {
        if (link == null) {
            throw new NoSuchElementException();
        }
        return link.element;
    }

    private E removed(Link<E> link) {
        if (link == null) {
            throw new NoSuchElementException();
        }
        return unlink(link);
    }

    // THE LIST

    @Override
    public int size() {
        return size;
    }

    @Override
    public E get(int index) {
        Values.checkIndex(index, size);
        return at(index).element;
    }

    @Override
    public E set(int index, E element) {
        Values.checkIndex(index, size);
        Link<E> link = at(index);
        E old = link.element;
        link.element = element;
        return old;
    }

    @Override
    public boolean add(E element) {
        insert(element, null);
        return true;
    }

    @Override
    public void add(int index, E element) {
        Values.checkIndex(index, size + 1);
        insert(element, at(index));
    }

    @Override
    public boolean addAll(Collection<? extends E> others) {
        return addAll(size, others);
    }

    @Override
    @SuppressWarnings("unchecked")
    public boolean addAll(int index, Collection<? extends E> others) {
        Values.checkIndex(index, size + 1);
        Object[] added = others.toArray();
        Link<E> after = at(index);
        for (int i = 0; i < added.length; i++) {
            insert((E) added[i], after);
        }
        return added.length != 0;
    }

    @Override
    public E remove(int index) {
        Values.checkIndex(index, size);
        return unlink(at(index));
    }

    @Override
    public boolean remove(Object element) {
        return removeFirstOccurrence(element);
    }

    @Override
    public boolean contains(Object element) {
        return indexOf(element) >= 0;
    }

    @Override
    public int indexOf(Object element) {
        int index = 0;
        for (Link<E> link = first; link != null; link = link.after) {
            if (Values.same(element, link.element)) {
                return index;
            }
            index++;
        }
        return -1;
    }

    @Override
    public int lastIndexOf(Object element) {
        int index = size;
        for (Link<E> link = last; link != null; link = link.before) {
            index--;
            if (Values.same(element, link.element)) {
                return index;
            }
        }
        return -1;
    }

    @Override
    public void clear() {
        first = null;
        last = null;
        size = 0;
        modCount++;
    }

    @Override
    public Iterator<E> iterator() {
        return listIterator(0);
    }

    @Override
    public ListIterator<E> listIterator(int index) {
        Values.checkIndex(index, size + 1);
        return new LinkWalk<E>(this, index);
    }

    // THE QUEUE

    @Override
    public void addFirst(E element) {
        insert(element, first);
    }

    @Override
    public void addLast(E element) {
        insert(element, null);
    }

    @Override
    public boolean offerFirst(E element) {
        addFirst(element);
        return true;
    }

    @Override
    public boolean offerLast(E element) {
        addLast(element);
        return true;
    }

    @Override
    public boolean offer(E element) {
        return add(element);
    }

    @Override
    public void push(E element) {
        addFirst(element);
    }

    @Override
    public E getFirst() {
        return present(first);
    }

    @Override
    public E getLast() {
        return present(last);
    }

    @Override
    public E element() {
        return present(first);
    }

    @Override
    public E peek() {
        return peekFirst();
    }

    @Override
    public E peekFirst() {
        return first == null ? null : first.element;
    }

    @Override
    public E peekLast() {
        return last == null ? null : last.element;
    }

    @Override
    public E removeFirst() {
        return removed(first);
    }

    @Override
    public E removeLast() {
        return removed(last);
    }

    @Override
    public E remove() {
        return removed(first);
    }

    @Override
    public E pop() {
        return removed(first);
    }

    @Override
    public E poll() {
        return pollFirst();
    }

    @Override
    public E pollFirst() {
        return first == null ? null : unlink(first);
    }

    @Override
    public E pollLast() {
        return last == null ? null : unlink(last);
    }

    @Override
    public boolean removeFirstOccurrence(Object element) {
        for (Link<E> link = first; link != null; link = link.after) {
            if (Values.same(element, link.element)) {
                unlink(link);
                return true;
            }
        }
        return false;
    }

    @Override
    public boolean removeLastOccurrence(Object element) {
        for (Link<E> link = last; link != null; link = link.before) {
            if (Values.same(element, link.element)) {
                unlink(link);
                return true;
            }
        }
        return false;
    }

    @Override
    public Iterator<E> descendingIterator() {
        ListIterator<E> all = listIterator(size);
        return new Iterator<E>() {
            @Override
            public boolean hasNext() {
                return all.hasPrevious();
            }

            @Override
            public E next() {
                return all.previous();
            }

            @Override
            public void remove() {
                all.remove();
            }
        };
    }

    public Object clone() {
        return new LinkedList<E>(this);
    }

    /** A walk from link to link. */
    static final class LinkWalk<E> implements ListIterator<E> {
        final LinkedList<E> list;
        Link<E> next;
        Link<E> last;
        int index;
        int changes;

        LinkWalk(LinkedList<E> list, int index) {
            this.list = list;
            this.next = list.at(index);
            this.index = index;
            this.changes = list.modCount;
        }

        private void check() {
            if (changes != list.modCount) {
                throw new ConcurrentModificationException();
            }
        }

        @Override
        public boolean hasNext() {
            return index < list.size;
        }

        @Override
        public E next() {
            check();
            if (index >= list.size) {
                throw new NoSuchElementException();
            }
            last = next;
            next = next.after;
            index++;
            return last.element;
        }

        @Override
        public boolean hasPrevious() {
            return index > 0;
        }

        @Override
        public E previous() {
            check();
            if (index <= 0) {
                throw new NoSuchElementException();
            }
            next = next == null ? list.last : next.before;
            last = next;
            index--;
            return last.element;
        }

        @Override
        public int nextIndex() {
            return index;
        }

        @Override
        public int previousIndex() {
            return index - 1;
        }

        @Override
        public void remove() {
            check();
            if (last == null) {
                throw new IllegalStateException();
            }
            if (last == next) {
                next = last.after;
            } else {
                index--;
            }
            list.unlink(last);
            last = null;
            changes = list.modCount;
        }

        @Override
        public void set(E element) {
            if (last == null) {
                throw new IllegalStateException();
            }
            check();
            last.element = element;
        }

        @Override
        public void add(E element) {
            check();
            last = null;
            list.insert(element, next);
            index++;
            changes = list.modCount;
        }
    }
}
