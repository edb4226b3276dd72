/** A queue of nodes, each of which is dropped as it is taken out. */
public class Queue {
    private static class Link {
        final int value;
        Link next;

        Link(int value) {
            this.value = value;
        }
    }

    private Link first;
    private Link last;

    void add(int value) {
        Link link = new Link(value);
        if (last == null) {
            first = link;
        } else {
            last.next = link;
        }
        last = link;
    }

    int take() {
        Link link = first;
        first = link.next;
        if (first == null) {
            last = null;
        }
        return link.value;
    }

    public static void main(String[] arguments) {
        Queue queue = new Queue();
        for (int i = 0; i < 3; i++) {
            queue.add(i);
        }
        int sum = 0;
        while (queue.first != null) {
            sum += queue.take();
        }
    }
}
