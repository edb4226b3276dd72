/** A linked list of a type parameter: adding, removing, turning round, and a loop over it by an iterator of its own. */
public class Lists {
    static class Chain<T> {
        private static class Link<T> {
            T item;
            Link<T> next;

            Link(T item, Link<T> next) {
                this.item = item;
                this.next = next;
            }
        }

        private Link<T> first;
        private int length;

        void add(T item) {
            first = new Link<T>(item, first);
            length++;
        }

        T remove() {
            if (first == null) {
                throw new IllegalStateException("empty");
            }
            T item = first.item;
            first = first.next;
            length--;
            return item;
        }

        void turn() {
            Link<T> turned = null;
            while (first != null) {
                Link<T> next = first.next;
                first.next = turned;
                turned = first;
                first = next;
            }
            first = turned;
        }

        class Walk {
            private Link<T> at = first;

            boolean has() {
                return at != null;
            }

            T next() {
                T item = at.item;
                at = at.next;
                return item;
            }
        }

        Walk walk() {
            return new Walk();
        }
    }

    static String shown(Chain<String> chain) {
        StringBuilder text = new StringBuilder();
        for (Chain<String>.Walk walk = chain.walk(); walk.has(); ) {
            text.append(walk.next()).append(' ');
        }
        return text.toString();
    }

    public static void main(String[] words) {
        Chain<String> chain = new Chain<String>();
        for (int i = 0; i < 12; i++) {
            chain.add("item" + i * i);
        }
        System.out.println(shown(chain));
        chain.turn();
        System.out.println(shown(chain));
        while (chain.length > 9) {
            System.out.println(chain.remove());
        }
        Chain<Chain<String>> chains = new Chain<Chain<String>>();
        chains.add(chain);
        chains.add(new Chain<String>());
        try {
            System.out.println(chains.remove().remove());
        } catch (IllegalStateException fault) {
            System.out.println(fault.getMessage());
        }
        System.out.println(chains.remove().remove());
    }
}
