import java.util.ArrayDeque;
import java.util.ArrayList;
import java.util.Comparator;
import java.util.List;
import java.util.PriorityQueue;

/**
 * The core of an operating system, played: tasks with mailboxes, which a scheduler runs by their priority. Orders come from a
 * source, go to one of three workers, and end in a ledger that keeps every eighth of them. It uses the collections of guest/.
 */
public class Tasks {
    /** What is passed on, with the stations where it was. */
    static final class Order {
        final int number;
        final List<Task> stations = new ArrayList<Task>();
        int cost;

        Order(int number) {
            this.number = number;
        }
    }

    abstract static class Task {
        final ArrayDeque<Order> box = new ArrayDeque<Order>();
        final int priority;
        boolean waits = true;

        Task(int priority) {
            this.priority = priority;
        }

        /** Does one step, and says whether there is more to do. */
        abstract boolean step(Scheduler scheduler);
    }

    static final class Scheduler {
        private final PriorityQueue<Task> ready = new PriorityQueue<Task>(8, new Comparator<Task>() {
            @Override
            public int compare(Task a, Task b) {
                return b.priority - a.priority;
            }
        });

        void wake(Task task) {
            if (task.waits) {
                task.waits = false;
                ready.add(task);
            }
        }

        void send(Order order, Task task) {
            order.stations.add(task);
            task.box.add(order);
            wake(task);
        }

        void run() {
            while (!ready.isEmpty()) {
                Task task = ready.poll();
                task.waits = true;
                if (task.step(this)) {
                    wake(task);
                }
            }
        }
    }

    static final class Source extends Task {
        final Task[] workers;
        int made;

        Source(Task[] workers) {
            super(1);
            this.workers = workers;
        }

        @Override
        boolean step(Scheduler scheduler) {
            for (int i = 0; i < 10; i++) {
                Order order = new Order(made++);
                scheduler.send(order, workers[order.number * 7 % 5 % workers.length]);
            }
            return made < 200;
        }
    }

    static final class Worker extends Task {
        final Task next;
        final int speed;

        Worker(int speed, Task next) {
            super(2 + speed);
            this.speed = speed;
            this.next = next;
        }

        @Override
        boolean step(Scheduler scheduler) {
            for (int i = 0; i < speed && !box.isEmpty(); i++) {
                Order order = box.poll();
                order.cost += order.number % 13 * speed;
                scheduler.send(order, next);
            }
            return !box.isEmpty();
        }
    }

    static final class Ledger extends Task {
        final List<Order> kept = new ArrayList<Order>();
        long total;

        Ledger() {
            super(9);
        }

        @Override
        boolean step(Scheduler scheduler) {
            Order order = box.poll();
            total += order.cost;
            if (order.number % 8 == 0) {
                kept.add(order);
            }
            return !box.isEmpty();
        }
    }

    public static void main(String[] arguments) {
        Scheduler scheduler = new Scheduler();
        Ledger ledger = new Ledger();
        Task[] workers = {new Worker(1, ledger), new Worker(2, ledger), new Worker(3, ledger)};
        Source source = new Source(workers);
        scheduler.wake(source);
        scheduler.run();
        System.out.println(source.made + " orders at a cost of " + ledger.total + ", " + ledger.kept.size() + " kept");
    }
}
