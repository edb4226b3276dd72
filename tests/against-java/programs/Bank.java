/** Abstract classes, overloading, overriding with super, protected members, and static against virtual calls. */
public class Bank {
    abstract static class Account {
        private static int opened;
        protected long cents;
        final int number;

        Account(long cents) {
            this.cents = cents;
            number = ++opened;
        }

        abstract int interest();

        void add(int more) {
            cents += more;
        }

        void add(long more) {
            cents += more + 1;
        }

        void add(Object what) {
            cents += what == null ? 1000 : 2000;
        }

        void year() {
            cents += cents * interest() / 1000;
        }

        static String kind() {
            return "account";
        }

        String shown() {
            return kind() + " " + number + ": " + cents / 100 + "." + (char) ('0' + cents / 10 % 10) + (char) ('0' + cents % 10);
        }
    }

    static class Savings extends Account {
        Savings(long cents) {
            super(cents);
        }

        int interest() {
            return cents > 100000 ? 30 : 20;
        }

        static String kind() {
            return "savings";
        }
    }

    static class Checking extends Account {
        private int fees = 5;

        Checking() {
            this(0);
        }

        Checking(long cents) {
            super(cents);
        }

        int interest() {
            return 1;
        }

        void year() {
            super.year();
            cents -= fees;
            fees++;
        }

        String shown() {
            return kind() + " for payments, " + super.shown();
        }
    }

    public static void main(String[] words) {
        Account[] accounts = {new Savings(99990), new Checking(), new Checking(5000)};
        accounts[0].add(20);
        accounts[0].add(20L);
        accounts[1].add('d');
        accounts[1].add((Object) null);
        accounts[2].add("text");
        for (int year = 0; year < 3; year++) {
            for (Account account : accounts) {
                account.year();
                System.out.println(account.shown());
            }
        }
        System.out.println(Savings.kind() + " " + Account.opened);
    }
}
