import static vm.Sys.*;

/** A bank: accounts in a linked list, rules behind an interface, refusals by exceptions, and clerks that are threads. */
public class Bank {
    interface Rule {
        int allows(Account account, int amount);
    }

    static class Refused extends Exception {
        final int missing;

        Refused(int missing) {
            this.missing = missing;
        }
    }

    static class Account {
        final int number;
        private int balance;
        private final Rule rule;

        Account(int number, int balance, Rule rule) {
            this.number = number;
            this.balance = balance;
            this.rule = rule;
        }

        synchronized void put(int amount) {
            balance += amount;
        }

        synchronized void take(int amount) throws Refused {
            if (rule.allows(this, amount) == 0) {
                throw new Refused(amount - balance);
            }
            balance -= amount;
        }
    }

    /** A list of one's own, for any kind of value. */
    static class List<T> {
        private Node<T> first;
        private int size;

        void add(T value) {
            first = new Node<T>(value, first);
            size++;
        }

        T at(int place) {
            Node<T> node = first;
            for (int i = 0; i < place; i++) {
                node = node.next;
            }
            return node.value;
        }
    }

    static class Node<T> {
        final T value;
        final Node<T> next;

        Node(T value, Node<T> next) {
            this.value = value;
            this.next = next;
        }
    }

    class Clerk extends Thread {
        private int seed, done, refused;

        Clerk(int seed) {
            this.seed = seed;
        }

        public void run() {
            for (int i = 0; i < 40; i++) {
                seed = seed * 1103515245 + 12345;
                Account from = accounts.at((seed >>> 8) % accounts.size);
                Account to = accounts.at((seed >>> 16) % accounts.size);
                try {
                    from.take(seed >>> 26);
                    to.put(seed >>> 26);
                    done++;
                } catch (Refused e) {
                    refused++;
                }
            }
        }
    }

    private final List<Account> accounts = new List<>();

    private void say(char... letters) {
        for (char letter : letters) {
            putc(letter);
        }
        putc('\n');
    }

    private void work(int clerks) throws InterruptedException {
        Clerk[] all = new Clerk[clerks];
        for (int i = 0; i < clerks; i++) {
            all[i] = new Clerk(i + 7);
            all[i].start();
        }
        int tried = 0;
        for (Clerk clerk : all) {
            clerk.join();
            tried += clerk.done + clerk.refused;
        }
        print(tried);
    }

    static void main() throws InterruptedException {
        Bank bank = new Bank();
        final int limit = -20;
        for (int i = 0; i < 5; i++) {
            bank.accounts.add(new Account(100 + i, 50 * i, new Rule() {
                public int allows(Account account, int amount) {
                    return account.balance - amount >= limit ? 1 : 0;
                }
            }));
        }
        bank.work(4);
        int sum = 0;
        for (int i = 0; i < bank.accounts.size; i++) {
            sum += bank.accounts.at(i).balance;
        }
        bank.say('s', 'u', 'm');
        print(sum);
    }
}
