import static vm.Sys.*;

/** Exceptions of one's own and the machine's: caught, thrown again, replaced, and passed by `finally`. */
public class Accounts {
    static class Refused extends Exception {
        final int missing;

        Refused(int missing) {
            this.missing = missing;
        }
    }

    static class Closed extends RuntimeException {
    }

    static class Account {
        int balance;
        int open = 1;
        int tries;

        synchronized void take(int n) throws Refused {
            tries++;
            if (open == 0) {
                throw new Closed();
            }
            if (n > balance) {
                throw new Refused(n - balance);
            }
            balance -= n;
        }
    }

    static int share(Account a, int n) throws Refused {
        try {
            a.take(a.balance / n);
            return a.balance;
        } catch (ArithmeticException e) {
            a.take(1000);
            return -1;
        } finally {
            print(a.tries);
        }
    }

    static int nested(Account a, int n) {
        try {
            try {
                print(share(a, n));
            } finally {
                if (n == 3) {
                    a.open = 0;
                }
            }
            a.take(5);
            return 1;
        } catch (Refused e) {
            return 100 + e.missing;
        } catch (RuntimeException e) {
            return e instanceof Closed ? 2 : 3;
        }
    }

    static int swallowed() {
        while (true) {
            try {
                throw new Closed();
            } finally {
                break;
            }
        }
        return 9;
    }

    static void main() {
        Account a = new Account();
        a.balance = 100;
        print(nested(a, 4));
        print(nested(a, 0));
        print(nested(a, 3));
        print(nested(a, 1));
        print(nested(null, 1));
        print(swallowed());
        print(a.balance);
    }
}
