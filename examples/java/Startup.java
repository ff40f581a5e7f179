import static vm.Sys.*;

/** When classes are initialized, in what order, and what comes of an initializer that fails. */
public class Startup {
    static int first = note(1);

    static int note(int n) {
        print(n);
        return n;
    }

    interface Settings {
        int LIMIT = 40;
    }

    static class Base {
        static int b = note(2);
    }

    static class Middle extends Base implements Settings {
        static final int CONSTANT = 30;
        static int m = note(3) + b;
    }

    static class Leaf extends Middle {
        static int l = note(4) + m;
    }

    static class Ping {
        static int p = Pong.q + 1;
    }

    static class Pong {
        static int q = Ping.p + 10;
    }

    static class Broken {
        static int x = note(5) / (first - 1);

        static void use() {
            print(6);
        }
    }

    static class BelowBroken extends Broken {
        static {
            print(7);
        }
    }

    static void main() {
        print(Middle.CONSTANT + Middle.LIMIT);
        Leaf[] none = new Leaf[2];
        print(none.length);
        print(Middle.m);
        print(new Leaf() instanceof Base ? Leaf.l : 0);
        print(Ping.p);
        print(Pong.q);
        for (int i = 0; i < 2; i++) {
            try {
                Broken.use();
            } catch (ExceptionInInitializerError e) {
                print(-1);
            } catch (NoClassDefFoundError e) {
                print(-2);
            }
        }
        try {
            new BelowBroken();
        } catch (NoClassDefFoundError e) {
            print(-3);
        }
    }
}
