import static vm.Sys.*;

/** Threads that start threads; all count under one lock, each once by its own and once by a block. */
public class Counters {
    static int total;
    static final Object lock = new Object();

    int own;

    synchronized void add(int n) {
        own += n;
    }

    static class Worker extends Thread {
        final Counters counters;
        final int deep;

        Worker(Counters counters, int deep) {
            this.counters = counters;
            this.deep = deep;
        }

        public void run() {
            for (int i = 0; i < 3; i++) {
                counters.add(deep);
                synchronized (lock) {
                    total++;
                }
            }
            if (deep > 0) {
                Worker a = new Worker(counters, deep - 1), b = new Worker(counters, deep - 1);
                a.start();
                b.start();
                try {
                    a.join();
                    b.join();
                } catch (Throwable e) {
                    print(-9);
                }
            }
        }
    }

    static void main() throws InterruptedException {
        Counters counters = new Counters();
        Worker top = new Worker(counters, 3);
        top.start();
        top.join();
        print(total);
        print(counters.own);
        Thread idle = new Thread();
        idle.join();
        idle.start();
        idle.join();
        print(2);
    }
}
