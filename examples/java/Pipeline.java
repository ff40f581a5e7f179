import static vm.Sys.*;

/** A thread makes numbers, another takes them from a ring under one lock, and main waits for both. */
public class Pipeline {
    static class Ring {
        final int[] slots = new int[3];
        int from, count;

        synchronized int put(int n) {
            if (count == slots.length) {
                return 0;
            }
            slots[(from + count++) % slots.length] = n;
            return 1;
        }

        synchronized int take() {
            if (count == 0) {
                return -1;
            }
            int n = slots[from];
            from = (from + 1) % slots.length;
            count--;
            return n;
        }
    }

    static class Maker extends Thread {
        final Ring ring;
        final int numbers;

        Maker(Ring ring, int numbers) {
            this.ring = ring;
            this.numbers = numbers;
        }

        public void run() {
            for (int i = 1; i <= numbers; i++) {
                while (ring.put(i * i) == 0) {
                }
            }
        }
    }

    static class Taker extends Thread {
        final Ring ring;
        int sum, numbers;

        Taker(Ring ring, int numbers) {
            this.ring = ring;
            this.numbers = numbers;
        }

        public void run() {
            while (numbers > 0) {
                int n = ring.take();
                if (n >= 0) {
                    sum = sum * 3 + n;
                    numbers--;
                }
            }
        }
    }

    static void main() throws InterruptedException {
        Ring ring = new Ring();
        Maker maker = new Maker(ring, 10);
        Taker taker = new Taker(ring, 10);
        taker.start();
        maker.start();
        maker.join();
        taker.join();
        print(taker.sum);
        print(ring.count);
        try {
            maker.start();
        } catch (IllegalThreadStateException e) {
            print(-1);
        }
    }
}
