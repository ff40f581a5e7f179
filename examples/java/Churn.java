import static vm.Sys.*;

/** Garbage of every shape: chains, rings, arrays of arrays, and a list of which one end is dropped while it grows. */
public class Churn {
    static class Node {
        Node next;
        Object load;
        int value;

        Node(int value, Node next) {
            this.value = value;
            this.next = next;
        }
    }

    static Node kept;

    static Node ring(int n) {
        Node last = new Node(0, null), first = last;
        for (int i = 1; i < n; i++) {
            first = new Node(i, first);
        }
        last.next = first;
        return first;
    }

    static int sum(Node node, int steps) {
        int s = 0;
        for (int i = 0; i < steps && node != null; i++, node = node.next) {
            s = s * 3 + node.value;
        }
        return s;
    }

    static void main() {
        int total = 0;
        for (int i = 0; i < 30; i++) {
            Node r = ring(3);
            r.load = new int[i % 7];
            r.next.load = new Object[][] {{r}, {r.load, new long[2]}};
            total += sum(r, 4) + ((int[]) r.load).length;
        }
        print(total);
        Node end = kept = new Node(0, null);
        for (int i = 1; i < 60; i++) {
            end.next = new Node(i, null);
            end = end.next;
            if (i > 5) {
                kept = kept.next;
            }
        }
        print(sum(kept, 100));
        print(kept.value);
    }
}
