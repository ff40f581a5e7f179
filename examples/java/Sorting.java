import static vm.Sys.*;

/** Sorts by partition, by insertion and by merging, and searches by halves. */
public class Sorting {
    static int seed = 7;

    static int next() {
        seed = seed * 53 % 97;
        return seed;
    }

    static int[] numbers(int n) {
        int[] a = new int[n];
        for (int i = 0; i < n; i++) {
            a[i] = next() - 40;
        }
        return a;
    }

    static void partition(int[] a, int low, int high) {
        if (low >= high) {
            return;
        }
        int pivot = a[(low + high) / 2], i = low, j = high;
        while (i <= j) {
            while (a[i] < pivot) i++;
            while (a[j] > pivot) j--;
            if (i <= j) {
                int t = a[i];
                a[i++] = a[j];
                a[j--] = t;
            }
        }
        partition(a, low, j);
        partition(a, i, high);
    }

    static void insertion(int[] a) {
        for (int i = 1; i < a.length; i++) {
            int v = a[i], j = i;
            while (j > 0 && a[j - 1] > v) {
                a[j] = a[--j];
            }
            a[j] = v;
        }
    }

    static int[] merge(int[] a, int[] b) {
        int[] c = new int[a.length + b.length];
        int i = 0, j = 0;
        for (int k = 0; k < c.length; k++) {
            c[k] = j == b.length || i < a.length && a[i] <= b[j] ? a[i++] : b[j++];
        }
        return c;
    }

    static int find(int[] a, int v) {
        int low = 0, high = a.length;
        while (low < high) {
            int middle = (low + high) >>> 1;
            if (a[middle] < v) {
                low = middle + 1;
            } else {
                high = middle;
            }
        }
        return low < a.length && a[low] == v ? low : ~low;
    }

    static void main() {
        int[] a = numbers(12), b = numbers(9);
        partition(a, 0, a.length - 1);
        insertion(b);
        int[] c = merge(a, b);
        for (int i = 0; i < c.length; i++) {
            print(c[i]);
        }
        print(find(c, c[13]));
        print(find(c, 1000));
        print(find(c, -1000));
    }
}
