import static vm.Sys.*;

/** A tree of ints: put in, taken out, walked through, and turned upside down. */
public class SearchTree {
    SearchTree left, right;
    final int key;
    int count = 1;

    SearchTree(int key) {
        this.key = key;
    }

    static SearchTree put(SearchTree tree, int key) {
        if (tree == null) {
            return new SearchTree(key);
        }
        if (key < tree.key) {
            tree.left = put(tree.left, key);
        } else if (key > tree.key) {
            tree.right = put(tree.right, key);
        } else {
            tree.count++;
        }
        return tree;
    }

    static SearchTree remove(SearchTree tree, int key) {
        if (tree == null) {
            return null;
        }
        if (key < tree.key) {
            tree.left = remove(tree.left, key);
            return tree;
        }
        if (key > tree.key) {
            tree.right = remove(tree.right, key);
            return tree;
        }
        if (tree.left == null) {
            return tree.right;
        }
        SearchTree last = tree.left;
        while (last.right != null) {
            last = last.right;
        }
        SearchTree top = new SearchTree(last.key);
        top.count = last.count;
        top.left = remove(tree.left, last.key);
        top.right = tree.right;
        return top;
    }

    int depth() {
        int l = left == null ? 0 : left.depth(), r = right == null ? 0 : right.depth();
        return 1 + (l > r ? l : r);
    }

    void walk() {
        if (left != null) left.walk();
        print(key * 100 + count);
        if (right != null) right.walk();
    }

    void turn() {
        SearchTree t = left;
        left = right;
        right = t;
        if (left != null) left.turn();
        if (right != null) right.turn();
    }

    static void main() {
        SearchTree tree = null;
        int x = 17;
        for (int i = 0; i < 16; i++) {
            x = x * 31 % 101;
            tree = put(tree, x % 40);
        }
        print(tree.depth());
        tree.walk();
        for (int i = 0; i < 40; i += 3) {
            tree = remove(tree, i);
        }
        tree.turn();
        tree.walk();
    }
}
