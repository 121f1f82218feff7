class Tree {
    int key;
    Tree left, right;

    Tree(int key) {
        this.key = key;
    }

    static Tree insert(Tree tree, int key) {
        if (tree == null) return new Tree(key);
        if (key < tree.key) tree.left = insert(tree.left, key);
        else tree.right = insert(tree.right, key);
        return tree;
    }

    static int depth(Tree tree) {
        if (tree == null) return 0;
        int a = depth(tree.left), b = depth(tree.right);
        return 1 + (a > b ? a : b);
    }

    static void walk(Tree tree) {
        if (tree == null) return;
        walk(tree.left);
        Io.show(tree.key);
        walk(tree.right);
    }
}

class Main {
    static void main() {
        Tree tree = null;
        int key;
        while ((key = Io.next()) != 0) tree = Tree.insert(tree, key);
        for (int i = 1; i < 5; i++) Tree.insert(tree, i * 16);
        Tree.walk(tree);
        Io.show(Tree.depth(tree));
    }
}
