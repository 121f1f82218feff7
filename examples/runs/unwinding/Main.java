class Bad extends RuntimeException {
    Bad(String message) {
        super(message);
    }
}

class Thing {
    static int made;
    final int n;

    Thing(int n) {
        made++;
        if (n == 2) throw new Bad("two");
        this.n = n;
        made += 10;
    }
}

class Main {
    static int depth;

    static int third(int n) {
        depth++;
        int k = new Thing(n).n;
        depth++;
        if (n == 1) throw new Bad("one");
        if (n == 3) throw new IllegalStateException("three");
        return k;
    }

    static int second(int n) {
        try {
            return third(n) + 1;
        } catch (IllegalStateException e) {
            Io.show(e.getMessage() == "three" ? 1 : 0);
            throw new Bad("again");
        }
    }

    static int first(int n) {
        int k = 5;
        try {
            k = 6;
            k = second(n);
        } catch (Bad bad) {
            Io.show(bad.getMessage() == "two" ? 2 : bad.getMessage() == "one" ? 1 : 3);
            return k;
        }
        return -k;
    }

    static void main() {
        for (int i = 0; i < 4; i++) Io.show(first(Io.next()));
        Io.show(depth);
        Io.show(Thing.made);
        Thing t = null;
        try {
            t = new Thing(2);
        } catch (Bad bad) {
            Io.show(t == null ? 1 : 0);
        }
    }
}
