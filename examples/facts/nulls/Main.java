class Pair {
    Pair left, right;
    int value;

    Pair self() {
        return this;
    }
}

class Main {
    static int moved() {
        Pair pair = new Pair();
        Pair copy = pair;
        copy.value += 1;
        return copy.value++;
    }

    static int read() {
        Pair pair = new Pair();
        pair.left = pair;
        return pair.left.value;
    }

    static int either(int n) {
        Pair pair = n == 0 ? null : new Pair();
        return n == 0 ? 0 : pair.value;
    }

    static int returned() {
        return new Pair().self().value;
    }

    static int given(Pair pair) {
        return pair.value;
    }

    public static void main(String[] args) {
        Io.show(moved() + read() + either(Io.next()) + returned() + given(new Pair()));
    }
}
