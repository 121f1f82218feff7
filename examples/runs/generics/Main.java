interface Rank<T> {
    int compare(T other);
}

class Num implements Rank<Num> {
    final int n;

    Num(int n) {
        this.n = n;
    }

    public int compare(Num other) {
        return n - other.n;
    }
}

class Link<T extends Rank<T>> {
    final T item;
    final Link<T> next;

    Link(T item, Link<T> next) {
        this.item = item;
        this.next = next;
    }

    Link<T> insert(T other) {
        if (item.compare(other) >= 0) return new Link<T>(other, this);
        return new Link<T>(item, next == null ? new Link<T>(other, null) : next.insert(other));
    }
}

class Pair<A, B> {
    A first;
    B second;

    Pair(A first, B second) {
        this.first = first;
        this.second = second;
    }

    Pair<B, A> turned() {
        return new Pair<B, A>(second, first);
    }
}

class Main {
    static <T> T either(boolean first, T a, T b) {
        return first ? a : b;
    }

    static void main() {
        Link<Num> all = new Link<Num>(new Num(Io.next()), null);
        for (int i = 0; i < 3; i++) all = all.insert(new Num(Io.next()));
        for (Link<Num> l = all; l != null; l = l.next) Io.show(l.item.n);
        Pair<Num, int[]> pair = new Pair<Num, int[]>(all.item, new int[] {8, 9});
        Io.show(pair.turned().first[1]);
        Io.show(pair.turned().turned().first.n);
        Io.show(either(false, new Num(20), new Num(30)).n);
        try {
            Rank raw = new Num(1);
            raw.compare(new Object());
        } catch (ClassCastException e) {
            Io.show(-4);
        }
    }
}
