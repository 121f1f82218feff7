interface Flies {}

class Animal {
    int legs() {
        return 4;
    }
}

class Bird extends Animal implements Flies {
    int legs() {
        return 2;
    }
}

final class Owl extends Bird {}

class Main {
    static Object make(int n) {
        switch (n) {
            case 1: return new Animal();
            case 2: return new Bird();
            case 3: return new Owl();
            case 4: return new Bird[2];
            default: return null;
        }
    }

    static int bit(boolean b, int n) {
        return b ? n : 0;
    }

    static void main() {
        for (int i = 0; i < 5; i++) {
            Object o = make(Io.next());
            Io.show(bit(o instanceof Animal, 1) + bit(o instanceof Bird, 2) + bit(o instanceof Flies, 4) + bit(o instanceof Owl, 8)
                + bit(o instanceof Object[], 16) + bit(o instanceof Animal[], 32) + bit(o instanceof Flies[], 64) + bit(o instanceof Owl[], 128));
            try {
                Animal a = (Animal) o;
                Io.show(a == null ? 0 : a.legs());
                Flies f = (Flies) a;
                Io.show(f == o ? 1 : 0);
            } catch (ClassCastException e) {
                Io.show(-4);
            }
            try {
                Flies[] all = (Flies[]) o;
                Io.show(all == null ? 0 : all.length);
            } catch (ClassCastException e) {
                Io.show(-44);
            }
        }
    }
}
