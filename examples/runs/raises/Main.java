class Cell {
    int value = 3;

    int get() {
        return value;
    }
}

class Main {
    static Cell none() {
        return null;
    }

    static int[] empty() {
        return null;
    }

    static int one(int n) {
        switch (n) {
            case 0: return none().value;
            case 1: return none().get();
            case 2: return empty()[0];
            case 3: return empty().length;
            case 4: {
                int[] a = new int[n - 4];
                return a.length + a[0];
            }
            case 5: {
                int[] a = new int[2];
                a[-1] = n;
                return a[n];
            }
            case 6: return new int[-n].length;
            case 7: return ((Cell) (Object) new int[1]).value;
            case 8: {
                Object[] objects = new Cell[1];
                objects[0] = new Object();
                return 1;
            }
            case 9: throw null;
            case 10: return 10 / (n - 10) + 10 % (n - 10);
            case 11: none().value = 5; return 2;
            default: return n % 7;
        }
    }

    static int kind(RuntimeException e) {
        if (e instanceof NullPointerException) return 1;
        if (e instanceof ArrayIndexOutOfBoundsException) return 2;
        if (e instanceof NegativeArraySizeException) return 3;
        if (e instanceof ClassCastException) return 4;
        if (e instanceof ArrayStoreException) return 5;
        if (e instanceof ArithmeticException) return 6;
        return 7;
    }

    static void main() {
        for (int i = 0; i < 13; i++) {
            try {
                Io.show(one(Io.next()));
            } catch (RuntimeException e) {
                Io.show(-kind(e));
            }
        }
    }
}
