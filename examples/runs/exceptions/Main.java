class Wrong extends Exception {
    final int code;

    Wrong(int code) {
        this.code = code;
    }
}

class Worse extends Wrong {
    Worse(int code) {
        super(code * 10);
    }
}

class Main {
    static int raise(int n) throws Wrong {
        switch (n) {
            case 0:
                throw new Wrong(7);
            case 1:
                throw new Worse(8);
            case 2:
                throw new IllegalArgumentException();
            case 3:
                return 1 / (n - 3);
            default:
                return n;
        }
    }

    static int caught(int n) {
        try {
            Io.show(100 + n);
            return raise(n);
        } catch (Worse worse) {
            return worse.code;
        } catch (Wrong wrong) {
            return -wrong.code;
        } catch (ArithmeticException by) {
            return 55;
        } finally {
            Io.show(200 + n);
        }
    }

    static int last(int n) {
        int k = 1;
        try {
            k = 2;
            if (n > 2) return k;
            k = 3;
        } finally {
            k += 10;
            Io.show(k);
            if (n == 4) return 99;
        }
        return k;
    }

    static int nested(int n) {
        try {
            try {
                raise(n);
            } finally {
                Io.show(300 + n);
                if (n == 5) throw new IllegalStateException();
            }
        } catch (RuntimeException e) {
            return 1;
        } catch (Exception e) {
            return 2;
        }
        return 3;
    }

    static void main() {
        for (int i = 0; i < 6; i++) {
            int n = Io.next();
            try {
                Io.show(caught(n));
            } catch (RuntimeException e) {
                Io.show(66);
            }
            Io.show(last(n));
            Io.show(nested(n));
        }
    }
}
