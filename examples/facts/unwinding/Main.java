class Own extends Exception {
    final int code;

    Own(int code) {
        super("own");
        this.code = code;
    }
}

class Main {
    static void inner(int n) throws Own {
        if (n > 0) {
            throw new Own(n);
        }
        if (n < 0) {
            throw new IllegalStateException();
        }
    }

    static void outer(int n) throws Own {
        inner(n);
        Io.show(0);
    }

    static int last(int n) {
        try {
            outer(n);
            return 0;
        } catch (Own own) {
            return own.code;
        } finally {
            Io.show(7);
        }
    }

    public static void main(String[] args) {
        try {
            Io.show(last(Io.next()));
        } catch (RuntimeException any) {
            Io.show(any.getMessage() == null ? 1 : 2);
        }
    }
}
