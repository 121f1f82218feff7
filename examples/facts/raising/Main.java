class Holder {
    int value;

    int value() {
        return value;
    }
}

class Other implements Runnable {
    public void run() {}
}

/** Each exception that an instruction may raise, beside the same instruction that can't. */
class Main {
    static Holder none() {
        return Io.next() == 0 ? null : new Holder();
    }

    static int nullBase() {
        return none().value;
    }

    static int soundBase() {
        return new Holder().value;
    }

    static int nullReceiver() {
        return none().value();
    }

    static int soundReceiver() {
        return new Holder().value();
    }

    static int divisor(int n) {
        return 7 / n + 7 % n;
    }

    static int constantDivisor(int n) {
        return n / 2 + n % -3;
    }

    static int[] length(int n) {
        return new int[n];
    }

    static int[] constantLength() {
        return new int[4];
    }

    static int index(int n) {
        return constantLength()[n];
    }

    static Holder failingCast(int n) {
        Object any = n == 0 ? (Object) new Holder() : new Other();
        return (Holder) any;
    }

    static Holder soundCast() {
        Object any = new Holder();
        return (Holder) any;
    }

    static void wrongElement(Object value) {
        Object[] all = new Holder[1];
        all[0] = value;
    }

    static void fittingElement() {
        Object[] all = new Object[1];
        all[0] = new Holder();
    }

    static void missingInterface(int n) {
        Object any = n == 0 ? (Object) new Holder() : new Other();
        ((Runnable) any).run();
    }

    static void implemented() {
        Runnable other = new Other();
        other.run();
    }

    static void starts() {
        new Thread(new Other()).start();
    }

    public static void main(String[] args) {
        int n = Io.next();
        Io.show(nullBase() + soundBase() + nullReceiver() + soundReceiver());
        Io.show(divisor(n) + constantDivisor(n) + length(n).length + index(n));
        Io.show(failingCast(n).value + soundCast().value);
        wrongElement(new Other());
        fittingElement();
        missingInterface(n);
        implemented();
        starts();
    }
}
