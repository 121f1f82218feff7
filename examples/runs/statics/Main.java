class Counter {
    static int made;
    static final int START = 40;
    static final String NAME = "counter";
    static Counter last;
    int number;

    Counter() {
        number = START + made++;
        last = this;
    }
}

class Sub extends Counter {
    static String name() {
        return "counter";
    }
}

class Main {
    static boolean started;
    static byte small;
    static char wide;

    static void main() {
        Io.show(started ? 1 : 0);
        int n = Io.next();
        for (int i = 0; i < n; i++) {
            new Counter();
            if (i % 2 == 0) new Sub();
        }
        Io.show(Counter.made);
        Io.show(Sub.made);
        Io.show(Counter.last.number);
        Io.show(Counter.NAME == Sub.name() ? 1 : 0);
        Io.show("a" == "b" ? 1 : 0);
        String text = "a";
        Io.show(text == "a" ? 1 : 0);
        Main.small = (byte) 200;
        Main.wide = (char) -1;
        small += 1;
        Io.show(small);
        Io.show(wide);
    }
}
