class Sum implements Runnable {
    private final int from, to;
    int sum;

    Sum(int from, int to) {
        this.from = from;
        this.to = to;
    }

    public void run() {
        for (int i = from; i < to; i++) sum += i;
    }
}

class Main {
    static void main() throws InterruptedException {
        int a = Io.next(), b = Io.next();
        Sum one = new Sum(0, a), two = new Sum(a, b);
        Thread first = new Thread(one), second = new Thread(two);
        first.start();
        second.start();
        first.join();
        second.join();
        Io.show(one.sum);
        Io.show(two.sum);
        new Thread().run();
        Thread empty = new Thread();
        empty.start();
        empty.join();
        Io.show(one.sum + two.sum);
    }
}
