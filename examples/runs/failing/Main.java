class Failing extends Thread {
    final int[] log;
    int at;

    Failing(int[] log) {
        this.log = log;
    }

    void deeper(int n) {
        try {
            if (n == 0) throw new IllegalArgumentException();
            deeper(n - 1);
        } finally {
            log[at++] = n;
        }
    }

    public void run() {
        deeper(3);
        log[7] = 100;
    }
}

class Main {
    static void main() throws InterruptedException {
        int[] log = new int[8];
        Failing failing = new Failing(log);
        failing.start();
        failing.join();
        for (int n : log) Io.show(n);
        Io.show(failing.at + Io.next());
        Thread none = null;
        try {
            none.join();
        } catch (NullPointerException e) {
            Io.show(-1);
        }
        throw new Error();
    }
}
