class Worker extends Thread {
    int result;
    Worker below;

    public void run() {
        result += 5;
        if (below != null) {
            below.start();
            try {
                below.join();
            } catch (InterruptedException e) {
                result = -1;
            }
            result += below.result;
        }
    }
}

class Main {
    static void main() throws InterruptedException {
        int n = Io.next();
        Worker last = null;
        Worker[] all = new Worker[n];
        for (int i = 0; i < n; i++) {
            all[i] = new Worker();
            all[i].below = last;
            last = all[i];
        }
        Io.show(last.result);
        last.start();
        last.join();
        Io.show(last.result);
        Io.show(all[0].result);
        try {
            last.start();
        } catch (IllegalThreadStateException e) {
            Io.show(-7);
        }
        new Worker().join();
        last.below = null;
        last.run();
        Io.show(last.result);
    }
}
