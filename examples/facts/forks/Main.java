class Spawner extends Thread {
    private final int depth;
    Object made;

    Spawner(int depth) {
        this.depth = depth;
    }

    Object make() {
        return new Object();
    }

    public void run() {
        made = make();
        if (depth > 0) {
            new Spawner(depth - 1).start();
        }
    }
}

class Main {
    public static void main(String[] args) {
        Spawner first = new Spawner(Io.next());
        first.start();
        first.run();
        Io.show(first.made == null ? 0 : 1);
    }
}
