class Cell {
    int value;
}

class Worker implements Runnable {
    private final Cell cell;

    Worker(Cell cell) {
        this.cell = cell;
    }

    public void run() {
        cell.value = Io.next();
    }
}

class Own extends Thread {
    Cell cell;

    public void run() {
        cell.value = 2;
    }
}

class Main {
    public static void main(String[] args) throws InterruptedException {
        Cell shared = new Cell(), alone = new Cell();
        Thread worker = new Thread(new Worker(shared));
        Own own = new Own();
        own.cell = alone;
        worker.start();
        own.start();
        new Worker(alone).run();
        own.join();
        Io.show(shared.value + alone.value);
    }
}
