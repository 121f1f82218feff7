interface Step {
    Step next(int n);
}

class Up implements Step {
    public Step next(int n) {
        return n > 5 ? new Down() : this;
    }
}

class Down implements Step {
    public Step next(int n) {
        return n < 0 ? new Up() : this;
    }
}

class Main {
    static Step twice(Step step, int n) {
        return step.next(n).next(n + 1);
    }

    public static void main(String[] args) {
        Step step = new Up();
        int n = Io.next();
        do {
            step = twice(step, n);
            n -= 2;
        } while (n > 0);
        Io.show(step instanceof Up ? 1 : 0);
    }
}
