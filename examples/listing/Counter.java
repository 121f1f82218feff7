class Counter {
    static final int LIMIT = 100;
    private int count;

    int add(int[] steps) {
        for (int i = 0; i < steps.length; i++) {
            count += steps[i];
        }
        return count > LIMIT ? LIMIT : count;
    }
}
