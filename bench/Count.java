/** Counts by a loop of nine instructions. */
class Main {
    static void main() {
        int sum = 0;
        for (int i = 0; i < 1111000; i++) sum += i;
        Io.show(sum);
    }
}
