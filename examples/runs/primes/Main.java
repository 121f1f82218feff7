class Main {
    static void main() {
        int end = Io.next();
        boolean[] crossed = new boolean[end + 1];
        int count = 0;
        for (int n = 2; n <= end; n++) {
            if (crossed[n]) continue;
            count++;
            Io.show(n);
            for (int k = n + n; k <= end; k += n) crossed[k] = true;
        }
        Io.show(count);
    }
}
