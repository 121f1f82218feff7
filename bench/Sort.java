/** Sorts an array that stands backwards by insertion. */
class Main {
    static void main() {
        int[] a = new int[1080];
        for (int i = 0; i < a.length; i++) a[i] = a.length - i;
        for (int i = 1; i < a.length; i++) {
            int x = a[i], k = i - 1;
            while (k >= 0 && a[k] > x) {
                a[k + 1] = a[k];
                k--;
            }
            a[k + 1] = x;
        }
        Io.show(a[0]);
        Io.show(a[1079]);
    }
}
