class Main {
    static void insertion(int[] a) {
        for (int i = 1; i < a.length; i++) {
            int x = a[i], k = i - 1;
            while (k >= 0 && a[k] > x) {
                a[k + 1] = a[k];
                k--;
            }
            a[k + 1] = x;
        }
    }

    static void quick(int[] a, int from, int to) {
        if (to - from < 2) return;
        int pivot = a[from], middle = from;
        for (int i = from + 1; i < to; i++) {
            if (a[i] < pivot) {
                int t = a[++middle];
                a[middle] = a[i];
                a[i] = t;
            }
        }
        a[from] = a[middle];
        a[middle] = pivot;
        quick(a, from, middle);
        quick(a, middle + 1, to);
    }

    static void main() {
        int[] one = new int[Io.next()];
        int[] two = new int[one.length];
        for (int i = 0; i < one.length; i++) {
            one[i] = Io.next();
            two[i] = one[i] ^ 85;
        }
        insertion(one);
        quick(two, 0, two.length);
        for (int x : one) Io.show(x);
        for (int x : two) Io.show(x);
    }
}
