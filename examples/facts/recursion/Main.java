class Node {
    Node next;

    Node(Node next) {
        this.next = next;
    }

    int length() {
        return next == null ? 1 : 1 + next.length();
    }
}

class Main {
    static boolean even(int n) {
        return n == 0 || odd(n - 1);
    }

    static boolean odd(int n) {
        return n != 0 && even(n - 1);
    }

    static int ends(int n) {
        return n + 1;
    }

    static int callsWhatMayNotEnd(int n) {
        return even(n) ? ends(n) : 0;
    }

    public static void main(String[] args) {
        Io.show(callsWhatMayNotEnd(Io.next()));
        Io.show(new Node(new Node(null)).length());
        Io.show(ends(3));
    }
}
