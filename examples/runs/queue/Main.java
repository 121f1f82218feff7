class Queue {
    private static class Node {
        int value;
        Node next;
    }

    private Node first, last;
    private int size;

    void put(int value) {
        Node node = new Node();
        node.value = value;
        if (last == null) first = node;
        else last.next = node;
        last = node;
        size++;
    }

    int take() {
        if (first == null) throw new IllegalStateException();
        int value = first.value;
        first = first.next;
        if (first == null) last = null;
        size--;
        return value;
    }

    int size() {
        return size;
    }
}

class Stack {
    private int[] items = new int[1];
    private int top;

    void push(int n) {
        if (top == items.length) {
            int[] more = new int[2 * top];
            for (int i = 0; i < top; i++) more[i] = items[i];
            items = more;
        }
        items[top++] = n;
    }

    int pop() {
        return items[--top];
    }
}

class Main {
    static void main() {
        Queue queue = new Queue();
        Stack stack = new Stack();
        for (int n = Io.next(); n != 0; n = Io.next()) {
            queue.put(n);
            stack.push(n);
            stack.push(n * n);
        }
        Io.show(queue.size());
        while (queue.size() > 0) Io.show(queue.take());
        try {
            queue.take();
        } catch (IllegalStateException e) {
            Io.show(-1);
        }
        try {
            while (true) Io.show(stack.pop());
        } catch (ArrayIndexOutOfBoundsException e) {
            Io.show(-2);
        }
    }
}
