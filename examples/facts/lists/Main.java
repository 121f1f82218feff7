class Item {
    final Object value;
    final Item rest;

    Item(Object value, Item rest) {
        this.value = value;
        this.rest = rest;
    }
}

class Stack {
    private Item top;

    void push(Object value) {
        top = new Item(value, top);
    }

    Object pop() {
        Object value = top.value;
        top = top.rest;
        return value;
    }
}

class Main {
    public static void main(String[] args) {
        Stack texts = new Stack(), others = new Stack();
        texts.push("a");
        texts.push(args);
        others.push(new Stack());
        for (int n = Io.next(); n > 0; n--) {
            others.push(others.pop());
        }
        Object text = texts.pop();
        Io.show(text == others.pop() ? 1 : 0);
    }
}
