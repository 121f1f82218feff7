interface Named {
    int NUMBER = 77;

    int name();
}

interface Counted extends Named {
    int count();
}

interface Add {
    int add(int a);
}

class Base {
    public int name() {
        return 10;
    }
}

class Both extends Base implements Counted, Add {
    private int sum;

    public int count() {
        return sum;
    }

    public int add(int a) {
        sum += a;
        return name() + sum;
    }
}

class Other extends Both {
    public int name() {
        return super.name() + Named.NUMBER;
    }
}

class Main {
    static int told(Counted c) {
        return c.name() * 1000 + c.count();
    }

    static int added(Add a, int n) {
        return a.add(n);
    }

    static void main() {
        int a = Io.next(), b = Io.next();
        Both one = new Both(), two = new Other();
        Io.show(added(one, a));
        Io.show(added(two, b));
        Io.show(told(one));
        Io.show(told(two));
        Add third = two;
        Named fourth = (Named) third;
        Io.show(third.add(a));
        Io.show(fourth.name());
        Object object = third;
        Io.show(object instanceof Named ? 1 : 0);
        Io.show(object instanceof Base ? 1 : 0);
        Io.show(new Object() instanceof Add ? 1 : 0);
        Io.show(object.equals(two) ? 1 : 0);
        Io.show(object.equals(one) ? 1 : 0);
    }
}
