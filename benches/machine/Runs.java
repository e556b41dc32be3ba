/** The functions of Runs.scala, as a JVM's interpreter runs them: `java -Xint Runs NAME` prints the value's text. */
final class Runs {
    static abstract class L {}

    static final class Cons extends L {
        final int head;
        final L tail;

        Cons(int head, L tail) {
            this.head = head;
            this.tail = tail;
        }
    }

    static final class Nil extends L {}

    static int down(int n) {
        if (!(0 <= n)) throw new IllegalArgumentException();
        return n == 0 ? 0 : down(n - 1);
    }

    static int turned(int n, int a) {
        return n <= 0 ? a : turned(n - 1, (a * 31 + n) ^ (a >>> 3));
    }

    static int repeated(int times, int a) {
        return times <= 0 ? a : repeated(times - 1, turned(50000, a));
    }

    static L upTo(int n) {
        if (!(0 <= n)) throw new IllegalArgumentException();
        return n == 0 ? new Nil() : new Cons(n, upTo(n - 1));
    }

    static int size(L l) {
        return l instanceof Cons ? 1 + size(((Cons) l).tail) : 0;
    }

    static int sum(L l) {
        return l instanceof Cons ? ((Cons) l).head + sum(((Cons) l).tail) : 0;
    }

    static int list() {
        L l = upTo(99998);
        return size(l) + sum(l);
    }

    static L insert(int x, L l) {
        if (l instanceof Nil) return new Cons(x, new Nil());
        Cons c = (Cons) l;
        return x <= c.head ? new Cons(x, l) : new Cons(c.head, insert(x, c.tail));
    }

    static L sort(L l) {
        if (l instanceof Nil) return new Nil();
        Cons c = (Cons) l;
        return insert(c.head, sort(c.tail));
    }

    static L mixed(int n) {
        if (!(0 <= n)) throw new IllegalArgumentException();
        return n == 0 ? new Nil() : new Cons(n * 7919 % 2003, mixed(n - 1));
    }

    static int weighed(L l, int place) {
        if (l instanceof Nil) return 0;
        Cons c = (Cons) l;
        return c.head * place + weighed(c.tail, place + 1);
    }

    static String text(L l) {
        StringBuilder out = new StringBuilder();
        int open = 0;
        while (l instanceof Cons) {
            out.append("Cons(").append(((Cons) l).head).append(", ");
            l = ((Cons) l).tail;
            open += 1;
        }
        out.append("Nil()");
        while (open > 0) {
            out.append(")");
            open -= 1;
        }
        return out.toString();
    }

    static String value(String name) {
        switch (name) {
            case "deep": return "" + down(99999);
            case "numbers": return "" + repeated(20, 1);
            case "list": return "" + list();
            case "printed": return text(upTo(99998));
            case "sorted": return "" + weighed(sort(mixed(2000)), 1);
            default: throw new IllegalArgumentException(name);
        }
    }

    /** The value, and on the error output the seconds that it took, without the start of the machine. */
    public static void main(String[] words) throws Exception {
        Thread run = new Thread(null, () -> {
            long start = System.nanoTime();
            String value = value(words[0]);
            System.out.println(words[0] + " = " + value);
            System.err.println((System.nanoTime() - start) / 1e9);
        }, "run", 1L << 30);
        run.start();
        run.join();
    }
}
