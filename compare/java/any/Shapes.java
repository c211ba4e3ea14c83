package any;

import java.io.Serializable;
import java.lang.annotation.*;
import java.util.*;

/** Interfaces, enums, annotations, inner and local classes, exceptions, generics. */
public abstract class Shapes<T extends Comparable<T> & Serializable> implements Iterable<T>, Comparable<Shapes<T>>, Serializable {
    @Retention(RetentionPolicy.RUNTIME)
    @interface Mark {
        String value() default "none";
        int[] numbers() default {1, 2, 3};
        Class<?> type() default Object.class;
        Kind kind() default Kind.FIRST;
        Deprecated other() default @Deprecated;
    }
    enum Kind {
        FIRST, SECOND { @Override int rank() { return 7; } }, THIRD;
        int rank() { return ordinal(); }
    }
    interface Inner { int LIMIT = 99; int f(int x); }
    static int counter;
    static { for (int i = 0; i < 10; i++) counter += i; }
    @Deprecated private T value;
    protected Shapes(T value) throws IllegalStateException { this.value = value; }
    @Mark(value = "x", numbers = {}, kind = Kind.SECOND)
    public <U, E extends Exception> U run(U u, List<? super T> list, @Mark int n) throws E, java.io.IOException {
        class Local implements Inner {
            final int m;
            Local(int m) { this.m = m; }
            public int f(int x) { return x * m + n + counter; }
        }
        Inner a = new Local(3);
        Inner b = new Inner() { public int f(int x) { return a.f(x) + LIMIT; } };
        switch (n) { case 1: return u; case 100000: return null; default: break; }
        String s = String.valueOf(n);
        switch (s) { case "one": return u; case "two": return null; }
        try { synchronized (this) { counter += b.f(n); } } catch (RuntimeException | Error e) { throw e; } finally { counter--; }
        assert n > 0 : "positive";
        return u;
    }
    public int compareTo(Shapes<T> o) { return value.compareTo(o.value); }
    class Member { class Deeper { T get() { return value; } } }
    static class Nested<A, B> extends HashMap<A, Map<B, A[]>> { }
}
