package any;

import java.util.*;
import java.util.function.*;

/** Lambdas, method references of each kind, defaults and statics on interfaces: handles and bootstrap methods. */
public interface Calls extends Supplier<String>, Runnable {
    int START = new Random(5).nextInt();
    default void run() { System.out.println(get() + START); }
    static Calls of(String s) { return () -> s + s.length() + 1.5 + 'c' + 7L; }
    class Use {
        int field = 4;
        Use() { }
        Use(int x) { field = x; }
        static int twice(int x) { return 2 * x; }
        private int plus(int x) { return field + x; }
        Object all(int k, String... words) {
            Function<Integer, Integer> a = Use::twice, b = this::plus, c = x -> x + k + field;
            Supplier<Use> make = Use::new;
            IntFunction<int[]> array = int[]::new;
            BiFunction<String, String, Boolean> equal = String::equals;
            Comparator<String> order = Comparator.comparing(String::length).thenComparing(Comparator.naturalOrder());
            Runnable r = (Runnable & java.io.Serializable) () -> System.out.println("" + k + words.length + order);
            Calls d = Calls.of("z");
            Runnable e = d::run;
            return Arrays.asList(a, b, c, make, array, equal, r, d, e);
        }
    }
}
