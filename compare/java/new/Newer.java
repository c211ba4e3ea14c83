package newer;

import java.util.*;

/** Records, sealed types, switch expressions, text blocks, private methods on interfaces, nests. */
public sealed interface Newer permits Newer.Leaf, Newer.Node {
    record Leaf(int value, double[] weights, String name) implements Newer {
        public Leaf {
            if (value < 0) throw new IllegalArgumentException("negative " + value);
        }
    }
    record Node(Newer left, Newer right) implements Newer { }
    private int depth() {
        if (this instanceof Node n) return 1 + Math.max(n.left().depth(), n.right().depth());
        return 0;
    }
    static String show(Newer x) {
        var text = """
            a text
              block
            """;
        int n = switch (x.depth()) { case 0, 1 -> 10; case 2 -> { yield 20; } default -> x.hashCode(); };
        return text + n + x + switch (text) { case "a" -> "b"; default -> "c"; };
    }
    enum Op implements java.util.function.IntBinaryOperator {
        ADD { public int applyAsInt(int a, int b) { return a + b; } },
        MUL { public int applyAsInt(int a, int b) { return a * b; } }
    }
}
