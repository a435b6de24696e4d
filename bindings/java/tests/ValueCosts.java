import bcsproved.Bcs;
import bcsproved.BcsException;
import bcsproved.BcsException.Kind;
import bcsproved.Limits;
import bcsproved.Registry;
import java.lang.management.ManagementFactory;
import java.math.BigInteger;
import java.util.AbstractList;
import java.util.ArrayList;
import java.util.Arrays;
import java.util.HashMap;
import java.util.List;
import java.util.Map;
import java.util.Optional;
import java.util.concurrent.atomic.AtomicInteger;

/** Values that cost much, never end, or do something while they are encoded. */
final class ValueCosts extends Check {
    private static final String DEEP = "{\"SEQ\":".repeat(30) + "\"U8\"" + "}".repeat(30);
    private static final byte[] TREE = unhex("010000");

    /** The tree of Samples, as records. */
    sealed interface Tree {}

    record Leaf() implements Tree {}

    record Fork(@Bcs("0") Tree left, @Bcs("1") Tree right) implements Tree {}

    /** A list without an end, whatever it says. */
    private static List<Integer> endless() {
        return new AbstractList<>() {
            @Override
            public Integer get(int index) {
                return 1;
            }

            @Override
            public int size() {
                return Integer.MAX_VALUE;
            }
        };
    }

    private static long processorTime() {
        return ManagementFactory.getThreadMXBean().getCurrentThreadCpuTime();
    }

    private static void rejected(String message, Check.Test test) {
        rejected(5, message, test);
    }

    /** Rejected within these seconds of the processor's time, with a message that isn't large. */
    private static void rejected(long seconds, String message, Check.Test test) {
        long start = processorTime();
        BcsException e = thrown(BcsException.class, test);
        equal(e.kind() == Kind.VALUE && e.getMessage().contains(message) ? "" : e.getMessage(), "");
        equal(e.getMessage().length() < 20_000 && processorTime() - start < seconds * 1_000_000_000L, true);
    }

    private static void endless(Registry registry) throws BcsException {
        List<Object> itself = new ArrayList<>();
        itself.add(itself);
        Map<String, Object> chain = new HashMap<>(Map.of("head", 1));
        chain.put("next", Optional.of(chain));
        Tree shared = new Leaf();
        for (int i = 0; i < 45; i++) {
            shared = new Fork(shared, shared);
        }
        Tree tree = shared;
        Registry limited = registry.withLimits(new Limits(500, 100_000));
        rejected("takes an integer, not ArrayList", () -> registry.encode(DEEP, itself));
        rejected("is there a cycle in HashMap", () -> registry.encode("L", chain));
        rejected("is there a cycle in Integer", () -> registry.encode("C", 7));
        rejected("more nodes than the limits allow", () -> limited.encode("Tree", tree));
        rejected("more nodes than the limits allow", () -> limited.encode("{\"SEQ\":\"U16\"}", endless()));
        rejected(30, "more nodes than the limits allow", () -> registry.encode("Tree", tree));
        rejected(30, "more nodes than the limits allow", () -> registry.encode("{\"SEQ\":\"U16\"}", endless()));
        rejected("a number of 1048577 bits", () -> registry.encode("\"U64\"", BigInteger.ONE.shiftLeft(1 << 20)));
        String four = "{\"TUPLEARRAY\":{\"CONTENT\":\"U8\",\"SIZE\":4}}";
        rejected("has 4 bytes, not 100000000", () -> registry.encode(four, new byte[100_000_000]));
        // Names of members and variants aren't repeated as they are.
        rejected("has no field \"xxx", () -> registry.encode("P", Map.of("x".repeat(1_000_000), 1)));
    }

    /** Formats from strangers aren't kept: all of these together would need more memory than there is. */
    private static void formats(Registry registry) throws BcsException {
        for (int i = 0; i < 3000; i++) {
            String last = "{\"TUPLEARRAY\":{\"CONTENT\":\"BOOL\",\"SIZE\":" + i + "}}";
            String format = "{\"TUPLE\":[" + "\"U8\",".repeat(i % 50 == 0 ? 20_000 : 100) + last + "]}";
            thrown(BcsException.class, () -> registry.encode(format, List.of(1)));
        }
    }

    /** A value that closes the registry while it is encoded: the call ends with its own answer. */
    private static void closing() throws BcsException {
        Registry registry = Registry.open(Samples.REGISTRY);
        List<Object> closing = new AbstractList<>() {
            @Override
            public Object get(int index) {
                registry.close();
                return index;
            }

            @Override
            public int size() {
                return 3;
            }
        };
        equal(Arrays.equals(registry.encode("{\"SEQ\":\"U16\"}", closing), unhex("03000001000200")), true);
        equal(thrown(IllegalStateException.class, () -> registry.encode("\"U8\"", 1)).getMessage(), "the registry is closed");
        Registry refusing = Registry.open(Samples.REGISTRY);
        List<Object> doubled = new AbstractList<>() {
            @Override
            public Object get(int index) {
                refusing.close();
                return Map.entry("a", 1);
            }

            @Override
            public int size() {
                return 2;
            }
        };
        refused(Kind.TEXT, "RepeatedKey", -1, "", "two keys of a map are equal",
                () -> refusing.encode("{\"MAP\":{\"KEY\":\"STR\",\"VALUE\":\"U8\"}}", doubled));
    }

    /** On a small stack a call succeeds, or is refused for it. */
    private static void stacks(Registry registry) throws Exception {
        String format = "{\"C\":{\"STRUCT\":[{\"n\":{\"OPTION\":{\"TYPENAME\":\"C\"}}}]}}";
        Registry chain = Registry.open(format);
        Map<String, Object> value = Map.of("n", Optional.empty());
        for (int i = 0; i < 48; i++) {
            value = Map.of("n", Optional.of(value));
        }
        Map<String, Object> deep = value;
        byte[] data = chain.encode("C", deep);
        Map<String, Object> circle = new HashMap<>();
        circle.put("n", Optional.of(circle));
        AtomicInteger refused = new AtomicInteger();
        for (long kibibytes : new long[] {144, 160, 192, 256, 512, 1024, 16 << 10}) {
            Tests.onThreads(1, kibibytes << 10, () -> {
                for (Check.Test test : List.<Check.Test>of(() -> chain.encode("C", deep), () -> chain.decode("C", data),
                        () -> chain.encode("C", circle))) {
                    try {
                        test.run();
                    } catch (BcsException e) {
                        equal(e.kind() == Kind.STACK || e.getMessage().contains("is there a cycle"), true);
                        refused.addAndGet(e.kind() == Kind.STACK ? 1 : 0);
                    }
                }
            });
        }
        Tests.onThreads(1, 16 << 20, () -> equal(chain.decode("C", data), deep));
        equal(refused.get() > 0, true);
    }

    /** Threads make the converters of the same types at the same time. */
    private static void sharing() throws Exception {
        for (int round = 0; round < 20; round++) {
            Registry registry = Registry.open(Samples.REGISTRY);
            Tests.onThreads(16, 0, () -> equal(Arrays.equals(registry.encode("Tree", registry.decode("Tree", TREE, Tree.class)), TREE), true));
        }
    }

    public static void main(String[] arguments) throws Exception {
        try (Registry registry = Registry.open(Samples.REGISTRY)) {
            endless(registry);
            formats(registry);
            stacks(registry);
        }
        closing();
        sharing();
        System.out.println("values without end, on small stacks, and on many threads");
    }
}
