import bcsproved.BcsException.Kind;
import bcsproved.Registry;
import java.math.BigInteger;
import java.nio.ByteBuffer;
import java.nio.ByteOrder;
import java.util.AbstractList;
import java.util.Arrays;
import java.util.List;
import java.util.Map;
import java.util.concurrent.atomic.AtomicInteger;

/**
 * Eight threads, and calls within calls: accessors, lists and constructors make calls of their own. No bytes of two calls are mixed.
 * Expected bytes are written out.
 */
final class Threads extends Check {
    private static final String REGISTRY = """
            {"P":{"STRUCT":[{"b":"STR"},{"a":"BYTES"},{"c":{"SEQ":"U16"}},{"d":{"MAP":{"KEY":"U8","VALUE":"U64"}}}]}}""";
    private static final int[] LENGTHS = {0, 1, 127, 128, 1500, 9000};
    /** What runs whenever a part of a value is read on this thread, or a value is made, and how often it ran. */
    private static final ThreadLocal<Test> NESTED = new ThreadLocal<>();
    private static final AtomicInteger RUNS = new AtomicInteger();

    private static <T> T nested(T value) {
        try {
            NESTED.get().run();
            RUNS.incrementAndGet();
        } catch (Exception e) {
            throw new AssertionError(e);
        }
        return value;
    }

    record Plain(String b, byte[] a, List<Integer> c, Map<Short, BigInteger> d) {}

    /** The same value, which makes calls. */
    record Calling(String b, byte[] a, List<Integer> c, Map<Short, BigInteger> d) {
        Calling {
            nested(null);
        }

        @Override
        public String b() {
            return nested(b);
        }

        @Override
        public byte[] a() {
            return nested(a);
        }

        @Override
        public List<Integer> c() {
            return new AbstractList<>() {
                @Override
                public Integer get(int index) {
                    return nested(c.get(index));
                }

                @Override
                public int size() {
                    return c.size();
                }
            };
        }
    }

    /** A value with its bytes. */
    private record Row(Plain value, byte[] data) {
        static Row of(int number, int length) {
            byte[] octets = new byte[length];
            Arrays.fill(octets, (byte) ('a' + number % 26));
            ByteBuffer out = ByteBuffer.allocate(2 * length + 30).order(ByteOrder.LITTLE_ENDIAN);
            for (int i = 0; i < 2; i++) {
                out.put(length < 128 ? new byte[] {(byte) length} : new byte[] {(byte) (length | 128), (byte) (length >> 7)}).put(octets);
            }
            long wide = (long) number << 40;
            out.put((byte) 2).putShort((short) number).putShort((short) number).put((byte) 1).put((byte) 9).putLong(wide);
            Map<Short, BigInteger> map = Map.of((short) 9, BigInteger.valueOf(wide));
            Plain value = new Plain(new String(octets, java.nio.charset.StandardCharsets.US_ASCII), octets, List.of(number, number), map);
            return new Row(value, Arrays.copyOf(out.array(), out.position()));
        }

        void isSame(byte[] found) {
            equal(ByteBuffer.wrap(found), ByteBuffer.wrap(data));
        }

        /** Calls of each kind, some of which are refused. */
        void check(Registry registry) throws Exception {
            isSame(registry.encode("P", value));
            isSame(registry.encode("P", Map.of("d", value.d, "a", value.a, "c", value.c, "b", value.b)));
            isSame(registry.encodeJson("P", registry.decodeJson("P", data)));
            isSame(registry.encode("P", registry.decode("P", data, Plain.class)));
            refused(Kind.VALUE, "WrongType", -1, "/a", "BYTES takes bytes, or Hex(…) for digits, not String",
                    () -> registry.encode("P", Map.of("b", "", "a", "", "c", List.of(), "d", Map.of())));
        }

        /** The same by a value that makes calls on another one. */
        void checkCalling(Registry registry, Row other) throws Exception {
            NESTED.set(() -> other.check(registry));
            isSame(registry.encode("P", new Calling(value.b, value.a, value.c, value.d)));
            isSame(registry.encode("P", registry.decode("P", data, Calling.class)));
        }
    }

    private static void run(Registry shared, int thread) throws Exception {
        try (Registry own = Registry.open(REGISTRY)) {
            for (int turn = 0; turn < 12; turn++) {
                Registry registry = turn % 2 == 0 ? shared : own;
                Row other = Row.of(1000 * thread + turn, LENGTHS[turn % LENGTHS.length]);
                for (int length : LENGTHS) {
                    Row row = Row.of(1000 * thread + turn + 500, length);
                    row.check(registry);
                    row.checkCalling(registry, other);
                }
            }
        }
    }

    public static void main(String[] arguments) throws Exception {
        AtomicInteger started = new AtomicInteger();
        try (Registry shared = Registry.open(REGISTRY)) {
            Tests.onThreads(8, 0, () -> run(shared, started.getAndIncrement()));
        }
        equal(RUNS.get() >= 10 * 8 * 12 * LENGTHS.length, true);
        System.out.println("eight threads with " + RUNS + " calls within calls");
    }
}
