import static java.util.Map.entry;

import bcsproved.BcsException;
import bcsproved.Hex;
import bcsproved.Registry;
import bcsproved.Unit;
import bcsproved.Variant;
import java.math.BigDecimal;
import java.math.BigInteger;
import java.nio.ByteBuffer;
import java.util.ArrayList;
import java.util.Collections;
import java.util.Date;
import java.util.HashMap;
import java.util.LinkedHashMap;
import java.util.List;
import java.util.Map;
import java.util.Optional;
import java.util.OptionalInt;
import java.util.Set;
import java.util.concurrent.atomic.AtomicInteger;

/** The values and types in tests/rows/values/java.rows, by what they are called there. */
final class ValueRows extends Check {
    private static final Map<String, Object> VALUES = new LinkedHashMap<>();
    private static final String ONES = "11".repeat(32);

    private ValueRows() {}

    /** Adds values, each behind its name. */
    private static void add(Object... named) {
        for (int i = 0; i < named.length; i += 2) {
            if (VALUES.put((String) named[i], named[i + 1]) != null) {
                throw new AssertionError("two values are called " + named[i]);
            }
        }
    }

    static {
        add("0", 0, "7L", 7L, "-1", -1, "(byte) -128", (byte) -128, "(short) -300", (short) -300, "255", 255, "256", 256, "65535", 65535,
                "-70000", -70000, "Long.MAX_VALUE", Long.MAX_VALUE, "Long.MIN_VALUE", Long.MIN_VALUE, "2^64-1", power(64).subtract(BigInteger.ONE),
                "BigInteger -1", BigInteger.valueOf(-1), "2^127", power(127), "2^128", power(128), "-2^255", power(255).negate(), "2^256", power(256));
        add("'a'", 'a', "7.0", 7.0, "1f", 1f, "BigDecimal", BigDecimal.ONE, "AtomicInteger", new AtomicInteger(7), "Lie", new Samples.Lie(),
                "OptionalInt", OptionalInt.of(7), "true", true, "false", false, "Unit", new Unit(), "null", null);
        for (String text : List.of("", "seven", "bob", "7", "\"\\\n\0é\ud83d\ude00", "000000", "cafe", "0x", "0X1", "0x1", "0xABc", "0xg")) {
            add('"' + text.replace("\n", "\\n").replace("\0", "\\0") + '"', text);
        }
        add("ONES", ONES, "0x ONES", "0x" + ONES, "0x ONES 1", "0x" + ONES + "1", "half of a pair", "\ud83d");
        for (String digits : List.of("0aFF", "0a0", "0x01", "01020304")) {
            add("Hex " + digits, new Hex(digits));
        }
        add("Hex ONES", new Hex(ONES), "byte[0]", new byte[0], "byte[] 1 2 3 4", new byte[] {1, 2, 3, 4}, "byte[] -1", new byte[] {-1},
                "byte[] 1 2", new byte[] {1, 2}, "byte[] ONES", unhex(ONES), "ByteBuffer of a part", ByteBuffer.wrap(new byte[] {9, 1, 2, 9}, 1, 2).asReadOnlyBuffer(),
                "direct ByteBuffer", ByteBuffer.allocateDirect(2), "Byte[] 5", new Byte[] {5}, "int[] 1 30", new int[] {1, 30}, "double[0]", new double[0],
                "float[0]", new float[0], "List of (byte) -1", List.of((byte) -1), "List 1 300", List.of(1, 300), "List 1 256", List.of(1, 256),
                "List 1 -1", List.of(1, -1), "List 1 BigInteger 2", List.of(1, BigInteger.TWO), "List", List.of(), "List 1 x", List.of(1, "x"),
                "List 1 true", List.of(1, true), "List x", List.of("x"), "List of byte[]", List.of(new byte[] {1}, new byte[] {2, 3}),
                "Object[] 1 x", new Object[] {1, "x"}, "List 1 x 2", List.of(1, "x", 2), "Object[] 1 x 2", new Object[] {1, "x", 2},
                "List of a List", List.of(List.of("a", 1, 2)), "List of null", Collections.singletonList(null), "List 1 2 3", List.of(1, 2, 3));
        add("Set", Set.of(1), "Map b 2 a 1", Map.of("b", 2, "a", 1), "Map", Map.of(), "entries b 2 a 1", List.of(entry("b", 2), entry("a", 1)),
                "entries a 1 a 2", List.of(entry("a", 1), entry("a", 2)), "Map 7 256", Map.of(7, 256), "Map 7 true", Map.of(7, true), "Map a b", Map.of("a", "b"),
                "Map to amount", map("to", "bob", "amount", 7), "Map to amount memo", map("to", "bob", "amount", 7, "memo", ""),
                "Map to", Map.of("to", "bob"), "Map 1 bob", Map.of(1, "bob"), "Map to null", map("amount", 7, "to", null), "Map x y", map("x", 1, "y", true));
        add("Optional", Optional.empty(), "Optional 4", Optional.of(4), "Optional 256", Optional.of(256), "Optional Optional", Optional.of(Optional.empty()),
                "Optional Optional true", Optional.of(Optional.of(true)), "Optional Unit", Optional.of(new Unit()));
        add("Pay", new Samples.Pay("bob", BigInteger.valueOf(7)), "Signed", new Samples.Signed("bob", 7), "Signed -7", new Samples.Signed("bob", -7),
                "Signed null", new Samples.Signed(null, 7), "Tagged", new Samples.Tagged(7, "bob"), "PayBean", Samples.PayBean.of("bob", 7),
                "Generic", new Samples.Generic<>("bob", 7), "Generic 1", new Samples.Generic<>(1, 7), "Fewer", new Samples.Fewer("b"),
                "More", new Samples.More("b", 7, ""), "Twice", new Samples.Twice("b", 7, 7), "Elements", new Samples.Elements(1, "x"),
                "Untagged", new Samples.Untagged(1, "x"), "WrongTag", new Samples.WrongTag("b", 7), "Swapped", new Samples.Swapped(7, "bob"),
                "MemoBean", new Samples.MemoBean(), "List of Signed", List.of(new Samples.Signed("a", 1), new Samples.Signed("\ud800", 1)));
        add("Dot", new Samples.Dot(), "Nothing", new Samples.Nothing(), "Num", new Samples.Num(BigInteger.valueOf(7)), "Pair", new Samples.Pair(1, 2),
                "Radius", new Samples.Radius((short) 9), "Square", new Samples.Square(1), "Colour", Samples.Colour.RED);
        add("Variant Dot", new Variant("Dot"), "Variant Num 7", new Variant("Num", 7), "Variant Pair", new Variant("Pair", List.of(1, 2)),
                "Variant Named", new Variant("Named", Map.of("r", 9)), "Variant Nope", new Variant("Nope"), "Variant Num", new Variant("Num"),
                "Variant Num null", new Variant("Num", null), "Variant Dot null", new Variant("Dot", null), "Variant Dot 1", new Variant("Dot", 1),
                "Variant Pair of 3", new Variant("Pair", List.of(1, 2, 3)), "Variant Pair of int[3]", new Variant("Pair", new int[] {1, 2, 3}),
                "Variant Pair 1 256", new Variant("Pair", List.of(1, 256)), "Variant null", new Variant(null), "Variant dot", new Variant("dot"));
        add("Object", new Object(), "Date", new Date(0), "Thread", new Thread(), "Runnable", (Runnable) () -> { }, "int.class", int.class);
    }

    private static final List<Class<?>> TYPES = List.of(byte.class, Byte.class, short.class, Short.class, int.class, Integer.class, long.class,
            Long.class, BigInteger.class, double.class, boolean.class, String.class, byte[].class, ByteBuffer.class, Hex.class, List.class,
            ArrayList.class, int[].class, Long[].class, short[].class, Object[].class, byte[][].class, Samples.Pay[].class, Optional.class, Map.class,
            HashMap.class, Unit.class, Object.class, Thread.class, Samples.Pay.class, Samples.Signed.class, Samples.PayBean.class,
            Samples.Generic.class, Samples.Fewer.class, Samples.More.class, Samples.Twice.class, Samples.WrongTag.class, Samples.Swapped.class,
            Samples.Elements.class, Samples.Nothing.class, Samples.Shape.class, Samples.Some.class, Samples.Another.class, Samples.Doubled.class,
            Samples.Dot.class, Samples.Pair.class, Samples.Colour.class, Variant.class);

    private static BigInteger power(int bits) {
        return BigInteger.TWO.pow(bits);
    }

    /** A map in this order. */
    private static Map<String, Object> map(Object... members) {
        Map<String, Object> map = new LinkedHashMap<>();
        for (int i = 0; i < members.length; i += 2) {
            map.put((String) members[i], members[i + 1]);
        }
        return map;
    }

    static byte[] encoded(Registry registry, String format, String name) throws BcsException {
        if (!VALUES.containsKey(name)) {
            throw new AssertionError("no value is called " + name);
        }
        return registry.encode(format, VALUES.get(name));
    }

    /** What the bytes are as a type. They come back. */
    static String decoded(Registry registry, String format, byte[] data, String name) throws BcsException {
        Class<?> type = TYPES.stream().filter(one -> one.getSimpleName().equals(name)).findFirst().orElseThrow();
        Object value = registry.decode(format, data, type);
        equal(List.of(shown(registry.encode(format, value))), List.of(shown(data)));
        return shown(value);
    }
}
