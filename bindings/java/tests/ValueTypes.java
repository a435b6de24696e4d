import bcsproved.Bcs;
import bcsproved.BcsException;
import bcsproved.BcsException.Kind;
import bcsproved.Hex;
import bcsproved.Limits;
import bcsproved.Names;
import bcsproved.Prefix;
import bcsproved.Registry;
import bcsproved.Unit;
import bcsproved.Variant;
import java.math.BigInteger;
import java.nio.file.Files;
import java.nio.file.Path;
import java.util.ArrayList;
import java.util.Arrays;
import java.util.HexFormat;
import java.util.List;
import java.util.Map;
import java.util.Optional;
import java.util.function.Function;

/** Values as Java types, and where values and types are rejected: {@code java ValueTypes EXAMPLES}. */
final class ValueTypes extends Check {
    private static Registry registry;

    private static String decoded(String format, String digits, Class<?> type) {
        try {
            return shown(registry.decode(format, unhex(digits), type));
        } catch (BcsException e) {
            return e.kind() + " " + e.getMessage();
        }
    }

    private static void decodes(String format, String digits, Class<?> type, String wanted) {
        String shown = format + " " + digits + " as " + type + ": ";
        equal(shown + decoded(format, digits, type), shown + wanted);
    }

    private static final String U64 = "0100000000000000", P = "03626f62" + U64, REFUSED = "VALUE refused: WrongType";

    /** A sample of each kind. The rows of values have each type at every format. */
    private static void types() {
        decodes("\"I16\"", "0100", byte.class, REFUSED + ": I16 doesn't fit in byte");
        decodes("\"U64\"", U64, double.class, REFUSED + ": U64 takes an integer, not double");
        decodes("\"BYTES\"", "0201ff", String.class, REFUSED + ": BYTES takes bytes, or Hex(…) for digits, not String");
        decodes("{\"SEQ\":\"U16\"}", "0201000200", ArrayList.class, REFUSED + ": SEQ of U16 takes a List or an array, not ArrayList");
        decodes("{\"SEQ\":\"U16\"}", "0201000200", short[].class, REFUSED + " at /-: U16 doesn't fit in short");
        decodes("{\"OPTION\":\"U8\"}", "0107", short.class, REFUSED + ": OPTION takes an Optional, not short");
        decodes("{\"MAP\":{\"KEY\":\"STR\",\"VALUE\":\"U8\"}}", "0101610101", Map.class,
                "BYTES refused: TrailingBytes at byte 4, .: expected the end, found 1 byte more");
        decodes("P", P, Samples.Pay.class, "Pay[to=bob, amount=1]");
        decodes("P", P, Samples.Generic.class, REFUSED + " at /to: STR takes no type variable: T");
        decodes("P", P, Samples.Fewer.class, REFUSED + ": P needs a part for \"amount\" in Samples$Fewer");
        decodes("P", P, Samples.More.class, REFUSED + ": P has no name for Samples$More.memo");
        decodes("P", P, Samples.Twice.class, REFUSED + ": P has one name for two parts of Samples$Twice: \"amount\"");
        decodes("P", P, Samples.WrongTag.class, REFUSED + ": P has no name for Samples$WrongTag.to, which is @Bcs(\"To\")");
        decodes("E", "00", Samples.Shape.class, "Dot[]");
        decodes("E", "01" + U64, Samples.Shape.class, "Num[value=1]");
        decodes("E", "0309", Samples.Shape.class, "Radius[r=9]");
        decodes("E", "01" + U64, Samples.Some.class, "Num2[value=1]");
        decodes("E", "00", Samples.Some.class, REFUSED + ": E is \"Dot\" here, and Samples$Some has no record for it");
        decodes("E", "0309", Samples.Some.class, REFUSED + " at /Named: E is \"Named\" here, and Samples$Some has no record for it");
        decodes("E", "00", Samples.Doubled.class, REFUSED + ": E has one variant for two records: \"Num\"");
        decodes("E", "00", Samples.Dot.class, REFUSED + ": E takes a Variant, or a record of a sealed interface, not Samples$Dot");
        decodes("E", "00", Variant.class, "Variant[name=Dot, value=Unit[]]");
        decodes("i256", "00".repeat(31) + "80", BigInteger.class, BigInteger.TWO.pow(255).negate().toString());
        decodes("u256", "ff".repeat(32), Object.class, BigInteger.TWO.pow(256).subtract(BigInteger.ONE).toString());
        String leaf = "Variant[name=Leaf, value=Unit[]]";
        decodes("Tree", "010000", Object.class, "Variant[name=Fork, value=[" + leaf + ", " + leaf + "]]");
    }

    private static void rejected(String format, Object value, String at, String message) throws BcsException {
        refused(Kind.VALUE, "WrongType", -1, at, message, () -> registry.encode(format, value));
    }

    private static void pointers() throws Exception {
        rejected("P", Map.of("to", "b", "amount", new byte[] {7}), "/amount", "U64 takes an integer, not byte[]");
        rejected("P", Map.of("to", "b", "amount", -1), "/amount", "U64 doesn't hold -1");
        rejected("P", Map.of("to", "b", "amount", 1, "a/b", 1), "", "P has no field \"a/b\"");
        rejected("P", new Samples.Signed(null, 1), "/to", "STR takes a String, not null");
        rejected("P", null, "", "P takes a record, a bean or a Map with the fields' names, not null");
        rejected("{\"SEQ\":{\"TYPENAME\":\"P\"}}", List.of(Map.of("to", "a", "amount", 1), new Samples.Signed("\ud800", 1)), "/1/to",
                "STR takes Unicode, not a String with half of a surrogate pair");
        rejected("E", new Variant("Pair", List.of(1, 256)), "/Pair/1", "U8 doesn't hold 256");
        rejected("E", new Variant("Pair", List.of(1)), "/Pair", "E::Pair has 2 elements, not 1");
        rejected("{\"MAP\":{\"KEY\":\"STR\",\"VALUE\":\"U8\"}}", Map.of("a", "b"), "/0/1", "U8 takes an integer, not String");
        rejected("{\"MAP\":{\"KEY\":\"STR\",\"VALUE\":\"U8\"}}", Map.of(1, 1), "/0/0", "STR takes a String, not Integer");
        rejected("{\"MAP\":{\"KEY\":\"STR\",\"VALUE\":\"U8\"}}", List.of(1), "/0", "MAP takes a Map.Entry here, not Integer");
        rejected("{\"OPTION\":\"U8\"}", Optional.of(256), "/some", "U8 doesn't hold 256");
        rejected("{\"OPTION\":\"U8\"}", null, "", "OPTION takes an Optional, not null");
        rejected("\"BYTES\"", List.of(1, 256), "/1", "U8 doesn't hold 256");
        rejected("{\"SEQ\":\"U8\"}", List.of(1, "2"), "/1", "U8 takes an integer, not String");
        rejected("{\"SEQ\":\"U8\"}", new float[0], "/-", "U8 takes an integer, not float");
        rejected("{\"SEQ\":\"U64\"}", new double[0], "/-", "U64 takes an integer, not double");
        rejected("{\"TUPLEARRAY\":{\"CONTENT\":\"U8\",\"SIZE\":4}}", new byte[3], "", "TUPLEARRAY of U8 has 4 bytes, not 3");
        rejected("\"F32\"", 7, "", "F32 has no values, not Integer");
        rejected("address", "0x", "", "address takes 0x and 1 to 64 hexadecimal digits, not \"0x\"");
        rejected("address", "x".repeat(200), "", "address takes 0x and 1 to 64 hexadecimal digits, not \"" + "x".repeat(100) + "..\"");
        Samples.Beans mixed = new Samples.Beans(List.of(Samples.PayBean.of("b", 1), new Samples.MemoBean()));
        Registry beans = Registry.open("{\"B\":{\"STRUCT\":[{\"payments\":{\"SEQ\":{\"TYPENAME\":\"P\"}}}]}," + Samples.REGISTRY.substring(1));
        refused(Kind.VALUE, "WrongType", -1, "/payments/1", "P has no name for Samples$MemoBean.Memo", () -> beans.encode("B", mixed));
    }

    /** A record's parts are rejected by their declared types, whether or not they are empty. */
    private static void declared() throws BcsException {
        record Floats(List<Double> sizes) {}
        record Raw(List<?> sizes) {}
        record Numbers(List<? extends Number> sizes) {}
        Registry lists = Registry.open("{\"L\":{\"STRUCT\":[{\"sizes\":{\"SEQ\":\"U64\"}}]}}");
        refused(Kind.VALUE, "WrongType", -1, "/sizes/-", "U64 takes an integer, not Double", () -> lists.encode("L", new Floats(List.of())));
        refused(Kind.VALUE, "WrongType", -1, "/sizes/-", "U64 takes an integer, not Number", () -> lists.encode("L", new Numbers(List.of())));
        refused(Kind.VALUE, "WrongType", -1, "/sizes/0", "U64 takes an integer, not Double", () -> lists.encode("L", new Raw(List.of(1.0))));
        equal(HexFormat.of().formatHex(lists.encode("L", new Raw(List.of(1)))), "01" + U64);
    }

    /** What a cast that nobody checks has put into a generic type is rejected where it stands, and an integer of another class isn't. */
    @SuppressWarnings("unchecked")
    private static void polluted() throws BcsException {
        record Order(List<Boolean> flags, long amount) {}
        record Parts(Map<String, Boolean> map, Optional<Boolean> option, List<Unit> units, List<String> texts, List<byte[]> bytes,
                List<Samples.Shape> shapes, List<Long> numbers, List<List<Long>> lists) {}
        Object[] right = {Map.of("a", true), Optional.of(true), List.of(new Unit()), List.of("a"), List.of(new byte[1]),
                List.of(new Samples.Dot()), List.of(1), List.of(List.of((short) 1))};
        Registry registry = Registry.open(("{'Order':{'STRUCT':[{'amount':'U64'},{'flags':{'SEQ':'BOOL'}}]},'Parts':{'STRUCT':["
                + "{'map':{'MAP':{'KEY':'STR','VALUE':'BOOL'}}},{'option':{'OPTION':'BOOL'}},{'units':{'SEQ':'UNIT'}},{'texts':{'SEQ':'STR'}},"
                + "{'bytes':{'SEQ':'BYTES'}},{'shapes':{'SEQ':{'TYPENAME':'E'}}},{'numbers':{'SEQ':'U64'}},{'lists':{'SEQ':{'SEQ':'U64'}}}]},")
                .replace('\'', '"') + Samples.REGISTRY.substring(1));
        for (Object flag : List.of("true],\"amount\":\"1000000\",\"flags\":[true", "true", 1)) {
            List<Boolean> flags = (List<Boolean>) (List<?>) List.of(flag);
            refused(Kind.VALUE, "WrongType", -1, "/flags/0", "BOOL takes a Boolean, not " + flag.getClass().getSimpleName(),
                    () -> registry.encode("Order", new Order(flags, 7)));
        }
        Function<Object[], Parts> made = x -> new Parts((Map<String, Boolean>) x[0], (Optional<Boolean>) x[1], (List<Unit>) x[2],
                (List<String>) x[3], (List<byte[]>) x[4], (List<Samples.Shape>) x[5], (List<Long>) x[6], (List<List<Long>>) x[7]);
        equal(HexFormat.of().formatHex(registry.encode("Parts", made.apply(right))),
                "01016101" + "0101" + "01" + "010161" + "010100" + "0100" + "01" + U64 + "0101" + U64);
        String[][] wrong = {{"/map/0/1", "BOOL takes a Boolean"}, {"/option/some", "BOOL takes a Boolean"}, {"/units/0", "UNIT takes a Unit"},
                {"/texts/0", "STR takes a String"}, {"/bytes/0", "BYTES takes bytes, or Hex(…) for digits"},
                {"/shapes/0", "E takes a Variant, or a record of a sealed interface"}, {"/numbers/0", "U64 takes an integer"},
                {"/lists/0", "SEQ of U64 takes a List or an array"}};
        for (int i = 0; i < wrong.length; i++) {
            Object[] parts = right.clone();
            parts[i] = i == 0 ? Map.of("a", 1.5) : i == 1 ? Optional.of(1.5) : List.of(1.5);
            refused(Kind.VALUE, "WrongType", -1, wrong[i][0], wrong[i][1] + ", not Double",
                    () -> registry.encode("Parts", made.apply(parts)));
        }
    }

    /** What a string in JSON means as bytes, and that as a value it is never bytes. */
    private static void twoDoors() throws BcsException {
        for (String format : List.of("\"BYTES\"", "{\"SEQ\":\"U8\"}")) {
            for (String text : List.of("000000", "cafe", "69b71d", "AbCd", "1234")) {
                byte[] digits = registry.encodeJson(format, "\"" + text + "\"");
                equal(HexFormat.of().formatHex(digits), "0" + text.length() / 2 + text.toLowerCase());
                BcsException e = thrown(BcsException.class, () -> registry.encode(format, text));
                equal(e.message().endsWith(" takes bytes, or Hex(…) for digits, not String"), true);
                equal(Arrays.equals(registry.encode(format, new Hex(text)), registry.encode(format, unhex(text))), true);
            }
        }
    }

    private static void check() throws BcsException {
        registry.checkType("P", Samples.Pay.class);
        registry.checkType("P", Samples.WideBean.class);
        registry.checkType("All", Samples.All.class);
        registry.checkType("E", Samples.Shape.class);
        refused(Kind.VALUE, "WrongType", -1, "/amount", "U64 doesn't fit in long", () -> registry.checkType("P", Samples.Signed.class));
        refused(Kind.FORMAT, "UnknownName", -1, "", "no container is called Q", () -> registry.checkType("Q", Samples.Signed.class));
        refused(Kind.FORMAT, "UnknownName", -1, "", "no container is called Q", () -> registry.encode("Q", 1));
        refused(Kind.FORMAT, "UnknownName", -1, "", "no container is called Q", () -> registry.decode("Q", new byte[0], Samples.Pay.class));
        Registry limited = registry.withLimits(new Limits(500, 2));
        refused(Kind.VALUE, "WrongType", -1, "/1", "BOOL has more nodes than the limits allow",
                () -> limited.encode("{\"SEQ\":\"BOOL\"}", List.of(true, true)));
        equal(limited.encode("\"BYTES\"", List.of(1, 2, 3)).length, 4);
    }

    private static void beans() throws BcsException {
        Samples.WideBean bean = registry.decode("P", unhex(P), Samples.WideBean.class);
        equal(bean.getWhom() + bean.getAmount(), "bob1");
        equal(HexFormat.of().formatHex(registry.encode("P", bean)), P);
    }

    /** A record with parts of each kind, there and back. */
    private static void all() throws BcsException {
        String one = "0x" + "00".repeat(31) + "01";
        Samples.All inner = new Samples.All(0, Optional.empty(), new byte[0], new int[0], Map.of(),
                new Samples.PairOfAll((byte) -1, new Samples.Nothing()), new Samples.Dot(), Optional.empty());
        Samples.All value = new Samples.All(4294967295L, Optional.of("é"), new byte[] {-1}, new int[] {65535},
                Map.of("0x1", BigInteger.TWO), new Samples.PairOfAll((byte) 1, new Samples.Nothing()), new Samples.Pair(1, 2),
                Optional.of(inner));
        String wanted = "ffffffff" + "0102c3a9" + "01ff" + "01ffff" + "01" + one.substring(2) + "02" + "00".repeat(31) + "01" + "020102"
                + "01" + "00000000" + "00" + "00" + "00" + "00" + "ff" + "00" + "00";
        byte[] data = registry.encode("All", value);
        equal(HexFormat.of().formatHex(data), wanted);
        Samples.All back = registry.decode("All", data, Samples.All.class);
        equal(List.of(back.maxGas(), back.memo(), shown(back.hash()), shown(back.sizes()), back.shares(), back.pair(), back.shape()),
                List.of(4294967295L, Optional.of("é"), "byte[-1]", "int[65535]", Map.of(one, BigInteger.TWO),
                        new Samples.PairOfAll((byte) 1, new Samples.Nothing()), new Samples.Pair(1, 2)));
        equal(Arrays.equals(registry.encode("All", back), data), true);
        Map<?, ?> map = (Map<?, ?>) registry.decode("All", data);
        equal(List.of(map.get("max_gas"), map.get("memo"), map.get("pair"), map.get("shape"), map.get("shares")),
                List.of(4294967295L, Optional.of("é"), List.of(1L, new Unit()), new Variant("Pair", List.of(1L, 2L)),
                        Map.of(one, BigInteger.TWO)));
        equal(Arrays.equals(registry.encode("All", map), data), true);
    }

    /** Byte strings in keys are Hex, which has the equality of its bytes. */
    private static void keys() throws BcsException {
        String format = "{\"MAP\":{\"KEY\":{\"TUPLE\":[\"BYTES\",{\"OPTION\":{\"SEQ\":\"BYTES\"}}]},\"VALUE\":\"BYTES\"}}";
        Map<?, ?> map = (Map<?, ?>) registry.decode(format, unhex("0101aa010101bb01cc"));
        equal(HexFormat.of().formatHex((byte[]) map.get(List.of(new Hex("AA"), Optional.of(List.of(new Hex("bb")))))), "cc");
        record Keyed(Map<byte[], String> map) {}
        record Entries(List<Map.Entry<byte[], String>> map) {}
        record Digits(Map<Hex, String> map) {}
        Registry maps = Registry.open("{\"M\":{\"STRUCT\":[{\"map\":{\"MAP\":{\"KEY\":\"BYTES\",\"VALUE\":\"STR\"}}}]}}");
        refused(Kind.VALUE, "WrongType", -1, "/map/-/0",
                "BYTES takes no byte[] as keys, which equal only themselves: use Hex, or a List of Map.Entry", () -> maps.decode("M", unhex("0101aa0162"), Keyed.class));
        equal(HexFormat.of().formatHex(maps.encode("M", new Keyed(Map.of(unhex("aa"), "b")))), "0101aa0162");
        Entries entries = maps.decode("M", unhex("0101aa0162"), Entries.class);
        equal(shown(entries.map().get(0).getKey()) + entries.map().get(0).getValue(), "byte[-86]b");
        equal(maps.decode("M", unhex("0101aa0162"), Digits.class), new Digits(Map.of(new Hex("aa"), "b")));
        equal(HexFormat.of().formatHex(maps.encode("M", entries)), "0101aa0162");
    }

    /** Keys that differ in Java are rejected if their bytes are equal, and none of them is left out. */
    private static void equalKeys() throws BcsException {
        Map<String, List<Object>> rows = Map.of("\"U8\"", List.of(1, 1L), "\"BYTES\"", List.of(new Hex("aa"), unhex("aa")),
                "{\"SEQ\":\"U16\"}", List.of(List.of(1), new int[] {1}), "{\"OPTION\":\"U8\"}", List.of(Optional.of(1), Optional.of(1L)),
                "{\"MAP\":{\"KEY\":\"U8\",\"VALUE\":\"U8\"}}", List.of(Map.of(1, 2), Map.of(1L, 2)));
        try (Registry registry = Registry.open("{}")) {
            for (Map.Entry<String, List<Object>> row : rows.entrySet()) {
                Map<Object, Integer> map = Map.of(row.getValue().get(0), 7, row.getValue().get(1), 7);
                refused(Kind.TEXT, "RepeatedKey", -1, "", "two keys of a map are equal",
                        () -> registry.encode("{\"MAP\":{\"KEY\":" + row.getKey() + ",\"VALUE\":\"U8\"}}", map));
            }
        }
    }

    private static void names() throws BcsException {
        String text = "{\"A\":{\"NEWTYPESTRUCT\":{\"TUPLEARRAY\":{\"CONTENT\":\"U8\",\"SIZE\":32}}},\"B\":{\"NEWTYPESTRUCT\":\"BYTES\"}}";
        String digits = "00".repeat(31) + "01";
        try (Registry plain = Registry.open(text); Registry named = Registry.open(text, Names.STANDARD.withAddresses("A"));
                Registry number = Registry.open(text, Names.STANDARD.withI256("A"))) {
            equal(HexFormat.of().formatHex(named.encode("A", "0x1")), digits);
            equal(named.decode("A", unhex(digits)), "0x" + digits);
            equal(number.encode("A", -1).length, 32);
            equal(number.decode("A", unhex("ff".repeat(32))), BigInteger.valueOf(-1));
            refused(Kind.VALUE, "WrongType", -1, "", "TUPLEARRAY of U8 takes bytes, or Hex(…) for digits, not String",
                    () -> plain.encode("A", "0x1"));
            equal(named.encodeJson("A", "\"" + digits + "\"").length, 32);
        }
        Names both = Names.STANDARD.withAddresses("A").withI256("A");
        equal(thrown(IllegalArgumentException.class, () -> Registry.open(text, both)).getMessage(), "two forms are given for \"A\"");
        for (String name : List.of("B", "C")) {
            equal(thrown(IllegalArgumentException.class, () -> Registry.open(text, Names.STANDARD.withU256(name))).getMessage(),
                    "the registry has no newtype of 32 bytes called \"" + name + "\"");
        }
    }

    /** Names that differ in the order of UTF-8 and of UTF-16, and names with escapes. */
    private static void order() throws BcsException {
        record Odd(@Bcs("\ud83d\ude00") byte face, @Bcs("\uffff") byte last, @Bcs("\n\"") byte line) {}
        Registry odd = Registry.open("{\"O\":{\"STRUCT\":[{\"\ud83d\ude00\":\"I8\"},{\"\uffff\":\"I8\"},{\"\\n\\\"\":\"I8\"}]}}");
        equal(HexFormat.of().formatHex(odd.encode("O", new Odd((byte) 1, (byte) 2, (byte) 3))), "010203");
        equal(odd.decode("O", unhex("010203"), Odd.class), new Odd((byte) 1, (byte) 2, (byte) 3));
        equal(odd.decode("O", unhex("010203")), Map.of("\ud83d\ude00", 1L, "\uffff", 2L, "\n\"", 3L));
        record Plain(int maxGas) {}
        Registry two = Registry.open("{\"O\":{\"STRUCT\":[{\"max_gas\":\"U8\"},{\"maxGas\":\"U8\"}]}}");
        refused(Kind.VALUE, "WrongType", -1, "", "O has two names for ValueTypes$1Plain.maxGas: it needs @Bcs",
                () -> two.encode("O", new Plain(1)));
    }

    /** A constructor or an accessor that throws is the caller's own. */
    private static void exceptions() throws Exception {
        record Strict(String to, BigInteger amount) {
            Strict {
                if (amount.signum() > 0) {
                    throw new IllegalArgumentException("too much");
                }
            }
        }
        equal(thrown(IllegalArgumentException.class, () -> registry.decode("P", unhex(P), Strict.class)).getMessage(), "too much");
        registry.decode("P", unhex(P.replace("01", "00")), Strict.class);
        equal(registry.decodePrefix("\"U16\"", new byte[] {1, 2, 3}), new Prefix<Object>(513L, 2));
    }

    /** Transactions come back as values, and these have the same bytes. */
    private static void transactions(Path examples) throws Exception {
        for (String name : List.of("aptos_transfer RawTransaction aptos_registry", "aptos_two_of_three SignedTransaction aptos_registry",
                "sui_transfer TransactionData sui_registry", "sui_stake TransactionData sui_registry")) {
            String[] words = name.split(" ");
            try (Registry chain = Registry.open(Files.readString(examples.resolve(words[2] + ".json")))) {
                byte[] data = unhex(Files.readString(examples.resolve(words[0] + ".hex")));
                equal(Arrays.equals(chain.encode(words[1], chain.decode(words[1], data)), data), true);
                equal(Arrays.equals(chain.encodeJson(words[1], chain.decodeJson(words[1], data)), data), true);
            }
        }
    }

    public static void main(String[] arguments) throws Exception {
        registry = Registry.open(Samples.REGISTRY);
        types();
        pointers();
        declared();
        polluted();
        twoDoors();
        check();
        beans();
        all();
        keys();
        equalKeys();
        names();
        order();
        exceptions();
        transactions(Path.of(arguments[0]));
        System.out.println("values as types, and rejected ones with their places");
    }
}
