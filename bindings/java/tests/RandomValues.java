import bcsproved.BcsException;
import bcsproved.Hex;
import bcsproved.Registry;
import bcsproved.Unit;
import bcsproved.Variant;
import java.io.BufferedReader;
import java.io.IOException;
import java.math.BigInteger;
import java.nio.charset.StandardCharsets;
import java.nio.file.Files;
import java.nio.file.Path;
import java.util.ArrayDeque;
import java.util.ArrayList;
import java.util.Arrays;
import java.util.Deque;
import java.util.Iterator;
import java.util.LinkedHashMap;
import java.util.LinkedList;
import java.util.List;
import java.util.Map;
import java.util.Optional;
import java.util.Random;

/** Random values of random registries, there and back: {@code java RandomValues FILE LEAST} tries those in the file. */
final class RandomValues extends Check {
    private RandomValues() {}

    private static String text(String digits) {
        return new String(unhex(digits), StandardCharsets.UTF_8);
    }

    /** The value of words, as tests/rows/random_values.py writes them, as decode returns it; in a map's key, byte strings are Hex. */
    private static Object value(String words) {
        Deque<Object> made = new ArrayDeque<>();
        for (String word : words.split(" ")) {
            String[] names = word.split("\\.", -1);
            String kind = names[0].split(":")[0], rest = names[0].substring(Math.min(kind.length() + 1, names[0].length()));
            made.push(switch (kind) {
                case "unit" -> new Unit();
                case "true", "false" -> kind.equals("true");
                case "text" -> text(rest);
                case "bytes", "octets", "octet-array" -> unhex(rest);
                case "key-bytes", "key-octets", "key-octet-array" -> new Hex(rest);
                case "address" -> "0x" + rest;
                case "none" -> Optional.empty();
                case "some" -> Optional.of(made.pop());
                case "newtype" -> made.pop();
                case "list", "array", "tuple" -> last(made, Integer.parseInt(rest));
                case "map" -> {
                    Map<Object, Object> map = new LinkedHashMap<>();
                    Iterator<Object> parts = last(made, 2 * Integer.parseInt(rest)).iterator();
                    while (parts.hasNext()) {
                        map.put(parts.next(), parts.next());
                    }
                    yield map;
                }
                case "struct" -> {
                    Map<String, Object> struct = new LinkedHashMap<>();
                    Iterator<Object> parts = last(made, names.length - 1).iterator();
                    Arrays.stream(names).skip(1).forEach(name -> struct.put(text(name), parts.next()));
                    yield struct;
                }
                case "variant" -> new Variant(text(names[2]), names[1].equals("UNIT") ? new Unit() : made.pop());
                case "U64", "U128", "I128", "u256", "i256" -> new BigInteger(rest);
                default -> Long.valueOf(rest);
            });
        }
        return made.pop();
    }

    private static List<Object> last(Deque<Object> made, int count) {
        LinkedList<Object> parts = new LinkedList<>();
        while (parts.size() < count) {
            parts.addFirst(made.pop());
        }
        return parts;
    }

    /** Whether two values are of the same types and equal; maps in the same order. */
    private static boolean same(Object one, Object other) {
        if (one instanceof byte[] bytes) {
            return other instanceof byte[] more && Arrays.equals(bytes, more);
        }
        if (one instanceof List<?> list) {
            return other instanceof List<?> more && sameEach(list, more);
        }
        if (one instanceof Map<?, ?> map) {
            return other instanceof Map<?, ?> more && sameEach(new ArrayList<>(map.keySet()), new ArrayList<>(more.keySet()))
                    && sameEach(new ArrayList<>(map.values()), new ArrayList<>(more.values()));
        }
        if (one instanceof Optional<?> option && option.isPresent()) {
            return other instanceof Optional<?> more && more.isPresent() && same(option.get(), more.get());
        }
        if (one instanceof Variant variant) {
            return other instanceof Variant more && variant.name().equals(more.name()) && same(variant.value(), more.value());
        }
        return one.equals(other);
    }

    private static boolean sameEach(List<?> one, List<?> other) {
        Iterator<?> more = other.iterator();
        return one.size() == other.size() && one.stream().allMatch(element -> same(element, more.next()));
    }

    private static void thereAndBack(Registry registry, String format, Object value, byte[] data) throws BcsException {
        byte[] encoded = registry.encode(format, value);
        if (!Arrays.equals(encoded, data)) {
            throw new AssertionError(format + " " + value + ": " + Arrays.toString(encoded) + " instead of " + Arrays.toString(data));
        }
        Object decoded = registry.decode(format, data);
        if (!same(value, decoded)) {
            throw new AssertionError(format + ": " + decoded + " instead of " + value);
        }
    }

    /** If these are the bytes of a value, this value has them. Returns whether they are. */
    private static boolean changed(Registry registry, String format, byte[] bad) throws BcsException {
        Object value;
        try {
            value = registry.decode(format, bad);
        } catch (BcsException e) {
            equal(e.kind(), BcsException.Kind.BYTES);
            return false;
        }
        equal(Arrays.equals(registry.encode(format, value), bad), true);
        return true;
    }

    /** A record with parts of each kind, whose bytes are those of the value as a map. */
    private static void typed(int count) throws BcsException {
        Random random = new Random(1);
        int decoded = 0;
        try (Registry registry = Registry.open(Samples.REGISTRY)) {
            byte[] data = registry.encodeJson("All", registry.example("All", "", true));
            for (int i = 0; i < count; i++) {
                byte[] bad = data.clone();
                bad[random.nextInt(bad.length)] ^= (byte) (1 << random.nextInt(8));
                try {
                    registry.scan("All", bad);
                    registry.decodeJson("All", bad);
                } catch (BcsException e) {
                    continue;
                }
                data = bad;
                decoded++;
                equal(Arrays.equals(registry.encode("All", registry.decode("All", bad, Samples.All.class)), bad), true);
            }
        }
        equal(decoded > count / 4, true);
    }

    public static void main(String[] arguments) throws BcsException, IOException {
        int values = 0, changed = 0, least = Integer.parseInt(arguments[1]);
        try (BufferedReader lines = Files.newBufferedReader(Path.of(arguments[0]))) {
            Registry registry = null;
            String last = null;
            for (String line = lines.readLine(); line != null; line = lines.readLine()) {
                String[] words = line.split("\t");
                if (!words[0].equals(last)) {
                    if (registry != null) {
                        registry.close();
                    }
                    last = words[0];
                    registry = Registry.open(last);
                }
                thereAndBack(registry, words[1], value(words[2]), unhex(words[3]));
                changed += !words[4].equals("-") && changed(registry, words[1], unhex(words[4])) ? 1 : 0;
                values++;
            }
        }
        equal(values >= least && changed > values / 12, true);
        typed(least / 12);
        System.out.println(values + " random values there and back");
    }
}
