import bcsproved.BcsException;
import bcsproved.Names;
import bcsproved.Registry;
import java.nio.charset.StandardCharsets;
import java.nio.file.Files;
import java.nio.file.Path;
import java.util.Arrays;
import java.util.HexFormat;
import java.util.List;

/**
 * Decodes test vectors into the types that bcs_proved.java_types wrote, and encodes them again: {@code java DeclaredTypes REGISTRY
 * VECTORS ADDRESSES U256 WANTED}. Each line of VECTORS has a class, a format, bytes, and why they are refused (or nothing). WANTED
 * values have to be decoded; values whose JSON would nest too deep aren't.
 */
public final class DeclaredTypes {
    private static byte[] unhex(String digits) {
        return HexFormat.of().parseHex(digits);
    }

    private static String[] list(String names) {
        return names.isEmpty() ? new String[0] : names.split(",");
    }

    /** Whether the vector is a value. */
    private static boolean check(Registry registry, String line) throws Exception {
        String[] fields = line.split("\t", -1);
        Class<?> type = Class.forName("Types$" + fields[0]);
        String format = new String(unhex(fields[1]), StandardCharsets.UTF_8);
        byte[] data = unhex(fields[2]);
        Object value;
        try {
            registry.checkType(format, type);
            value = registry.decode(format, data, type);
        } catch (BcsException e) {
            if (!fields[3].equals(e.reason()) && !(fields[3].isEmpty() && "TooNested".equals(e.reason()))) {
                throw new AssertionError(line + ": " + e.getMessage());
            }
            return false;
        }
        if (!fields[3].isEmpty() || !Arrays.equals(registry.encode(format, value), data)) {
            throw new AssertionError(line + ": " + value);
        }
        return true;
    }

    public static void main(String[] arguments) throws Exception {
        Names names = Names.STANDARD;
        if (!arguments[2].isEmpty()) {
            names = names.withAddresses(list(arguments[2]));
        }
        if (!arguments[3].isEmpty()) {
            names = names.withU256(list(arguments[3]));
        }
        int values = 0;
        List<String> lines = Files.readAllLines(Path.of(arguments[1]));
        try (Registry registry = Registry.open(Files.readAllBytes(Path.of(arguments[0])), names)) {
            for (String line : lines) {
                values += check(registry, line) ? 1 : 0;
            }
        }
        if (values < Integer.parseInt(arguments[4])) {
            throw new AssertionError("only " + values + " values");
        }
    }
}
