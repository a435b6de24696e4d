package bcsproved;

import java.util.List;

/**
 * Containers whose values have a Java form of their own. They are newtypes of 32 bytes.
 *
 * @param addresses have values such as "0x1"
 * @param u256      have little-endian unsigned integers
 * @param i256      have little-endian signed integers
 */
public record Names(List<String> addresses, List<String> u256, List<String> i256) {
    /** The default: the names that {@code bcs from-move} writes. */
    public static final Names STANDARD = new Names(List.of("address"), List.of("u256"), List.of("i256"));

    public Names {
        addresses = List.copyOf(addresses);
        u256 = List.copyOf(u256);
        i256 = List.copyOf(i256);
    }

    public Names withAddresses(String... names) {
        return new Names(List.of(names), u256, i256);
    }

    public Names withU256(String... names) {
        return new Names(addresses, List.of(names), i256);
    }

    public Names withI256(String... names) {
        return new Names(addresses, u256, List.of(names));
    }
}
