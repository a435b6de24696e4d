package bcsproved;

import java.util.HexFormat;
import java.util.Locale;

/**
 * A byte string as hexadecimal digits. Two with the same bytes are equal, so it can be the key of a map.
 *
 * @param digits two for each byte, without 0x. Those of upper case become lower case; others are rejected when the value is encoded
 */
public record Hex(String digits) {
    public Hex {
        digits = digits.toLowerCase(Locale.ROOT);
    }

    public static Hex of(byte[] bytes) {
        return new Hex(HexFormat.of().formatHex(bytes));
    }

    /** Throws an {@link IllegalArgumentException} if these aren't the digits of bytes. */
    public byte[] bytes() {
        return HexFormat.of().parseHex(digits);
    }
}
