package bcsproved;

import java.util.HexFormat;

/** Addresses as strings: 0x and 1 to 64 hexadecimal digits. */
final class Address {
    private static final int DIGITS = 2 * Formats.ADDRESS_LENGTH;

    private Address() {}

    static byte[] bytes(Node node, String address) {
        String digits = address.startsWith("0x") ? address.substring(2) : "";
        if (digits.isEmpty() || digits.length() > DIGITS) {
            throw rejected(node, address);
        }
        try {
            return HexFormat.of().parseHex("0".repeat(DIGITS - digits.length()) + digits);
        } catch (IllegalArgumentException e) {
            throw rejected(node, address);
        }
    }

    private static Mismatch rejected(Node node, String address) {
        return node.reject("takes 0x and 1 to 64 hexadecimal digits, not " + Mismatch.quoted(address));
    }
}
