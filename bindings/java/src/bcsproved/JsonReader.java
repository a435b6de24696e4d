package bcsproved;

import java.nio.charset.StandardCharsets;

/** Reads the normal JSON that the proved call printed. Its form is known, so only a Java type rejects anything. */
final class JsonReader {
    /** Visits an element. */
    interface Visitor {
        void visit(int index);
    }

    /** The values of hexadecimal digits. A table is faster than comparing. */
    private static final byte[] DIGITS = new byte[128];

    static {
        for (int digit = 0; digit < 16; digit++) {
            DIGITS["0123456789abcdef".charAt(digit)] = (byte) digit;
        }
    }

    private final byte[] text;
    private int at = 0;

    JsonReader(byte[] text) {
        this.text = text;
    }

    private AssertionError notNormal() {
        return new AssertionError("bcs: the library printed JSON that isn't normal, at byte " + at);
    }

    /** Skips a piece of ASCII if it comes next. */
    boolean take(String piece) {
        if (piece.length() > text.length - at) {
            return false;
        }
        for (int i = 0; i < piece.length(); i++) {
            if (text[at + i] != piece.charAt(i)) {
                return false;
            }
        }
        at += piece.length();
        return true;
    }

    void must(String piece) {
        if (!take(piece)) {
            throw notNormal();
        }
    }

    void end() {
        if (at != text.length) {
            throw notNormal();
        }
    }

    private byte next() {
        if (at >= text.length) {
            throw notNormal();
        }
        return text[at];
    }

    String string() {
        must("\"");
        int start = at;
        boolean isEscaped = false;
        while (next() != '"') {
            isEscaped |= next() == '\\';
            at += next() == '\\' ? 2 : 1;
        }
        String inside = new String(text, start, at++ - start, StandardCharsets.UTF_8);
        return isEscaped ? Json.unescape(inside) : inside;
    }

    /** Skips this string. */
    void mustString(String wanted) {
        if (!string().equals(wanted)) {
            throw notNormal();
        }
    }

    /** The digits of a number. Those of more than 32 bits are in a string. */
    String number() {
        boolean isQuoted = take("\"");
        int start = at;
        while (at < text.length && (text[at] == '-' || text[at] >= '0' && text[at] <= '9')) {
            at++;
        }
        String digits = new String(text, start, at - start, StandardCharsets.US_ASCII);
        if (digits.isEmpty() || isQuoted && !take("\"")) {
            throw notNormal();
        }
        return digits;
    }

    /** The bytes whose digits a string has. */
    byte[] bytes() {
        must("\"");
        int start = at;
        while (next() != '"') {
            at++;
        }
        byte[] bytes = new byte[(at - start) / 2];
        for (int i = 0; i < bytes.length; i++) {
            bytes[i] = (byte) (DIGITS[text[start + 2 * i]] << 4 | DIGITS[text[start + 2 * i + 1]]);
        }
        at++;
        return bytes;
    }

    /** Visits each element of an array, and returns their number. What is rejected is rejected at its index. */
    int each(Visitor visitor) {
        must("[");
        for (int index = 0;; index++) {
            if (index == 0 && take("]")) {
                return 0;
            }
            try {
                visitor.visit(index);
            } catch (Mismatch e) {
                throw e.under(index);
            }
            if (take("]")) {
                return index + 1;
            }
            must(",");
        }
    }
}
