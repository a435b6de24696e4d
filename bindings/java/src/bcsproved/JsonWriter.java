package bcsproved;

import java.util.Arrays;

/** Writes a value as the JSON document that the proved call reads, within limits. */
final class JsonWriter {
    /** Ends cycles. No value has more levels: 100 of JSON, and 500 of newtypes. */
    private static final int MOST_DEPTH = 700;

    /** Ends values that are huge because they share parts. */
    private static final int MOST_BYTES = 1 << 30;

    private static final byte[] DIGITS = {'0', '1', '2', '3', '4', '5', '6', '7', '8', '9', 'a', 'b', 'c', 'd', 'e', 'f'};

    final Codec codec;
    private byte[] out = new byte[512];
    private int length = 0;
    private int depth = 0;
    private long nodes; // that are left

    JsonWriter(Codec codec, long nodes) {
        this.codec = codec;
        this.nodes = nodes;
    }

    byte[] written() {
        return length == out.length ? out : Arrays.copyOf(out, length);
    }

    /** Begins a value of the format. */
    void begin(Node node, Object value) {
        if (++depth > MOST_DEPTH) {
            throw node.reject("nests too deep: is there a cycle in " + Types.name(value.getClass()) + "?");
        }
        if (--nodes < 0) {
            throw node.reject("has more nodes than the limits allow");
        }
    }

    void end() {
        depth--;
    }

    /** Rejects a value if its JSON would be too long with this number of bytes more. */
    void expectRoom(long more) {
        if (more > MOST_BYTES - length) {
            throw new Mismatch("the value would be more than 1 GiB of JSON");
        }
    }

    private void reserve(long more) {
        expectRoom(more);
        if (more > out.length - length) {
            out = Arrays.copyOf(out, (int) Math.min(MOST_BYTES, Math.max(2L * out.length, length + more)));
        }
    }

    /** Where the document ends so far. */
    int mark() {
        return length;
    }

    /** Removes what was written since this mark. */
    void reset(int mark) {
        length = mark;
    }

    void put(char ascii) {
        reserve(1);
        out[length++] = (byte) ascii;
    }

    void put(String ascii) {
        reserve(ascii.length());
        for (int i = 0; i < ascii.length(); i++) {
            out[length++] = (byte) ascii.charAt(i);
        }
    }

    void put(byte[] bytes) {
        reserve(bytes.length);
        System.arraycopy(bytes, 0, out, length, bytes.length);
        length += bytes.length;
    }

    /** Separates an element from the one before it. */
    void comma(int index) {
        if (index > 0) {
            put(',');
        }
    }

    void hex(byte[] bytes) {
        reserve(2L * bytes.length + 2);
        byte[] to = out;
        int at = length;
        to[at++] = '"';
        for (byte b : bytes) {
            to[at++] = DIGITS[b >> 4 & 15];
            to[at++] = DIGITS[b & 15];
        }
        to[at++] = '"';
        length = at;
    }

    /** Writes a string. Returns false if it isn't Unicode: if it has half of a surrogate pair. */
    boolean text(String text) {
        reserve(text.length() + 2L);
        put('"');
        for (int i = 0; i < text.length(); i++) {
            int point = text.codePointAt(i);
            if (point >= Character.MIN_SURROGATE && point <= Character.MAX_SURROGATE) {
                return false;
            }
            i += point > 0xffff ? 1 : 0;
            character(point);
        }
        put('"');
        return true;
    }

    private void character(int point) {
        reserve(6);
        if (point < 0x20) {
            put("\\u00");
            out[length++] = DIGITS[point >> 4];
            out[length++] = DIGITS[point & 15];
        } else if (point < 0x80) {
            if (point == '"' || point == '\\') {
                out[length++] = '\\';
            }
            out[length++] = (byte) point;
        } else {
            utf8(point);
        }
    }

    private void utf8(int point) {
        int more = point < 0x800 ? 1 : point < 0x10000 ? 2 : 3;
        out[length++] = (byte) (0xff00 >> more + 1 | point >> 6 * more);
        for (int rest = more - 1; rest >= 0; rest--) {
            out[length++] = (byte) (0x80 | point >> 6 * rest & 0x3f);
        }
    }
}
