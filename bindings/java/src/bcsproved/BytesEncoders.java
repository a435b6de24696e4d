package bcsproved;

import bcsproved.Node.Kind;
import java.io.ByteArrayOutputStream;
import java.lang.reflect.Type;
import java.math.BigInteger;
import java.nio.ByteBuffer;

/** Encoders for byte strings and addresses. A String is never bytes. */
final class BytesEncoders {
    /** The format of a byte that is given as an integer. */
    private static final Node BYTE = new Node("U8", Kind.INTEGER);

    private final Node node;

    BytesEncoders(Node node) {
        this.node = node;
    }

    Encoder body(Type type) {
        Class<?> raw = Types.raw(type);
        if (type == byte[].class) {
            return (w, value) -> write(w, (byte[]) value);
        }
        if (ByteBuffer.class.isAssignableFrom(raw)) {
            return (w, value) -> write(w, remaining((ByteBuffer) value));
        }
        if (raw == Hex.class) {
            return (w, value) -> write(w, bytes((Hex) value));
        }
        if (node.kind == Kind.ADDRESS && raw == String.class) {
            return (w, value) -> write(w, Address.bytes(node, (String) value));
        }
        if (node.kind == Kind.BYTES && Types.isSequence(type)) {
            return integers(Types.element(type));
        }
        throw node.mismatch(type);
    }

    private void write(JsonWriter w, byte[] bytes) {
        if (node.length != Node.ANY_LENGTH && bytes.length != node.length) {
            throw node.reject("has " + node.length + " bytes, not " + bytes.length);
        }
        w.hex(bytes);
    }

    /** The buffer's position stays. */
    private static byte[] remaining(ByteBuffer buffer) {
        ByteBuffer copy = buffer.duplicate();
        byte[] bytes = new byte[copy.remaining()];
        copy.get(bytes);
        return bytes;
    }

    private byte[] bytes(Hex hex) {
        try {
            return hex.bytes();
        } catch (IllegalArgumentException e) {
            throw node.reject("takes two hexadecimal digits for each byte: " + Mismatch.quoted(hex.digits()));
        }
    }

    /** Writes a list or an array of integers as a byte string. */
    private Encoder integers(Type element) {
        Class<?> raw = Types.raw(element);
        if (raw != Object.class && !Types.isInteger(raw)) {
            throw BYTE.mismatch(element).under("-");
        }
        return (w, value) -> {
            ByteArrayOutputStream bytes = new ByteArrayOutputStream();
            Sequence.each(value, (index, part) -> {
                w.expectRoom(2L * bytes.size()); // a List may have no end
                bytes.write(oneByte(part));
            });
            write(w, bytes.toByteArray());
        };
    }

    private static int oneByte(Object value) {
        if (value == null) {
            throw BYTE.mismatch(null);
        }
        BigInteger x = Encoders.big(BYTE, value);
        if (x.signum() < 0 || x.bitLength() > 8) {
            throw BYTE.reject("doesn't hold " + Encoders.shortened(x));
        }
        return x.intValue();
    }
}
