package bcsproved;

import bcsproved.Node.Kind;
import java.lang.reflect.Type;
import java.lang.reflect.TypeVariable;
import java.math.BigInteger;
import java.util.HashMap;
import java.util.Map;
import java.util.Optional;

/** Makes an encoder, with those of its parts. */
final class Encoders {
    /**
     * Encoders of types that contain themselves form cycles, so one exists before its body. The value may have another class than
     * the type says, by a cast that Java doesn't check; of an integer, big checks the class.
     */
    private static final class Late implements Encoder {
        private final Node node;
        private final Class<?> type;
        private Encoder body;

        Late(Node node, Type type) {
            this.node = node;
            this.type = Types.isInteger(type) ? Object.class : Types.boxed(Types.raw(type));
        }

        @Override
        public void write(JsonWriter w, Object value) {
            if (!type.isInstance(value)) {
                throw node.mismatch(value == null ? null : value.getClass());
            }
            w.begin(node, value);
            body.write(w, value);
            w.end();
        }
    }

    private final Map<Codec.Pair, Late> made = new HashMap<>();

    /** The encoder of an Object, whose class decides. The last class is remembered here, since the next one is often the same. */
    private static final class Dynamic implements Encoder {
        private record Known(Class<?> type, Encoder encoder) {}

        private final Node node;
        private Known last = new Known(null, null);

        Dynamic(Node node) {
            this.node = node;
        }

        @Override
        public void write(JsonWriter w, Object value) {
            if (value == null || value.getClass() == Object.class) {
                throw node.mismatch(value == null ? null : Object.class);
            }
            Known known = last;
            if (known.type != value.getClass()) {
                known = new Known(value.getClass(), w.codec.encoder(node, value.getClass()));
                last = known;
            }
            known.encoder.write(w, value);
        }
    }

    /** The encoder for a format and a type. */
    Encoder encoder(Node node, Type declared) {
        Type type = Types.bound(declared);
        if (type instanceof TypeVariable<?> || type == Object.class) {
            return new Dynamic(node);
        }
        Codec.Pair pair = new Codec.Pair(node, type);
        if (!made.containsKey(pair)) {
            Late late = new Late(node, type);
            made.put(pair, late);
            late.body = body(node, type);
        }
        return made.get(pair);
    }

    private Encoder body(Node node, Type type) {
        return switch (node.kind) {
            case NEWTYPE -> encoder(node.parts.get(0), type);
            case OPTION -> option(node, type);
            case BYTES, ADDRESS -> new BytesEncoders(node).body(type);
            case LIST -> ListEncoders.list(this, node, type);
            case TUPLE -> ListEncoders.tuple(this, node, type);
            case MAP -> MapEncoders.map(this, node, type);
            case STRUCT -> StructEncoders.struct(this, node, type);
            case ENUM -> new EnumEncoders(this, node).body(type);
            default -> leaf(node, type);
        };
    }

    private static Encoder leaf(Node node, Type type) {
        Class<?> raw = Types.raw(type);
        if (node.kind == Kind.UNIT && isUnit(raw)) {
            return (w, value) -> w.put("null");
        }
        if (node.kind == Kind.BOOL && (raw == Boolean.class || raw == boolean.class)) {
            return (w, value) -> w.put(value.toString());
        }
        if (node.isInteger() && Types.isInteger(type)) {
            return (w, value) -> integer(w, node, value);
        }
        if (node.kind == Kind.STRING && raw == String.class) {
            return (w, value) -> text(w, node, (String) value);
        }
        throw node.mismatch(type);
    }

    /** Whether the type is Unit, or a record without components. */
    static boolean isUnit(Class<?> type) {
        return type == Unit.class || type.isRecord() && type.getRecordComponents().length == 0;
    }

    private static void text(JsonWriter w, Node node, String value) {
        if (!w.text(value)) {
            throw node.reject("takes Unicode, not a String with half of a surrogate pair");
        }
    }

    /** Writes an integer of any type. Its value must be in the format's range. */
    private static void integer(JsonWriter w, Node node, Object value) {
        if (node.kind == Kind.INTEGER && value instanceof Long small && small >= 0 && node.bits >= Long.SIZE) {
            w.put(small.toString()); // the most frequent case, without a BigInteger
            return;
        }
        BigInteger x = big(node, value);
        int bits = node.isSigned ? node.bits - 1 : node.bits;
        if (x.signum() < 0 && !node.isSigned || x.bitLength() > bits) {
            throw node.reject("doesn't hold " + shortened(x));
        }
        if (node.kind == Kind.BIG_INTEGER) {
            w.hex(LittleEndian.bytes(x));
        } else {
            w.put('"');
            w.put(x.toString());
            w.put('"');
        }
    }

    /** A class that extends BigInteger may answer anything. */
    static BigInteger big(Node node, Object value) {
        if (!Types.isInteger(value.getClass())) {
            throw node.mismatch(value.getClass());
        }
        return value instanceof BigInteger x ? x : BigInteger.valueOf(((Number) value).longValue());
    }

    /** A number's digits, or how many bits it has: an error may not cost more than the value. */
    static String shortened(BigInteger x) {
        return x.bitLength() > 512 ? "a number of " + x.bitLength() + " bits" : x.toString();
    }

    private Encoder option(Node node, Type type) {
        if (Types.raw(type) != Optional.class) {
            throw node.mismatch(type);
        }
        Encoder content = Mismatch.at("some", () -> encoder(node.parts.get(0), Types.argument(type, Optional.class, 0)));
        return (w, value) -> {
            Optional<?> option = (Optional<?>) value;
            if (option.isEmpty()) {
                w.put("null");
                return;
            }
            w.put("{\"some\":");
            try {
                content.write(w, option.get());
            } catch (Mismatch e) {
                throw e.under("some");
            }
            w.put('}');
        };
    }
}
