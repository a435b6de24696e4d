package bcsproved;

import bcsproved.Node.Kind;
import java.lang.reflect.Type;
import java.lang.reflect.TypeVariable;
import java.math.BigInteger;
import java.nio.ByteBuffer;
import java.util.HashMap;
import java.util.List;
import java.util.Map;
import java.util.Optional;

/** Makes a decoder, with those of its parts. */
final class Decoders {
    /** The type of a map's key where Object is wanted: byte strings are Hex, since a byte[] equals only itself. */
    private static final class Key {}

    /** Decoders of types that contain themselves form cycles, so one exists before its body. */
    private static final class Late implements Decoder {
        private Decoder body;

        @Override
        public Object read(JsonReader r) {
            return body.read(r);
        }
    }

    private final Map<Codec.Pair, Late> made = new HashMap<>();

    Decoder decoder(Node node, Type declared) {
        Type type = Types.bound(declared);
        Codec.Pair pair = new Codec.Pair(node, type);
        if (!made.containsKey(pair)) {
            Late late = new Late();
            made.put(pair, late);
            late.body = body(node, type);
        }
        return made.get(pair);
    }

    /** The decoder for the keys of a map. */
    Decoder keys(Node node, Type type) {
        Class<?> raw = Types.raw(type);
        if (raw.isArray()) {
            throw node.reject("takes no " + Types.name(type)
                    + " as keys, which equal only themselves: use Hex, or a List of Map.Entry");
        }
        return decoder(node, type == Object.class ? Key.class : type);
    }

    private Decoder body(Node node, Type type) {
        if (type instanceof TypeVariable<?>) {
            throw node.reject("takes no type variable: " + Types.name(type));
        }
        boolean isAny = type == Object.class || type == Key.class;
        if (node.kind == Kind.NEWTYPE) {
            return decoder(node.parts.get(0), type);
        }
        if (isAny && node.kind == Kind.NONE) { // maybe of a variant that no value has
            return r -> {
                throw node.mismatch(type);
            };
        }
        return typed(node, isAny ? decodedType(node, type) : type, isAny ? type : null);
    }

    /** What decode returns for a format that isn't a newtype, inside a key or elsewhere. */
    private static Type decodedType(Node node, Type any) {
        return switch (node.kind) {
            case UNIT -> Unit.class;
            case BOOL -> Boolean.class;
            case INTEGER -> Numbers.fits(node, long.class) ? Long.class : BigInteger.class;
            case BIG_INTEGER -> BigInteger.class;
            case STRING, ADDRESS -> String.class;
            case BYTES -> any == Key.class ? Hex.class : byte[].class;
            case OPTION -> Optional.class;
            case LIST, TUPLE -> List.class;
            case MAP, STRUCT -> Map.class;
            case ENUM -> Variant.class;
            case NEWTYPE, NONE -> throw new AssertionError(node.text);
        };
    }

    /** The decoder for a type that isn't Object. The parts of one that doesn't name theirs are of the type `any`, or Objects. */
    private Decoder typed(Node node, Type type, Type any) {
        return switch (node.kind) {
            case OPTION -> option(node, type, any);
            case BYTES, ADDRESS -> bytes(node, type);
            case LIST -> ListDecoders.list(this, node, type, any);
            case TUPLE -> ListDecoders.tuple(this, node, type, any);
            case MAP -> MapDecoders.map(this, node, type, any);
            case STRUCT -> StructDecoders.struct(this, node, type, any);
            case ENUM -> new EnumDecoders(this, node).body(type, any);
            default -> leaf(node, type);
        };
    }

    /** The type of a part: the declared one, or else that of the whole. */
    static Type part(Type declared, Type any) {
        return any != null ? any : declared;
    }

    private static Decoder leaf(Node node, Type type) {
        Class<?> raw = Types.raw(type);
        if (node.kind == Kind.UNIT && Encoders.isUnit(raw)) {
            Object unit = raw == Unit.class ? new Unit() : Shape.of(raw).make(new Object[0]);
            return r -> {
                r.must("null");
                return unit;
            };
        }
        if (node.kind == Kind.BOOL && (raw == Boolean.class || raw == boolean.class)) {
            return Decoders::bool;
        }
        if (node.isInteger() && Types.isInteger(type)) {
            return Numbers.decoder(node, raw);
        }
        if (node.kind == Kind.STRING && raw == String.class) {
            return JsonReader::string;
        }
        throw node.mismatch(type);
    }

    private static Object bool(JsonReader r) {
        if (r.take("true")) {
            return true;
        }
        r.must("false");
        return false;
    }

    private static Decoder bytes(Node node, Type type) {
        if (type == byte[].class) {
            return JsonReader::bytes;
        }
        if (type == ByteBuffer.class) {
            return r -> ByteBuffer.wrap(r.bytes());
        }
        if (type == Hex.class) {
            return r -> new Hex(r.string());
        }
        if (node.kind == Kind.ADDRESS && type == String.class) {
            return r -> "0x" + r.string();
        }
        throw node.mismatch(type);
    }

    private Decoder option(Node node, Type type, Type any) {
        if (Types.raw(type) != Optional.class) {
            throw node.mismatch(type);
        }
        Type part = part(Types.argument(type, Optional.class, 0), any);
        Decoder content = Mismatch.at("some", () -> decoder(node.parts.get(0), part));
        return r -> {
            if (r.take("null")) {
                return Optional.empty();
            }
            r.must("{\"some\":");
            Object value = Mismatch.at("some", () -> content.read(r));
            r.must("}");
            return Optional.of(value);
        };
    }
}
