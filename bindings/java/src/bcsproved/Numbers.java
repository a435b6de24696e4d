package bcsproved;

import bcsproved.Node.Kind;
import java.math.BigInteger;
import java.util.Map;

/** Decoders for integers. */
final class Numbers {
    private static final Map<Class<?>, Integer> BITS = Map.of(byte.class, 8, Byte.class, 8, short.class, 16, Short.class, 16,
            int.class, 32, Integer.class, 32, long.class, 64, Long.class, 64);

    private Numbers() {}

    /** Whether the type holds all numbers of the format, so that it doesn't depend on the data whether a program works. */
    static boolean fits(Node node, Class<?> type) {
        return type == BigInteger.class
                || node.kind == Kind.INTEGER && (node.isSigned ? node.bits <= BITS.get(type) : node.bits < BITS.get(type));
    }

    static Decoder decoder(Node node, Class<?> type) {
        if (!fits(node, type)) {
            throw node.reject("doesn't fit in " + Types.name(type));
        }
        if (node.kind == Kind.BIG_INTEGER) {
            return r -> LittleEndian.integer(r.bytes(), node.isSigned);
        }
        if (type == BigInteger.class) {
            return r -> new BigInteger(r.number());
        }
        return switch (BITS.get(type)) {
            case 8 -> r -> Byte.valueOf(r.number());
            case 16 -> r -> Short.valueOf(r.number());
            case 32 -> r -> Integer.valueOf(r.number());
            default -> r -> Long.valueOf(r.number());
        };
    }
}
