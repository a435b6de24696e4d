package bcsproved;

import bcsproved.Node.Kind;
import java.lang.reflect.Type;
import java.util.ArrayList;
import java.util.List;
import java.util.stream.IntStream;

/** Encoders for lists, arrays and tuples. */
final class ListEncoders {
    private ListEncoders() {}

    static Encoder list(Encoders made, Node node, Type type) {
        if (!isListOf(node, type)) {
            throw node.mismatch(type);
        }
        Encoder element = Mismatch.at("-", () -> made.encoder(node.parts.get(0), Types.element(type)));
        return (w, value) -> {
            w.put('[');
            int count = Sequence.each(value, (index, part) -> {
                w.comma(index);
                element.write(w, part);
            });
            expectLength(node, node.length, count);
            w.put(']');
        };
    }

    /** Bytes are signed in Java, so a byte[] is a list only of I8. */
    static boolean isListOf(Node node, Type type) {
        Node element = node.parts.get(0).content();
        boolean isOfBytes = element.kind == Kind.INTEGER && element.isSigned && element.bits == 8;
        return Types.isSequence(type) && (type != byte[].class || isOfBytes);
    }

    private static void expectLength(Node node, long wanted, int found) {
        if (wanted != Node.ANY_LENGTH && wanted != found) {
            throw node.reject("has " + wanted + " elements, not " + found);
        }
    }

    /** Lists, arrays, and records whose components are called "0", "1" and so on. */
    static Encoder tuple(Encoders made, Node node, Type type) {
        if (!Types.isSequence(type)) {
            return StructEncoders.parts(made, node, type, positions(node), "[", "]");
        }
        if (type == byte[].class) {
            throw node.mismatch(type);
        }
        List<Encoder> each = new ArrayList<>();
        for (int i = 0; i < node.parts.size(); i++) {
            Node part = node.parts.get(i);
            each.add(Mismatch.at(i, () -> made.encoder(part, Types.element(type))));
        }
        return (w, value) -> {
            w.put('[');
            int count = Sequence.each(value, (index, part) -> {
                if (index >= each.size()) {
                    throw node.reject("has " + each.size() + " elements");
                }
                w.comma(index);
                each.get(index).write(w, part);
            });
            expectLength(node, each.size(), count);
            w.put(']');
        };
    }

    /** The names of a tuple's elements. */
    static List<String> positions(Node node) {
        return IntStream.range(0, node.parts.size()).mapToObj(Integer::toString).toList();
    }
}
