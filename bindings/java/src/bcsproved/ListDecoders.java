package bcsproved;

import java.lang.reflect.Array;
import java.lang.reflect.Type;
import java.util.ArrayList;
import java.util.List;

/** Decoders for lists, arrays and tuples. */
final class ListDecoders {
    private ListDecoders() {}

    static Decoder list(Decoders made, Node node, Type type, Type any) {
        expectSequence(node, type, ListEncoders.isListOf(node, type));
        Type part = Decoders.part(Types.element(type), any);
        Decoder element = Mismatch.at("-", () -> made.decoder(node.parts.get(0), part));
        return r -> {
            List<Object> values = new ArrayList<>();
            r.each(index -> values.add(element.read(r)));
            return finished(values, type);
        };
    }

    /** A List itself, or an array. Others might promise more than an ArrayList does. */
    private static void expectSequence(Node node, Type type, boolean isOfFormat) {
        if (!isOfFormat || Types.raw(type) != List.class && !Types.raw(type).isArray()) {
            throw node.mismatch(type);
        }
    }

    private static Object finished(List<Object> values, Type type) {
        if (!Types.raw(type).isArray()) {
            return values;
        }
        Object array = Array.newInstance(Types.raw(type).componentType(), values.size());
        for (int i = 0; i < values.size(); i++) {
            Array.set(array, i, values.get(i));
        }
        return array;
    }

    static Decoder tuple(Decoders made, Node node, Type type, Type any) {
        if (!Types.isSequence(type)) {
            return StructDecoders.tuple(made, node, type);
        }
        expectSequence(node, type, type != byte[].class);
        List<Decoder> each = new ArrayList<>();
        for (int i = 0; i < node.parts.size(); i++) {
            Node part = node.parts.get(i);
            each.add(Mismatch.at(i, () -> made.decoder(part, Decoders.part(Types.element(type), any))));
        }
        return r -> {
            List<Object> values = new ArrayList<>();
            r.each(index -> values.add(each.get(index).read(r)));
            return finished(values, type);
        };
    }
}
