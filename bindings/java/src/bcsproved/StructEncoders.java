package bcsproved;

import java.lang.reflect.Type;
import java.util.ArrayList;
import java.util.HashMap;
import java.util.List;
import java.util.Map;

/** Encoders for structs: records, beans, and maps with a value for each field. */
final class StructEncoders {
    private StructEncoders() {}

    static Encoder struct(Encoders made, Node node, Type type) {
        return Types.isMap(type) ? ofMap(made, node, type) : parts(made, node, type, node.names, "{", "}");
    }

    /** The encoder for the parts of a record or a bean, which have these names. */
    static Encoder parts(Encoders made, Node node, Type type, List<String> names, String open, String close) {
        Shape shape = Shape.of(Types.raw(type));
        if (shape == null) {
            throw node.mismatch(type);
        }
        int[] indices = shape.match(node, names);
        List<Encoder> each = new ArrayList<>();
        for (int i = 0; i < indices.length; i++) {
            int part = i;
            each.add(Mismatch.at(names.get(i), () -> made.encoder(node.parts.get(part), shape.parts.get(indices[part]).type())));
        }
        List<byte[]> starts = open.equals("{") ? starts(names) : null;
        return (w, value) -> {
            if (value.getClass() != shape.type) { // it may have more properties
                w.codec.encoder(node, value.getClass()).write(w, value);
                return;
            }
            w.put(open);
            for (int i = 0; i < indices.length; i++) {
                w.comma(i);
                if (starts != null) {
                    w.put(starts.get(i));
                }
                write(w, each.get(i), shape.get(value, indices[i]), names.get(i));
            }
            w.put(close);
        };
    }

    private static void write(JsonWriter w, Encoder encoder, Object part, String name) {
        try {
            encoder.write(w, part);
        } catch (Mismatch e) {
            throw e.under(name);
        }
    }

    /** The JSON of each member before its value. */
    private static List<byte[]> starts(List<String> names) {
        List<byte[]> starts = new ArrayList<>();
        for (String name : names) {
            JsonWriter w = new JsonWriter(null, 0);
            w.text(name);
            w.put(':');
            starts.add(w.written());
        }
        return starts;
    }

    private static Encoder ofMap(Encoders made, Node node, Type type) {
        Type key = Types.argument(type, Map.class, 0);
        if (key != Object.class && key != String.class) {
            throw node.mismatch(type);
        }
        List<Encoder> each = new ArrayList<>();
        Map<String, Integer> indices = new HashMap<>();
        for (int i = 0; i < node.names.size(); i++) {
            Node part = node.parts.get(i);
            each.add(Mismatch.at(node.names.get(i), () -> made.encoder(part, Types.argument(type, Map.class, 1))));
            indices.put(node.names.get(i), i);
        }
        List<byte[]> starts = starts(node.names);
        return (w, value) -> {
            Object[] values = values(node, indices, (Map<?, ?>) value);
            w.put('{');
            for (int i = 0; i < values.length; i++) {
                w.comma(i);
                w.put(starts.get(i));
                write(w, each.get(i), values[i], node.names.get(i));
            }
            w.put('}');
        };
    }

    /** The values of a map's members by their fields. A map may compare names by rules of its own, so they aren't looked up. */
    private static Object[] values(Node node, Map<String, Integer> indices, Map<?, ?> map) {
        Object[] values = new Object[indices.size()];
        boolean[] isThere = new boolean[values.length];
        for (Map.Entry<?, ?> member : map.entrySet()) {
            if (!(member.getKey() instanceof String name)) {
                throw node.reject("takes a Map whose keys are the fields' names");
            }
            Integer index = indices.get(name);
            if (index == null || isThere[index]) {
                throw node.reject("has no field " + Mismatch.quoted(name));
            }
            values[index] = member.getValue();
            isThere[index] = true;
        }
        for (int i = 0; i < values.length; i++) {
            if (!isThere[i]) {
                throw node.reject("needs the field " + Mismatch.quoted(node.names.get(i)));
            }
        }
        return values;
    }
}
