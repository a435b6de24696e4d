package bcsproved;

import java.lang.reflect.Type;
import java.nio.charset.StandardCharsets;
import java.util.ArrayList;
import java.util.Arrays;
import java.util.Comparator;
import java.util.LinkedHashMap;
import java.util.List;
import java.util.Map;
import java.util.stream.IntStream;

/** Decoders for structs: records, beans, and maps with a value for each field. */
final class StructDecoders {
    private StructDecoders() {}

    static Decoder struct(Decoders made, Node node, Type type, Type any) {
        int[] order = IntStream.range(0, node.names.size()).boxed()
                .sorted(Comparator.comparing(i -> utf8(node.names.get(i)), Arrays::compareUnsigned)).mapToInt(i -> i).toArray();
        if (!Types.isMap(type)) {
            Shape shape = shapeOf(node, type);
            int[] indices = shape.match(node, node.names);
            List<Decoder> each = parts(made, node, shape, indices, node.names);
            return r -> {
                Object[] values = new Object[indices.length];
                members(r, node.names, order, i -> values[indices[i]] = each.get(i).read(r));
                return shape.make(values);
            };
        }
        List<Decoder> each = parts(made, node, type, any);
        return r -> {
            Object[] values = new Object[each.size()];
            members(r, node.names, order, i -> values[i] = each.get(i).read(r));
            Map<String, Object> map = new LinkedHashMap<>(2 * values.length); // the usual size is a multiple of a small struct's
            for (int i = 0; i < values.length; i++) {
                map.put(node.names.get(i), values[i]);
            }
            return map;
        };
    }

    private static byte[] utf8(String name) {
        return name.getBytes(StandardCharsets.UTF_8);
    }

    private static Shape shapeOf(Node node, Type type) {
        Shape shape = Shape.of(Types.raw(type));
        if (shape == null) {
            throw node.mismatch(type);
        }
        return shape;
    }

    /** The decoders for the parts of a record or a bean, which have these names. */
    private static List<Decoder> parts(Decoders made, Node node, Shape shape, int[] indices, List<String> names) {
        List<Decoder> each = new ArrayList<>();
        for (int i = 0; i < indices.length; i++) {
            int part = i;
            each.add(Mismatch.at(names.get(i), () -> made.decoder(node.parts.get(part), shape.parts.get(indices[part]).type())));
        }
        return each;
    }

    /** The decoders for the members of a map. */
    private static List<Decoder> parts(Decoders made, Node node, Type type, Type any) {
        Type key = Types.argument(type, Map.class, 0);
        if (Types.raw(type) != Map.class || key != Object.class && key != String.class) {
            throw node.mismatch(type);
        }
        Type part = Decoders.part(Types.argument(type, Map.class, 1), any);
        List<Decoder> each = new ArrayList<>();
        for (int i = 0; i < node.parts.size(); i++) {
            Node field = node.parts.get(i);
            each.add(Mismatch.at(node.names.get(i), () -> made.decoder(field, part)));
        }
        return each;
    }

    /** Reads the members of an object, which come in the order of their names' bytes. */
    private static void members(JsonReader r, List<String> names, int[] order, JsonReader.Visitor visitor) {
        r.must("{");
        for (int place = 0; place < order.length; place++) {
            String name = names.get(order[place]);
            if (place > 0) {
                r.must(",");
            }
            r.mustString(name);
            r.must(":");
            try {
                visitor.visit(order[place]);
            } catch (Mismatch e) {
                throw e.under(name);
            }
        }
        r.must("}");
    }

    /** A record whose components are called "0", "1" and so on. */
    static Decoder tuple(Decoders made, Node node, Type type) {
        Shape shape = shapeOf(node, type);
        List<String> names = ListEncoders.positions(node);
        int[] indices = shape.match(node, names);
        List<Decoder> each = parts(made, node, shape, indices, names);
        return r -> {
            Object[] values = new Object[indices.length];
            r.each(i -> values[indices[i]] = each.get(i).read(r));
            return shape.make(values);
        };
    }
}
