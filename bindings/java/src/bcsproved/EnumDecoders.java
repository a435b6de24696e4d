package bcsproved;

import bcsproved.Node.Kind;
import java.lang.reflect.Type;
import java.util.ArrayList;
import java.util.HashMap;
import java.util.List;
import java.util.Map;

/** Decoders for enums: a Variant, or the records of a sealed interface. */
final class EnumDecoders {
    private final Decoders made;
    private final Node node;
    private final Map<String, Integer> indices = new HashMap<>();

    EnumDecoders(Decoders made, Node node) {
        this.made = made;
        this.node = node;
        for (String name : node.names) {
            indices.put(name, indices.size());
        }
    }

    Decoder body(Type type, Type any) {
        if (Types.raw(type) == Variant.class) {
            return variant(any != null ? any : Object.class);
        }
        List<Class<?>> records = Records.of(type);
        if (records == null) {
            throw node.mismatch(type);
        }
        return ofRecords(type, records);
    }

    private Decoder variant(Type any) {
        List<Decoder> each = new ArrayList<>();
        for (int i = 0; i < node.parts.size(); i++) {
            Node part = node.parts.get(i);
            each.add(Mismatch.at(node.names.get(i), () -> made.decoder(part, any)));
        }
        return r -> read(r, each, (index, content) -> new Variant(node.names.get(index), content == null ? new Unit() : content));
    }

    private Decoder ofRecords(Type type, List<Class<?>> records) {
        int[] matched = Records.match(node, records);
        List<Decoder> each = new ArrayList<>();
        for (int variant = 0; variant < matched.length; variant++) {
            each.add(matched[variant] == Shape.MISSING ? absent(type, variant) : content(variant, records.get(matched[variant])));
        }
        Object[] units = new Object[matched.length];
        for (int variant = 0; variant < matched.length; variant++) {
            if (matched[variant] != Shape.MISSING && node.parts.get(variant).kind == Kind.UNIT) {
                units[variant] = Shape.of(records.get(matched[variant])).make(new Object[0]);
            }
        }
        return r -> read(r, each, (index, content) -> content != null ? content : present(type, index, units[index]));
    }

    private Object present(Type type, int variant, Object unit) {
        if (unit == null) {
            throw missing(type, variant);
        }
        return unit;
    }

    private Mismatch missing(Type type, int variant) {
        String name = Mismatch.quoted(node.names.get(variant));
        return node.reject("is " + name + " here, and " + Types.name(type) + " has no record for it");
    }

    private Decoder absent(Type type, int variant) {
        return r -> {
            throw missing(type, variant);
        };
    }

    /** The decoder for the content of a variant, as a record. */
    private Decoder content(int variant, Class<?> record) {
        Node part = node.parts.get(variant);
        return Mismatch.at(node.names.get(variant), () -> {
            if (part.kind != Kind.NEWTYPE && part.kind != Kind.UNIT) {
                return made.decoder(part, record);
            }
            List<Shape.Part> parts = Records.content(part, record);
            if (part.kind == Kind.UNIT) {
                return null;
            }
            Shape shape = Shape.of(record);
            Decoder decoder = made.decoder(part.parts.get(0), parts.get(0).type());
            return r -> shape.make(new Object[] {decoder.read(r)});
        });
    }

    /** Makes a value of a variant's index and its content, which is null if there is none. */
    private interface Maker {
        Object make(int index, Object content);
    }

    private Object read(JsonReader r, List<Decoder> each, Maker maker) {
        boolean isObject = r.take("{");
        Integer index = indices.get(r.string());
        if (index == null) {
            throw new AssertionError("bcs: the library printed a variant that the registry doesn't have");
        }
        if (!isObject) {
            return maker.make(index, null);
        }
        r.must(":");
        Object content;
        try {
            content = each.get(index).read(r);
        } catch (Mismatch e) {
            throw e.under(node.names.get(index));
        }
        r.must("}");
        return maker.make(index, content);
    }
}
