package bcsproved;

import bcsproved.Node.Kind;
import java.lang.reflect.Type;
import java.util.HashMap;
import java.util.List;
import java.util.Map;

/** Encoders for enums: a Variant, a record with the name of the variant, or the records of a sealed interface. */
final class EnumEncoders {
    private final Encoders made;
    private final Node node;

    EnumEncoders(Encoders made, Node node) {
        this.made = made;
        this.node = node;
    }

    Encoder body(Type type) {
        Class<?> raw = Types.raw(type);
        if (raw == Variant.class) {
            return variant();
        }
        List<Class<?>> records = Records.of(type);
        if (records != null) {
            return ofRecords(records);
        }
        if (Shape.of(raw) == null || !raw.isRecord()) {
            throw node.mismatch(type);
        }
        return ofRecord(Records.variantOf(node, new Shape.NameTable(node.names), raw), raw);
    }

    private Encoder ofRecords(List<Class<?>> records) {
        int[] indices = Records.match(node, records);
        Map<Class<?>, Encoder> encoders = new HashMap<>();
        for (int variant = 0; variant < indices.length; variant++) {
            if (indices[variant] != Shape.MISSING) {
                Class<?> record = records.get(indices[variant]);
                encoders.put(record, ofRecord(variant, record));
            }
        }
        return (w, value) -> encoders.get(value.getClass()).write(w, value);
    }

    private Encoder ofRecord(int variant, Class<?> record) {
        Encoder content = Mismatch.at(node.names.get(variant), () -> content(node.parts.get(variant), record));
        return (w, value) -> write(w, variant, content, value);
    }

    /** Writes the content of a variant that a record stands for. */
    private Encoder content(Node variant, Class<?> record) {
        if (variant.kind != Kind.NEWTYPE && variant.kind != Kind.UNIT) {
            return made.encoder(variant, record);
        }
        List<Shape.Part> parts = Records.content(variant, record);
        if (variant.kind == Kind.UNIT) {
            return (w, value) -> w.put("null");
        }
        Shape shape = Shape.of(record);
        Encoder encoder = made.encoder(variant.parts.get(0), parts.get(0).type());
        return (w, value) -> encoder.write(w, shape.get(value, 0));
    }

    private Encoder variant() {
        Map<String, Integer> indices = new HashMap<>();
        for (String name : node.names) {
            indices.put(name, indices.size());
        }
        List<Encoder> each = node.parts.stream().map(part -> made.encoder(part, Object.class)).toList();
        return (w, value) -> {
            Variant variant = (Variant) value;
            Integer index = indices.get(variant.name());
            if (index == null) {
                throw node.reject("has no variant " + Mismatch.quoted(String.valueOf(variant.name())));
            }
            write(w, index, each.get(index), variant.value());
        };
    }

    /** Writes a variant with its content, which of a variant without content is checked and left out. */
    private void write(JsonWriter w, int variant, Encoder content, Object value) {
        int start = w.mark();
        w.put('{');
        w.text(node.names.get(variant));
        w.put(':');
        try {
            content.write(w, value);
        } catch (Mismatch e) {
            throw e.under(node.names.get(variant));
        }
        w.put('}');
        if (node.parts.get(variant).kind == Kind.UNIT) {
            w.reset(start);
            w.text(node.names.get(variant));
        }
    }
}
