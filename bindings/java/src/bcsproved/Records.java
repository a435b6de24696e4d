package bcsproved;

import bcsproved.Node.Kind;
import java.lang.reflect.Type;
import java.util.ArrayList;
import java.util.Arrays;
import java.util.List;

/** The records that stand for the variants of an enum: those of a sealed interface. */
final class Records {
    private Records() {}

    /** The records of a sealed interface, or null if the type isn't one. */
    static List<Class<?>> of(Type type) {
        Class<?> raw = Types.raw(type);
        if (!raw.isInterface() || !raw.isSealed()) {
            return null;
        }
        List<Class<?>> records = Arrays.asList(raw.getPermittedSubclasses());
        return records.stream().allMatch(Class::isRecord) ? records : null;
    }

    /** For each variant, the index of the record with its name, or MISSING, since a registry may grow. Each record needs a variant. */
    static int[] match(Node node, List<Class<?>> records) {
        int[] indices = new int[node.names.size()];
        Arrays.fill(indices, Shape.MISSING);
        Shape.NameTable table = new Shape.NameTable(node.names);
        for (int i = 0; i < records.size(); i++) {
            int variant = variantOf(node, table, records.get(i));
            if (indices[variant] != Shape.MISSING) {
                throw node.reject("has one variant for two records: " + Mismatch.quoted(node.names.get(variant)));
            }
            indices[variant] = i;
        }
        return indices;
    }

    static int variantOf(Node node, Shape.NameTable table, Class<?> record) {
        Bcs tag = record.getAnnotation(Bcs.class);
        return table.find(node, record.getSimpleName(), tag == null ? null : tag.value(), Types.name(record));
    }

    /** The only component of a record that stands for a variant with a newtype's content, or none for one without content. */
    static List<Shape.Part> content(Node variant, Class<?> record) {
        Shape shape = Shape.of(record);
        int wanted = variant.kind == Kind.NEWTYPE ? 1 : 0;
        if (shape == null || shape.parts.size() != wanted) {
            throw variant.reject("needs a record with " + wanted + " components, not " + Types.name(record));
        }
        return new ArrayList<>(shape.parts);
    }
}
