package bcsproved;

import java.lang.reflect.Type;
import java.util.ArrayList;
import java.util.Arrays;
import java.util.HashMap;
import java.util.List;
import java.util.Locale;
import java.util.Map;

/** The parts of a record, or of a bean, and how to make one of its parts. */
abstract class Shape {
    /** A component or a property: its name in Java, its name in registries or null, and its type. */
    record Part(String name, String tag, Type type) {}

    static final int MISSING = -1;

    final Class<?> type;
    final List<Part> parts = new ArrayList<>();

    Shape(Class<?> type) {
        this.type = type;
    }

    /** The shape of a class that stands for structs; or null if this one doesn't. */
    static Shape of(Class<?> type) {
        if (type.isRecord()) {
            return type.getPackageName().equals(Shape.class.getPackageName()) ? null : new RecordShape(type);
        }
        return Bean.isOne(type) ? new Bean(type) : null;
    }

    /** The value of a part. */
    abstract Object get(Object value, int part);

    /** Makes a value of its parts. */
    abstract Object make(Object[] values);

    /**
     * The index of the part for each name: the one whose tag it is, or which has no tag and differs only in case and underscores.
     * Each part needs a name, and each name a part.
     */
    int[] match(Node node, List<String> names) {
        int[] indices = new int[names.size()];
        Arrays.fill(indices, MISSING);
        NameTable table = new NameTable(names);
        for (int i = 0; i < parts.size(); i++) {
            int name = table.find(node, parts.get(i).name, parts.get(i).tag, Types.name(type) + "." + parts.get(i).name);
            if (indices[name] != MISSING) {
                throw node.reject("has one name for two parts of " + Types.name(type) + ": " + Mismatch.quoted(names.get(name)));
            }
            indices[name] = i;
        }
        for (int name = 0; name < indices.length; name++) {
            if (indices[name] == MISSING) {
                throw node.reject("needs a part for " + Mismatch.quoted(names.get(name)) + " in " + Types.name(type));
            }
        }
        return indices;
    }

    /** Finds names of a registry by those of Java. */
    static final class NameTable {
        private final List<String> names;
        private final Map<String, Integer> exact = new HashMap<>(), plain = new HashMap<>();

        NameTable(List<String> names) {
            this.names = names;
            for (int i = 0; i < names.size(); i++) {
                exact.put(names.get(i), i);
                plain.merge(plain(names.get(i)), i, (one, other) -> MISSING);
            }
        }

        /** The index of the name that belongs to a part, or to a record that is a variant: its tag's, if it has one. */
        int find(Node node, String name, String tag, String shown) {
            Integer found = tag != null ? exact.get(tag) : plain.get(plain(name));
            if (found == null) {
                String tagged = tag == null ? "" : ", which is @Bcs(" + Mismatch.quoted(tag) + ")";
                throw node.reject("has no name for " + shown + tagged);
            }
            if (found == MISSING) {
                throw node.reject("has two names for " + shown + ": it needs @Bcs");
            }
            return found;
        }

        private static String plain(String name) {
            return name.replace("_", "").toLowerCase(Locale.ROOT);
        }
    }
}
