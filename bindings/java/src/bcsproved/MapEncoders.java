package bcsproved;

import java.lang.reflect.Type;
import java.util.List;
import java.util.Map;

/** Encoders for maps: a Map, whose entries come in any order since the proved call sorts them, or a List of entries. */
final class MapEncoders {
    private MapEncoders() {}

    static Encoder map(Encoders made, Node node, Type type) {
        Type entry = Types.isList(type) ? Types.argument(type, List.class, 0) : null;
        boolean isOfEntries = entry != null && (entry == Object.class || Types.raw(entry) == Map.Entry.class);
        if (!Types.isMap(type) && !isOfEntries) {
            throw node.mismatch(type);
        }
        Encoder key = part(made, node, type, entry, 0);
        Encoder value = part(made, node, type, entry, 1);
        return (w, map) -> {
            w.put('[');
            int[] index = {0};
            for (Object one : map instanceof Map<?, ?> entries ? entries.entrySet() : (List<?>) map) {
                write(w, node, one, index[0]++, List.of(key, value));
            }
            w.put(']');
        };
    }

    /** The encoder of the keys (0) or the values (1). */
    private static Encoder part(Encoders made, Node node, Type type, Type entry, int index) {
        Type part = entry == null ? Types.argument(type, Map.class, index) : Types.argument(entry, Map.Entry.class, index);
        return Mismatch.at("-", () -> Mismatch.at(index, () -> made.encoder(node.parts.get(index), part)));
    }

    private static void write(JsonWriter w, Node node, Object entry, int index, List<Encoder> parts) {
        int part = 0;
        try {
            if (!(entry instanceof Map.Entry<?, ?> both)) {
                throw node.reject("takes a Map.Entry here, not " + (entry == null ? "null" : Types.name(entry.getClass())));
            }
            w.comma(index);
            w.put('[');
            parts.get(0).write(w, both.getKey());
            part = 1;
            w.put(',');
            parts.get(1).write(w, both.getValue());
            w.put(']');
        } catch (Mismatch e) {
            throw entry instanceof Map.Entry ? e.under(part).under(index) : e.under(index);
        }
    }
}
