package bcsproved;

import java.lang.reflect.Type;
import java.util.ArrayList;
import java.util.LinkedHashMap;
import java.util.List;
import java.util.Map;
import java.util.function.Supplier;

/** Decoders for maps: a Map in the order of the bytes, or a List of entries. */
final class MapDecoders {
    private MapDecoders() {}

    static Decoder map(Decoders made, Node node, Type type, Type any) {
        if (Types.raw(type) == Map.class) {
            return intoMap(made, node, type, any);
        }
        Type entry = Types.raw(type) == List.class ? Types.argument(type, List.class, 0) : type;
        if (entry == type || Types.raw(entry) != Map.Entry.class) {
            throw node.mismatch(type);
        }
        Decoder key = at(0, () -> made.decoder(node.parts.get(0), Types.argument(entry, Map.Entry.class, 0)));
        Decoder value = at(1, () -> made.decoder(node.parts.get(1), Types.argument(entry, Map.Entry.class, 1)));
        return r -> {
            List<Object> entries = new ArrayList<>();
            r.each(index -> entries.add(entry(r, key, value)));
            return entries;
        };
    }

    private static Decoder at(int part, Supplier<Decoder> make) {
        return Mismatch.at("-", () -> Mismatch.at(part, make));
    }

    private static Decoder intoMap(Decoders made, Node node, Type type, Type any) {
        Decoder key = at(0, () -> made.keys(node.parts.get(0), Decoders.part(Types.argument(type, Map.class, 0), any)));
        Decoder value = at(1, () -> made.decoder(node.parts.get(1), Decoders.part(Types.argument(type, Map.class, 1), any)));
        return r -> {
            Map<Object, Object> map = new LinkedHashMap<>();
            int count = r.each(index -> {
                Map.Entry<Object, Object> entry = entry(r, key, value);
                map.put(entry.getKey(), entry.getValue());
            });
            if (map.size() != count) {
                throw node.reject("has " + count + " keys here, and " + Types.name(type) + " only " + map.size() + " of them");
            }
            return map;
        };
    }

    private static Map.Entry<Object, Object> entry(JsonReader r, Decoder key, Decoder value) {
        r.must("[");
        Object first = Mismatch.at(0, () -> key.read(r));
        r.must(",");
        Object second = Mismatch.at(1, () -> value.read(r));
        r.must("]");
        return Map.entry(first, second);
    }
}
