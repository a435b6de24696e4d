package bcsproved;

import java.lang.reflect.Type;
import java.util.Map;
import java.util.concurrent.ConcurrentHashMap;

/** The formats of a registry, and the converters that were made for pairs of a format and a type. */
final class Codec {
    /** A format and a type. */
    record Pair(Node node, Type type) {}

    /** A format with the codec that has its converters. */
    record Root(Codec codec, Node node) {}

    /** Bounds for what is remembered, since formats may come from strangers. */
    private static final int MOST_FORMATS = 200, MOST_CONVERTERS = 10_000, LONGEST_FORMAT = 1000;

    private final Formats formats;
    private final Map<String, Node> roots = new ConcurrentHashMap<>();
    private final Map<Pair, Encoder> encoders = new ConcurrentHashMap<>();
    private final Map<Pair, Decoder> decoders = new ConcurrentHashMap<>();

    Codec(Formats formats) {
        this.formats = formats;
    }

    /** The node of a format. One that isn't remembered has a codec of its own. */
    Root root(Session session, String format) throws BcsException {
        Node known = roots.get(format);
        if (known != null) {
            return new Root(this, known);
        }
        session.check(format);
        Node node = formats.root(format);
        if (format.length() > LONGEST_FORMAT) {
            return new Root(new Codec(formats), node);
        }
        if (roots.size() >= MOST_FORMATS) {
            forget();
        }
        Node earlier = roots.putIfAbsent(format, node);
        return new Root(this, earlier != null ? earlier : node);
    }

    private void forget() {
        roots.clear();
        encoders.clear();
        decoders.clear();
    }

    /** The encoder for a format and a type. It is made once. */
    Encoder encoder(Node node, Type type) {
        Pair pair = new Pair(node, type);
        Encoder known = encoders.get(pair);
        if (known != null) {
            return known;
        }
        Encoder made = new Encoders().encoder(node, type);
        if (encoders.size() >= MOST_CONVERTERS) {
            encoders.clear();
        }
        encoders.put(pair, made);
        return made;
    }

    /** The decoder for a format and a type. It is made once. */
    Decoder decoder(Node node, Type type) {
        Pair pair = new Pair(node, type);
        Decoder known = decoders.get(pair);
        if (known != null) {
            return known;
        }
        Decoder made = new Decoders().decoder(node, type);
        if (decoders.size() >= MOST_CONVERTERS) {
            decoders.clear();
        }
        decoders.put(pair, made);
        return made;
    }
}
