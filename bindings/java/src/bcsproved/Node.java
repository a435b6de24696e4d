package bcsproved;

import java.lang.reflect.Type;
import java.util.List;

/** A format or a container. A TYPENAME is the node of its container, so nodes form cycles if containers do. */
final class Node {
    enum Kind {
        UNIT("a Unit"),
        BOOL("a Boolean"),
        INTEGER("an integer"),
        STRING("a String"),
        /** BYTES, and lists and arrays of U8: hexadecimal digits in JSON. */
        BYTES("bytes, or Hex(…) for digits"),
        OPTION("an Optional"),
        /** Also arrays. */
        LIST("a List or an array"),
        MAP("a Map or a List of Map.Entry"),
        TUPLE("a List, an array, or a record with @Bcs(\"0\"), @Bcs(\"1\"), .."),
        STRUCT("a record, a bean or a Map with the fields' names"),
        NEWTYPE(""),
        ENUM("a Variant, or a record of a sealed interface"),
        /** A container that {@link Names} calls an address. */
        ADDRESS("a String \"0x…\" or 32 bytes"),
        /** One that it calls an integer of 256 bits. */
        BIG_INTEGER("an integer"),
        /** F32, F64, CHAR: no values. */
        NONE("");

        private final String takes;

        Kind(String takes) {
            this.takes = takes;
        }
    }

    static final long ANY_LENGTH = -1;

    /** No value has more newtypes in one another. */
    private static final int MOST_NEWTYPES = 500;

    /** The format or container, in messages. */
    final String text;

    Kind kind;
    int bits; // of an integer
    boolean isSigned;
    long length = ANY_LENGTH; // of an array
    List<Node> parts = List.of();
    List<String> names = List.of(); // of fields or variants, one for each part

    Node(String text) {
        this.text = text;
    }

    Node(String text, Kind kind, Node... parts) {
        this.text = text;
        this.kind = kind;
        this.parts = List.of(parts);
    }

    /** The format behind newtypes. A newtype of itself has no values, and no end. */
    Node content() {
        Node node = this;
        for (int steps = 0; node.kind == Kind.NEWTYPE && steps < MOST_NEWTYPES; steps++) {
            node = node.parts.get(0);
        }
        return node;
    }

    boolean isInteger() {
        return kind == Kind.INTEGER || kind == Kind.BIG_INTEGER;
    }

    Mismatch reject(String problem) {
        return new Mismatch(text + " " + problem);
    }

    /** Rejects another type than those that the format takes. Null is the type of null. */
    Mismatch mismatch(Type type) {
        String found = type == null ? "null" : Types.name(type);
        Kind content = content().kind;
        return content == Kind.NONE ? reject("has no values, not " + found) : reject("takes " + content.takes + ", not " + found);
    }
}
