package bcsproved;

import bcsproved.Node.Kind;
import java.math.BigInteger;
import java.util.ArrayList;
import java.util.HashMap;
import java.util.List;
import java.util.Map;

/** The formats of a registry as nodes. */
final class Formats {
    /** How many bytes an address and an integer of 256 bits have. */
    static final int ADDRESS_LENGTH = 32;

    private final Map<String, Node> containers = new HashMap<>();

    /** Reads the JSON that {@code show} printed. */
    Formats(String registry, Names names) {
        Map<String, Object> members = Json.members(Json.parse(registry));
        for (String name : members.keySet()) {
            containers.put(name, new Node(name));
        }
        members.forEach((name, container) -> readContainer(containers.get(name), container));
        names.addresses().forEach(name -> rename(name, Kind.ADDRESS, false));
        names.u256().forEach(name -> rename(name, Kind.BIG_INTEGER, false));
        names.i256().forEach(name -> rename(name, Kind.BIG_INTEGER, true));
    }

    private void rename(String name, Kind kind, boolean isSigned) {
        Node node = containers.get(name);
        if (node != null && (node.kind == Kind.ADDRESS || node.kind == Kind.BIG_INTEGER)) {
            throw new IllegalArgumentException("two forms are given for " + Mismatch.quoted(name));
        }
        if (node != null && node.kind == Kind.NEWTYPE && node.parts.get(0).kind == Kind.BYTES
                && node.parts.get(0).length == ADDRESS_LENGTH) {
            node.kind = kind;
            node.isSigned = isSigned;
            node.bits = 8 * ADDRESS_LENGTH;
            node.length = ADDRESS_LENGTH;
        } else if (!name.equals("address") && !name.equals("u256") && !name.equals("i256")) {
            throw new IllegalArgumentException("the registry has no newtype of 32 bytes called " + Mismatch.quoted(name));
        }
    }

    /** The node of a format that the proved code has accepted: the name of a container, or JSON. */
    Node root(String format) {
        return format.startsWith("{") || format.startsWith("\"") ? format(Json.parse(format)) : containers.get(format);
    }

    /** Reads a container, or the payload of a variant, into its node. */
    private void readContainer(Node node, Object container) {
        if (container instanceof String) {
            node.kind = Kind.UNIT;
            return;
        }
        Map.Entry<String, Object> only = Json.onlyMember(container);
        switch (only.getKey()) {
            case "NEWTYPESTRUCT", "NEWTYPE" -> {
                node.kind = Kind.NEWTYPE;
                node.parts = List.of(format(only.getValue()));
            }
            case "TUPLESTRUCT", "TUPLE" -> {
                node.kind = Kind.TUPLE;
                node.parts = formats(only.getValue());
            }
            case "STRUCT" -> readFields(node, Json.elements(only.getValue()));
            case "ENUM" -> readVariants(node, Json.members(only.getValue()));
            default -> throw new AssertionError("a container that isn't known: " + only.getKey());
        }
    }

    private void readFields(Node node, List<?> fields) {
        node.kind = Kind.STRUCT;
        node.names = new ArrayList<>();
        node.parts = new ArrayList<>();
        for (Object field : fields) {
            node.names.add(Json.onlyMember(field).getKey());
            node.parts.add(format(Json.onlyMember(field).getValue()));
        }
    }

    private void readVariants(Node node, Map<String, Object> variants) {
        node.kind = Kind.ENUM;
        node.names = new ArrayList<>();
        node.parts = new ArrayList<>();
        for (Object variant : variants.values()) {
            Map.Entry<String, Object> only = Json.onlyMember(variant);
            Node part = new Node(node.text + "::" + only.getKey());
            readContainer(part, only.getValue());
            node.names.add(only.getKey());
            node.parts.add(part);
        }
    }

    private List<Node> formats(Object list) {
        List<Node> nodes = new ArrayList<>();
        Json.elements(list).forEach(format -> nodes.add(format(format)));
        return nodes;
    }

    private Node format(Object format) {
        if (format instanceof String word) {
            return leaf(word);
        }
        Map.Entry<String, Object> only = Json.onlyMember(format);
        Object content = only.getValue();
        return switch (only.getKey()) {
            case "TYPENAME" -> containers.get((String) content);
            case "OPTION" -> compound("OPTION", Kind.OPTION, format(content));
            case "SEQ" -> list("SEQ", format(content), Node.ANY_LENGTH);
            case "MAP" -> compound("MAP", Kind.MAP, format(member(content, "KEY")), format(member(content, "VALUE")));
            case "TUPLE" -> compound("TUPLE", Kind.TUPLE, formats(content).toArray(Node[]::new));
            case "TUPLEARRAY" -> list("TUPLEARRAY", format(member(content, "CONTENT")), size(member(content, "SIZE")));
            default -> throw new AssertionError("a format that isn't known: " + only.getKey());
        };
    }

    private static Object member(Object object, String name) {
        return Json.members(object).get(name);
    }

    private static Node compound(String what, Kind kind, Node... parts) {
        return new Node(what, kind, parts);
    }

    /** Lists and arrays of U8 are byte strings, and those of a newtype of U8 aren't. */
    private static Node list(String what, Node element, long length) {
        boolean isBytes = element.kind == Kind.INTEGER && element.text.equals("U8");
        Node node = new Node(what + " of " + element.text, isBytes ? Kind.BYTES : Kind.LIST, element);
        node.length = length;
        return node;
    }

    /** No Java value is longer than the greatest long. */
    private static long size(Object number) {
        return new BigInteger(number.toString()).min(BigInteger.valueOf(Long.MAX_VALUE)).longValue();
    }

    private static Node leaf(String word) {
        return switch (word) {
            case "UNIT" -> new Node(word, Kind.UNIT);
            case "BOOL" -> new Node(word, Kind.BOOL);
            case "STR" -> new Node(word, Kind.STRING);
            case "BYTES" -> new Node(word, Kind.BYTES);
            case "F32", "F64", "CHAR" -> new Node(word, Kind.NONE);
            default -> { // I8 to U128
                Node node = new Node(word, Kind.INTEGER);
                node.isSigned = word.startsWith("I");
                node.bits = Integer.parseInt(word.substring(1));
                yield node;
            }
        };
    }
}
