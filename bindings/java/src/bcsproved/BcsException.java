package bcsproved;

/** A refusal. Its message is a line that begins like that of the program {@code bcs}: {@code refused: BadNumber at /amount: ..} */
public final class BcsException extends Exception {
    private static final long serialVersionUID = 1;

    /** What is refused. */
    public enum Kind {
        /** The registry; of two registries, the older one. */
        REGISTRY,
        /** The newer of two registries. */
        NEWER,
        /** The newer registry, since it doesn't keep what the older one has. */
        GROWTH,
        FORMAT,
        /** The depth is above 500. */
        LIMITS,
        /** The JSON of a value. */
        TEXT,
        BYTES,
        PATH,
        /** The format has no such example. */
        EXAMPLE,
        /** The modules of a Move chain, or a type that is requested of them. */
        MODULES,
        /** A Java value isn't one of the format, or its class can't be. */
        VALUE,
        /** The thread has too little stack left: use one with more, or a lower depth. */
        STACK
    }

    private final Kind kind;
    private final String reason;
    private final long place;
    private final String at;
    private final String message;

    BcsException(Kind kind, String reason, long place, String at, String message) {
        super(line(reason, place, at, message));
        this.kind = kind;
        this.reason = reason;
        this.place = place;
        this.at = at;
        this.message = message;
    }

    static BcsException tooLittleStack() {
        return new BcsException(Kind.STACK, null, -1, null, "the thread has too little stack");
    }

    private static String line(String reason, long place, String at, String message) {
        StringBuilder line = new StringBuilder("refused");
        line.append(reason == null ? "" : ": " + reason);
        boolean isAt = at != null && !at.isEmpty();
        if (place >= 0) {
            line.append(" at byte ").append(place).append(isAt ? ", " + at : "");
        } else if (isAt) {
            line.append(" at ").append(at);
        }
        return line.append(message == null ? "" : ": " + message).toString();
    }

    public Kind kind() {
        return kind;
    }

    /** The name of the fault, as the program {@code bcs} prints it: "BadBool". Null for LIMITS and STACK. */
    public String reason() {
        return reason;
    }

    /** The offset where bytes stop being a value. -1 for other kinds, and if the value's JSON would nest too deep. */
    public long place() {
        return place;
    }

    /**
     * Where the fault is; null if that isn't known. Of JSON and of values it is a JSON Pointer (RFC 6901) such as /payload/args/1,
     * which is empty if the whole is refused; of a type the same, with "-" for each element of a list; of bytes the names that lead
     * there, such as .payload.args[1]; of a format a JSON Pointer; of a registry or growth a definition, such as Shape, field side;
     * of a path a step, such as step 2 x; of modules a JSON Pointer, or the type that was requested. Names are as they are, never
     * escaped or cut.
     */
    public String at() {
        return at;
    }

    /** What was expected there, or what is wrong. The text is for people, and may change. Null if that isn't known. */
    public String message() {
        return message;
    }
}
