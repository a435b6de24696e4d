package bcsproved;

import bcsproved.BcsException.Kind;
import java.util.ArrayDeque;
import java.util.function.Supplier;

/** Why a value or a type can't stand for a format. The caller of each step adds it, so that a JSON Pointer leads there. */
final class Mismatch extends RuntimeException {
    private static final long serialVersionUID = 1;
    private static final int MOST_SHOWN = 100;

    private final ArrayDeque<String> steps = new ArrayDeque<>();

    Mismatch(String message) {
        super(message, null, false, false);
    }

    /** Puts a step before the others. "-" is each element of a list. */
    Mismatch under(Object step) {
        steps.addFirst("/" + step.toString().replace("~", "~0").replace("/", "~1"));
        return this;
    }

    /** Makes something at a step of a JSON Pointer. */
    static <T> T at(Object step, Supplier<T> make) {
        try {
            return make.get();
        } catch (Mismatch e) {
            throw e.under(step);
        }
    }

    BcsException refusal() {
        return new BcsException(Kind.VALUE, "WrongType", -1, String.join("", steps), getMessage());
    }

    /** A name in quotes, cut if it is long: a message may not cost more than the value. */
    static String quoted(String name) {
        return "\"" + (name.length() > MOST_SHOWN ? name.substring(0, MOST_SHOWN) + ".." : name) + "\"";
    }
}
