package bcsproved;

import bcsproved.BcsException.Kind;
import java.util.ArrayList;
import java.util.List;
import java.util.Objects;

/**
 * What {@link Registry#explain(String, byte[], Form, Views)} shows of a value in addition: the pieces inside of byte strings, and
 * Move's numbers. Names are those that it prints; [*] in a name stands for each index, such as [0]. Containers called address, u256
 * and i256 are shown as Move's without views.
 */
public final class Views {
    /** No views. */
    public static final Views NONE = new Views(List.of());

    /** A view, with the JSON of its format if it has one, and what is wrong with it if the registry refuses it. */
    record View(String word, String name, String rest, String format, String missing) {
        /** The view as C takes it. */
        String line() {
            return word + ' ' + name + rest;
        }

        BcsException badName() {
            return refusedName("expected a name such as .payload.args[1]");
        }

        private BcsException refusedName(String problem) {
            return new BcsException(Kind.PATH, "BadPath", -1, name, word + ": " + problem);
        }

        /** The refusal by a registry, at this place in the format. */
        BcsException refused(String reason, Place place) {
            String problem = place.message() == null ? missing : place.message();
            return new BcsException(Kind.FORMAT, reason, -1, place.at(), word + ' ' + name + ": " + problem);
        }
    }

    private static final String NO_FORMAT = "the registry has no such format";
    private static final String NO_ARGUMENTS = "the registry has no arguments of this function";
    private static final String NO_CONTAINER = "the registry has no newtype of 32 bytes with this name";

    private final List<View> views;

    private Views(List<View> views) {
        this.views = views;
    }

    /** Explains the byte string of this name piece by piece, as a value of this format. */
    public Views withInside(String name, String format) {
        String json = Question.json(format);
        return with("inside", name, "=" + json, json, NO_FORMAT);
    }

    /**
     * Explains the elements of the list of this name as the arguments of a function, in a registry that
     * {@link Registry#registryOfModules} made for it. An empty function is the one that is called.
     */
    public Views withCall(String name, String function) {
        return with("call", name, "=" + Objects.requireNonNull(function, "function"), null, NO_ARGUMENTS);
    }

    /** Shows values of this container, a newtype of 32 U8, as an address: 0x.. */
    public Views withAddress(String container) {
        return with("address", container, "", null, NO_CONTAINER);
    }

    /** Shows values of this container, a newtype of 32 U8, as an unsigned number. */
    public Views withU256(String container) {
        return with("u256", container, "", null, NO_CONTAINER);
    }

    /** Shows values of this container, a newtype of 32 U8, as a signed number. */
    public Views withI256(String container) {
        return with("i256", container, "", null, NO_CONTAINER);
    }

    private Views with(String word, String name, String rest, String format, String missing) {
        List<View> more = new ArrayList<>(views);
        more.add(new View(word, Objects.requireNonNull(name, "name"), rest, format, missing));
        return new Views(List.copyOf(more));
    }

    /** The views, a line for each, as C takes them. */
    String lines() throws BcsException {
        StringBuilder lines = new StringBuilder();
        for (View view : views) {
            if (view.rest.startsWith("=") && !endsOutsideQuotes(view.name)) {
                throw view.badName();
            }
            if (view.name.contains("\n") || view.rest.contains("\n")) {
                throw view.refusedName("a line feed, which no view may have");
            }
            lines.append(lines.length() == 0 ? "" : "\n").append(view.line());
        }
        return lines.toString();
    }

    List<View> all() {
        return views;
    }

    /** Whether a = behind the name ends it, since the name has none outside quotes. */
    private static boolean endsOutsideQuotes(String name) {
        boolean isQuoted = false;
        for (int i = 0; i < name.length(); i++) {
            char sign = name.charAt(i);
            if (sign == '=' && !isQuoted) {
                return false;
            }
            isQuoted ^= sign == '"';
            i += sign == '\\' && isQuoted ? 1 : 0;
        }
        return !isQuoted;
    }
}
