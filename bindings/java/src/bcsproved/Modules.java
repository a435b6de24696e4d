package bcsproved;

import bcsproved.BcsException.Kind;
import java.util.List;

/** Makes registries from modules of a Move chain. */
final class Modules {
    private Modules() {}

    static MadeRegistry registry(byte[] modules, List<String> types) throws BcsException {
        byte[] lines = Question.utf8(lines(types));
        Answer answer = Answer.of(Call.REGISTRY_OF_MODULES, modules, lines);
        if (answer.status() != Answer.DONE) {
            throw Refusals.ofInput(Kind.MODULES, answer);
        }
        String text = Question.text(answer.output());
        int end = text.indexOf('\n'); // the JSON has no line feed
        return end < 0 ? new MadeRegistry(text, "") : new MadeRegistry(text.substring(0, end), text.substring(end + 1));
    }

    /** The types with a line feed between each two, as C takes them. C would skip an empty one. */
    private static String lines(List<String> types) throws BcsException {
        for (String type : types) {
            if (type.isEmpty()) {
                throw badType(type, "\"\" isn't a type");
            }
            if (type.contains("\n")) {
                throw badType(type, "a type has no line feed");
            }
        }
        return String.join("\n", types);
    }

    private static BcsException badType(String type, String message) {
        return new BcsException(Kind.MODULES, "BadType", -1, type, message);
    }
}
