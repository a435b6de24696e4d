package bcsproved;

import bcsproved.BcsException.Kind;
import java.util.List;

/** Compares two registries. */
final class Growth {
    private Growth() {}

    static void check(byte[] older, byte[] newer) throws BcsException {
        output(Call.GROWS, older, newer);
    }

    static List<String> differences(byte[] older, byte[] newer) throws BcsException {
        return Question.text(output(Call.GROWTH_LIST, older, newer)).lines().toList();
    }

    private static byte[] output(Call call, byte[] older, byte[] newer) throws BcsException {
        Answer answer = Answer.of(call, older, newer);
        return switch (answer.status()) {
            case Answer.DONE -> answer.output();
            case Answer.REFUSED -> throw Refusals.ofInput(Kind.GROWTH, answer);
            case Answer.NEWER -> throw Refusals.ofRegistry(Kind.NEWER, answer, newer);
            default -> throw Refusals.ofRegistry(Kind.REGISTRY, answer, older);
        };
    }
}
