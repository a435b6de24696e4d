package bcsproved;

import bcsproved.BcsException.Kind;

/** Makes the exception for an answer by which C refuses something, with its place and what was expected there. */
final class Refusals {
    private Refusals() {}

    /** Of the input of a call, which the answer reports in full. */
    static BcsException ofInput(Kind kind, Answer answer) throws BcsException {
        return of(kind, answer, Place.of(answer.output()));
    }

    /** Of bytes that were explained. Of bytes inside of a byte string, C reports nothing. */
    static BcsException ofExplained(long handle, Question question, Answer answer) throws BcsException {
        Answer told = Answer.of(handle, question.with(Call.STOP_REFUSAL, question.first()));
        return of(Kind.BYTES, answer, told.place() == answer.place() ? Place.of(told.output()) : Place.UNKNOWN);
    }

    static BcsException ofFormat(long handle, Question question, Answer answer) throws BcsException {
        return of(Kind.FORMAT, answer, Place.of(Answer.of(handle, question.with(Call.FORMAT_PLACE, null)).output()));
    }

    /** Of the path, the name or the pointer of a part. Only of a path a call says what is wrong with it. */
    static BcsException ofName(Answer answer, byte[] name, int notation) throws BcsException {
        return switch (notation) {
            case Answer.NAME -> ofPath(answer, "a name such as .payload.args[1]");
            case Answer.POINTER -> ofPath(answer, "a JSON Pointer such as /payload/args/1");
            default -> of(Kind.PATH, answer, Place.of(Answer.of(Call.PATH_PLACE, null, name).output()));
        };
    }

    static BcsException ofPath(Answer answer, String expected) throws BcsException {
        return of(Kind.PATH, answer, new Place(null, "expected " + expected));
    }

    static BcsException ofRegistry(Kind kind, Answer answer, byte[] registry) throws BcsException {
        return of(kind, answer, Place.of(Answer.of(Call.REGISTRY_REFUSAL, registry, null).output()));
    }

    static BcsException of(Kind kind, Answer answer, Place place) throws BcsException {
        boolean hasOffset = kind == Kind.BYTES && answer.fault() != Answer.SHOWN_TOO_NESTED;
        return new BcsException(kind, answer.reason(), hasOffset ? answer.place() : -1, place.at(), place.message());
    }
}
