package bcsproved;

import java.lang.reflect.Type;

/** Converts Java values to bytes and back, by the JSON that the proved calls read and print. */
final class Values {
    /** Something that rejects values or types. */
    private interface Step<T> {
        T run() throws BcsException;
    }

    private Values() {}

    static byte[] encode(Session session, String format, Object value) throws BcsException {
        Question question = session.question(Call.TO_BCS, format, null);
        Codec.Root root = session.codec().root(session, format);
        byte[] json = refusing(() -> {
            JsonWriter w = new JsonWriter(root.codec(), session.nodesOfValue());
            root.codec().encoder(root.node(), Object.class).write(w, value);
            return w.written();
        });
        return session.output(question.with(Call.TO_BCS, json));
    }

    /** The value that a question with FROM_BCS decodes. A type that can't hold all numbers of the format is rejected before. */
    static Object decode(Session session, Question question, String format, Type type) throws BcsException {
        Codec.Root root = session.codec().root(session, format);
        Decoder decoder = refusing(() -> root.codec().decoder(root.node(), type));
        byte[] json = session.output(question);
        return refusing(() -> {
            JsonReader r = new JsonReader(json);
            Object value = decoder.read(r);
            r.end();
            return value;
        });
    }

    static void check(Session session, String format, Type type) throws BcsException {
        Codec.Root root = session.codec().root(session, format);
        refusing(() -> {
            root.codec().encoder(root.node(), type);
            return root.codec().decoder(root.node(), type);
        });
    }

    private static <T> T refusing(Step<T> step) throws BcsException {
        try {
            return step.run();
        } catch (Mismatch e) {
            throw e.refusal();
        } catch (StackOverflowError e) {
            throw BcsException.tooLittleStack();
        }
    }
}
