package bcsproved;

import java.lang.ref.Cleaner;

/** What a registry has in common with those that {@link Registry#withLimits} makes of it. Without it the handle is closed. */
final class Shared {
    private static final Cleaner CLEANER = Cleaner.create();

    final Handle handle;
    private final Cleaner.Cleanable cleanable;
    private final Names names;
    private Codec codec; // null until the first value

    Shared(long address, Names names) {
        this.names = names;
        handle = new Handle(address);
        cleanable = CLEANER.register(this, handle);
    }

    /** Reads the registry's formats when the first value is encoded or decoded. */
    synchronized Codec codec(Session session) throws BcsException {
        if (codec == null) {
            codec = new Codec(new Formats(Question.text(session.show(new byte[0], Form.JSON)), names));
        }
        return codec;
    }

    void close() {
        cleanable.clean();
    }
}
