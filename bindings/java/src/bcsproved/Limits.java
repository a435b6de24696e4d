package bcsproved;

/**
 * What restricts the values that a call accepts.
 *
 * @param depth how deeply containers may nest, at most 500
 * @param nodes how many nodes a value may have, at most 4294967295
 */
public record Limits(long depth, long nodes) {
    private static final long MOST = 0xffffffffL;

    /**
     * The widest limits: 500 open containers and 4294967295 nodes. A few bytes can encode a value with that many nodes, so don't
     * use them for bytes from strangers.
     */
    public static final Limits STANDARD = new Limits(500, MOST);

    public Limits {
        if (depth < 0 || depth > MOST || nodes < 0 || nodes > MOST) {
            throw new IllegalArgumentException("a limit isn't a number from 0 to 4294967295: " + depth + ", " + nodes);
        }
    }
}
