package bcsproved;

/**
 * A value of an enum.
 *
 * @param name  the name of the variant
 * @param value its content, which for a variant without content is a {@link Unit}
 */
public record Variant(String name, Object value) {
    /** A variant without content. */
    public Variant(String name) {
        this(name, new Unit());
    }
}
