package bcsproved;

/**
 * A registry that was made from modules of a Move chain.
 *
 * @param json  the registry, as {@link Registry#open} reads it
 * @param notes what a reader of the registry has to know, for people: for instance that a type has another name there. Mostly empty.
 */
public record MadeRegistry(String json, String notes) {}
