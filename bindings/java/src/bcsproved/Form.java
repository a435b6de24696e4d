package bcsproved;

/** How {@link Registry#explain} prints. */
public enum Form {
    /** A line for each piece: its place, its bytes, its kind, and the names that lead to it. */
    WAYS,
    /** The same, followed by the path for {@link Registry#part}. */
    PATHS,
    /** Indented by the depth of the piece. */
    TREE,
    /** A JSON object per line. */
    JSON
}
