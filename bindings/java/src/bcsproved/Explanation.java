package bcsproved;

/**
 * Bytes, shown piece by piece.
 *
 * @param text   a line for each piece
 * @param damage where the bytes stop being a value of the format; null if they are one
 */
public record Explanation(String text, BcsException damage) {}
