package bcsproved;

/**
 * The value at the beginning of longer data.
 *
 * @param value  the value, or its normal JSON document
 * @param length how many bytes it has
 * @param <T>    the type of the value
 */
public record Prefix<T>(T value, int length) {}
