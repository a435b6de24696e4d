package bcsproved;

/**
 * A part of a value's bytes.
 *
 * @param place how many bytes come before it
 * @param data  its bytes
 */
public record Part(int place, byte[] data) {}
