package bcsproved;

/** Reads values of a format as values of one Java type. */
interface Decoder {
    Object read(JsonReader r);
}
