package bcsproved;

/** Writes values of one Java type as a format. */
interface Encoder {
    /** Rejects null, which no format has as a value. */
    void write(JsonWriter w, Object value);
}
