package bcsproved;

/** Where something is refused, and what was expected there; either is null if it isn't known. */
record Place(String at, String message) {
    static final Place UNKNOWN = new Place(null, null);

    /**
     * Takes apart what a call of C reports about a refusal: the place, a NUL, and the message. A name in the place may contain other
     * NULs. The output is empty if there is nothing to say besides the fault.
     */
    static Place of(byte[] output) {
        String text = output == null ? "" : Question.text(output);
        int end = text.lastIndexOf('\0');
        if (end < 0) {
            return UNKNOWN;
        }
        String message = text.substring(end + 1);
        return new Place(text.substring(0, end), message.isEmpty() ? null : message);
    }
}
