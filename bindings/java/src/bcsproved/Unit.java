package bcsproved;

/** The only value of UNIT, and of structs and variants without content. */
public record Unit() {}
