package dev.hoarvelt.infer;

/** What a name did beside the bytes of its file. */
public enum Standing {
    /** The bytes are of the type that the name has. */
    AGREE("agree"),
    /** They may begin a file of the type that the name has, which is told. */
    NAME_REFINES("name refines"),
    /** They are of a finer kind of the type that the name has. Theirs is told. */
    BYTES_REFINE("bytes refine"),
    /** The name says nothing, and the bytes have a type. */
    BYTES_ALONE("bytes alone"),
    /** No type accepts the bytes, and they may be of the type that the name has. */
    NAME_ALONE("name alone"),
    /** The bytes are not of a type that the name has. */
    CONTRADICTS("contradicts"),
    /** Neither says anything. */
    NOTHING("nothing");

    private final String words;

    Standing(String words) {
        this.words = words;
    }

    /** {@return the standing in words, as "name refines"} */
    @Override
    public String toString() {
        return words;
    }
}
