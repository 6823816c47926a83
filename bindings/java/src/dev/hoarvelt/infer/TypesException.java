package dev.hoarvelt.infer;

/** The first mistake of a text that describes no types. */
public final class TypesException extends IllegalArgumentException {
    private static final long serialVersionUID = 1;
    /** @serial */
    private final long line;
    /** @serial */
    private final long column;
    /** @serial */
    private final String reason;

    TypesException(String place, long line, long column, String reason) {
        super(place + "line " + line + ", column " + column + ": " + reason);
        this.line = line;
        this.column = column;
        this.reason = reason;
    }

    /** {@return the line of the mistake, from 1} */
    public long line() {
        return line;
    }

    /** {@return the column of the mistake, from 1, which counts bytes} */
    public long column() {
        return column;
    }

    /** {@return what is wrong there} */
    public String reason() {
        return reason;
    }
}
