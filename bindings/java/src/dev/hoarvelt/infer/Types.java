package dev.hoarvelt.infer;

import java.io.IOException;
import java.io.InputStream;
import java.nio.ByteBuffer;
import java.nio.CharBuffer;
import java.nio.charset.CharacterCodingException;
import java.nio.charset.StandardCharsets;
import java.nio.file.FileSystemException;
import java.nio.file.Files;
import java.nio.file.Path;
import java.util.Optional;

/**
 * Types of one's own, which a text describes, a line a type.
 *
 * <pre>{@code
 * Types own = Types.of("qoi image/qoi image - 14: @0 \"qoif\"");
 * Optional<Type> type = own.get(Path.of("drawing.qoi"));
 * }</pre>
 *
 * <p>Bytes are handed over as to {@link Infer}. All may be called from any thread.
 */
public final class Types {
    /** A text in a file is read up to this. */
    private static final int LONGEST_TEXT = 1 << 20;

    private final byte[] text;

    private Types(byte[] text, String place) {
        long[] at = new long[2];
        String reason = Library.typesMistake(text, at);
        if (!reason.isEmpty()) {
            throw new TypesException(place, at[0], at[1], reason);
        }
        this.text = text;
    }

    /**
     * {@return the types that the text describes}
     *
     * @throws TypesException if it describes none
     */
    public static Types of(String text) {
        try {
            ByteBuffer encoded = StandardCharsets.UTF_8.newEncoder().encode(CharBuffer.wrap(text));
            byte[] bytes = new byte[encoded.remaining()];
            encoded.get(bytes);
            return new Types(bytes, "");
        } catch (CharacterCodingException fault) {
            throw new IllegalArgumentException("the text has half a character", fault);
        }
    }

    /**
     * {@return the types that the text in a regular file describes, which has at most 1 MiB}
     *
     * @throws TypesException if it describes none
     */
    public static Types load(Path path) throws IOException {
        Front.refuseUnlessRegular(path);
        try (InputStream in = Files.newInputStream(path)) {
            byte[] text = in.readNBytes(LONGEST_TEXT + 1);
            if (text.length > LONGEST_TEXT) {
                throw new FileSystemException(path.toString(), null, "more than 1 MiB of types");
            }
            return new Types(text, path + ": ");
        }
    }

    private Optional<Type> get(Bytes bytes) {
        byte[] mimeType = new byte[Library.TEXT_SIZE];
        byte[] extension = new byte[Library.TEXT_SIZE];
        int classCode = Library.typesGet(text, bytes, mimeType, extension);
        return classCode < 0 ? Optional.empty() : Optional.of(new Type(told(mimeType), told(extension), Library.className(classCode)));
    }

    /** The text that the library wrote, with a zero after it. */
    private static String told(byte[] room) {
        int size = 0;
        while (room[size] != 0) {
            size++;
        }
        return new String(room, 0, size, StandardCharsets.US_ASCII);
    }

    /** {@return the first of these types that stands below the built-in answer and accepts the bytes, and the wider answer if there is none} */
    public Optional<Type> get(byte[] bytes) {
        return get(Bytes.of(bytes));
    }

    /** {@return the same, of a buffer's bytes} */
    public Optional<Type> get(ByteBuffer buffer) {
        return get(Bytes.of(buffer));
    }

    /** {@return the same, of the next bytes of a stream, which stays where it is} */
    public Optional<Type> get(InputStream in) throws IOException {
        return get(Front.of(in));
    }

    /** {@return the same, of the first bytes of a file} */
    public Optional<Type> get(Path path) throws IOException {
        return get(Front.of(path));
    }
}
