package dev.hoarvelt.infer;

import java.io.File;
import java.io.IOException;
import java.io.InputStream;
import java.nio.ByteBuffer;
import java.nio.charset.Charset;
import java.nio.charset.StandardCharsets;
import java.nio.file.Path;
import java.util.EnumSet;
import java.util.List;
import java.util.Optional;
import java.util.Set;
import java.util.stream.IntStream;

/**
 * The type of a file, from its first bytes.
 *
 * <pre>{@code
 * Infer.get(Path.of("photo.jpg")).ifPresent(type -> System.out.println(type.mimeType()));
 * }</pre>
 *
 * <p>Bytes can be handed over in five ways. Of an array or a buffer all that is handed over is looked at, {@link #FRONT}
 * bytes are enough, and nobody may change them meanwhile. The collector waits while an array is looked at. A buffer's are those between its position and its limit, which
 * stay. Of a stream the next {@link #FRONT} bytes are read, between {@link InputStream#mark mark} and
 * {@link InputStream#reset reset}, so it stands afterwards where it stood; one that cannot go back is an
 * {@link IllegalArgumentException}. A path or a file is that of a regular file, and of any other an {@link IOException} tells. A
 * failed read is no answer, but that exception.
 *
 * <p>Nothing is kept between two calls, and all may be called from any thread.
 */
public final class Infer {
    /** How many bytes of a stream or a file are looked at. */
    public static final int FRONT = 8192;

    private static final List<Optional<Type>> ANSWERS = IntStream.range(0, Library.moreRowCount())
        .mapToObj(row -> Optional.of(new Type(Library.mimeType(row), Library.extension(row), Library.className(Library.classCode(row)))))
        .toList();
    private static final List<Type> TYPES = ANSWERS.stream().limit(Library.rowCount()).map(Optional::get).toList();
    private static final List<Type> FURTHER_TYPES = ANSWERS.stream().skip(Library.rowCount()).map(Optional::get).toList();
    private static final String VERSION = Library.version();

    private Infer() {}

    /** {@return the built-in types, in the order in which they are asked} */
    public static List<Type> types() {
        return TYPES;
    }

    /** {@return the further types, of which several can be equal} */
    public static List<Type> furtherTypes() {
        return FURTHER_TYPES;
    }

    /** {@return the version of the library} */
    public static String version() {
        return VERSION;
    }

    static Optional<Type> answer(int row) {
        return row < 0 ? Optional.empty() : ANSWERS.get(row);
    }

    private static Optional<Type> get(Bytes bytes) {
        return answer(Library.position(bytes));
    }

    /** {@return the first built-in type that accepts the bytes} Allow a file by this answer. */
    public static Optional<Type> get(byte[] bytes) {
        return get(Bytes.of(bytes));
    }

    /** {@return the same, of a buffer's bytes} */
    public static Optional<Type> get(ByteBuffer buffer) {
        return get(Bytes.of(buffer));
    }

    /** {@return the same, of the next bytes of a stream, which stays where it is} */
    public static Optional<Type> get(InputStream in) throws IOException {
        return get(Front.of(in));
    }

    /** {@return the same, of the first bytes of a file} */
    public static Optional<Type> get(Path path) throws IOException {
        return get(Front.of(path));
    }

    /** {@return the same, of the first bytes of a file} */
    public static Optional<Type> get(File file) throws IOException {
        return get(file.toPath());
    }

    private static Optional<Type> getMore(Bytes bytes) {
        return answer(Library.morePosition(bytes));
    }

    /** {@return the wider answer: the first further type below the answer of {@code get}, and that answer if there is none} */
    public static Optional<Type> getMore(byte[] bytes) {
        return getMore(Bytes.of(bytes));
    }

    /** {@return the same, of a buffer's bytes} */
    public static Optional<Type> getMore(ByteBuffer buffer) {
        return getMore(Bytes.of(buffer));
    }

    /** {@return the same, of the next bytes of a stream, which stays where it is} */
    public static Optional<Type> getMore(InputStream in) throws IOException {
        return getMore(Front.of(in));
    }

    /** {@return the same, of the first bytes of a file} */
    public static Optional<Type> getMore(Path path) throws IOException {
        return getMore(Front.of(path));
    }

    /** {@return the same, of the first bytes of a file} */
    public static Optional<Type> getMore(File file) throws IOException {
        return getMore(file.toPath());
    }

    /** {@return the older name of {@code getMore}, which the next version leaves out} */
    @Deprecated
    public static Optional<Type> wider(byte[] bytes) {
        return getMore(bytes);
    }

    /** {@return the same, of a buffer's bytes} */
    @Deprecated
    public static Optional<Type> wider(ByteBuffer buffer) {
        return getMore(buffer);
    }

    /** {@return the same, of the next bytes of a stream, which stays where it is} */
    @Deprecated
    public static Optional<Type> wider(InputStream in) throws IOException {
        return getMore(in);
    }

    /** {@return the same, of the first bytes of a file} */
    @Deprecated
    public static Optional<Type> wider(Path path) throws IOException {
        return getMore(path);
    }

    private static String text(Optional<Type> type) {
        return type.map(Type::mimeType).orElse("application/octet-stream");
    }

    /** {@return the MIME type of {@code getMore} as a text, and application/octet-stream if there is none} */
    public static String detect(byte[] bytes) {
        return text(getMore(bytes));
    }

    /** {@return the same, of a buffer's bytes} */
    public static String detect(ByteBuffer buffer) {
        return text(getMore(buffer));
    }

    /** {@return the same, of the next bytes of a stream, which stays where it is} */
    public static String detect(InputStream in) throws IOException {
        return text(getMore(in));
    }

    /** {@return the same, of the first bytes of a file} */
    public static String detect(Path path) throws IOException {
        return text(getMore(path));
    }

    /** {@return the same, of the first bytes of a file} */
    public static String detect(File file) throws IOException {
        return text(getMore(file));
    }

    private static Named named(String name, Bytes bytes) {
        byte[] answer = new byte[Named.SIZE];
        Library.named(name.getBytes(StandardCharsets.UTF_8), bytes, answer);
        return Named.of(answer);
    }

    /** {@return what a file's name and its bytes tell} The bytes win: a name only chooses among what they leave open. */
    public static Named named(String name, byte[] bytes) {
        return named(name, Bytes.of(bytes));
    }

    /** {@return the same, of a buffer's bytes} */
    public static Named named(String name, ByteBuffer buffer) {
        return named(name, Bytes.of(buffer));
    }

    /** {@return the same, of the next bytes of a stream, which stays where it is} */
    public static Named named(String name, InputStream in) throws IOException {
        return named(name, Front.of(in));
    }

    /** {@return the same, of the first bytes of a file, whose name the path is} */
    public static Named named(Path path) throws IOException {
        return named(path.toString(), Front.of(path));
    }

    /** {@return the same, of the first bytes of a file, whose name its path is} */
    public static Named named(File file) throws IOException {
        return named(file.toPath());
    }

    /** {@return the bytes that decide the answer of {@code get}} */
    public static Evidence evidence(byte[] bytes) {
        return Evidence.of(Bytes.of(bytes), false);
    }

    /** {@return the same, of a buffer's bytes} */
    public static Evidence evidence(ByteBuffer buffer) {
        return Evidence.of(Bytes.of(buffer), false);
    }

    /** {@return the same, of the next bytes of a stream, which stays where it is} */
    public static Evidence evidence(InputStream in) throws IOException {
        return Evidence.of(Front.of(in), false);
    }

    /** {@return the same, of the first bytes of a file} */
    public static Evidence evidence(Path path) throws IOException {
        return Evidence.of(Front.of(path), false);
    }

    /** {@return the bytes that decide the answer of {@code getMore}} */
    public static Evidence moreEvidence(byte[] bytes) {
        return Evidence.of(Bytes.of(bytes), true);
    }

    /** {@return the same, of a buffer's bytes} */
    public static Evidence moreEvidence(ByteBuffer buffer) {
        return Evidence.of(Bytes.of(buffer), true);
    }

    /** {@return the same, of the next bytes of a stream, which stays where it is} */
    public static Evidence moreEvidence(InputStream in) throws IOException {
        return Evidence.of(Front.of(in), true);
    }

    /** {@return the same, of the first bytes of a file} */
    public static Evidence moreEvidence(Path path) throws IOException {
        return Evidence.of(Front.of(path), true);
    }

    /** {@return what is odd about a name} It changes nothing of what {@code named} tells. */
    public static Set<Oddity> oddities(String name) {
        int found = Library.oddities(name.getBytes(StandardCharsets.UTF_8));
        Set<Oddity> all = EnumSet.noneOf(Oddity.class);
        for (Oddity oddity : Oddity.values()) {
            if ((found >> oddity.ordinal() & 1) != 0) {
                all.add(oddity);
            }
        }
        return all;
    }

    /**
     * {@return the line that infer_label prints of a file's name and its bytes, without its end} Nothing of a name moves a
     * cursor or is hidden.
     */
    public static String line(String name, byte[] bytes) {
        byte[] text = name.getBytes(StandardCharsets.UTF_8);
        byte[] room = new byte[6 * text.length + 512];
        int size = Library.line(text, Bytes.of(bytes), room);
        return new String(room, 0, size - 1, StandardCharsets.UTF_8);
    }

    private static Optional<Charset> encoding(Bytes bytes) {
        String name = Library.encoding(bytes);
        return name.isEmpty() ? Optional.empty() : Optional.of(Charset.forName(name));
    }

    /**
     * {@return how the text is encoded: US-ASCII, UTF-8, UTF-16LE or UTF-16BE} It is empty if the bytes are no text, or
     * text of another encoding. A character that is cut at the end makes no difference.
     */
    public static Optional<Charset> encoding(byte[] bytes) {
        return encoding(Bytes.of(bytes));
    }

    /** {@return the same, of a buffer's bytes} */
    public static Optional<Charset> encoding(ByteBuffer buffer) {
        return encoding(Bytes.of(buffer));
    }

    /** {@return the same, of the next bytes of a stream, which stays where it is} */
    public static Optional<Charset> encoding(InputStream in) throws IOException {
        return encoding(Front.of(in));
    }

    /** {@return the same, of the first bytes of a file} */
    public static Optional<Charset> encoding(Path path) throws IOException {
        return encoding(Front.of(path));
    }

    /** {@return whether no bytes that may follow can change the answer of {@code get}, told exactly} */
    public static boolean isDecided(byte[] bytes) {
        return Library.isDecided(Bytes.of(bytes));
    }

    /** {@return the same, of a buffer's bytes} */
    public static boolean isDecided(ByteBuffer buffer) {
        return Library.isDecided(Bytes.of(buffer));
    }

    /** {@return the same, of the next bytes of a stream, which stays where it is} */
    public static boolean isDecided(InputStream in) throws IOException {
        return Library.isDecided(Front.of(in));
    }

    /** {@return the same, of the first bytes of a file} */
    public static boolean isDecided(Path path) throws IOException {
        return Library.isDecided(Front.of(path));
    }

    /** {@return whether no bytes that may follow can change the answer of {@code getMore}} False does not say that some can. */
    public static boolean isMoreDecided(byte[] bytes) {
        return Library.moreIsDecided(Bytes.of(bytes));
    }

    /** {@return the same, of a buffer's bytes} */
    public static boolean isMoreDecided(ByteBuffer buffer) {
        return Library.moreIsDecided(Bytes.of(buffer));
    }

    /** {@return the same, of the next bytes of a stream, which stays where it is} */
    public static boolean isMoreDecided(InputStream in) throws IOException {
        return Library.moreIsDecided(Front.of(in));
    }

    /** {@return the same, of the first bytes of a file} */
    public static boolean isMoreDecided(Path path) throws IOException {
        return Library.moreIsDecided(Front.of(path));
    }

    /** {@return the older name of {@code isMoreDecided}, which the next version leaves out} */
    @Deprecated
    public static boolean isWiderDecided(byte[] bytes) {
        return isMoreDecided(bytes);
    }

    /** {@return the same, of a buffer's bytes} */
    @Deprecated
    public static boolean isWiderDecided(ByteBuffer buffer) {
        return isMoreDecided(buffer);
    }

    /** {@return the same, of the next bytes of a stream, which stays where it is} */
    @Deprecated
    public static boolean isWiderDecided(InputStream in) throws IOException {
        return isMoreDecided(in);
    }

    /** {@return the same, of the first bytes of a file} */
    @Deprecated
    public static boolean isWiderDecided(Path path) throws IOException {
        return isMoreDecided(path);
    }
}
