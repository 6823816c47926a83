package dev.hoarvelt.infer;

import java.nio.ByteBuffer;
import java.nio.charset.StandardCharsets;
import java.util.EnumSet;
import java.util.Optional;
import java.util.Set;

/**
 * MIME types as browsers read them, and what a browser takes bytes for, by the MIME Sniffing Standard.
 *
 * <pre>{@code
 * MimeSniff.compute("GIF89a".getBytes(US_ASCII), new MimeSniff.Supplied("image/png")); // Optional[image/gif]
 * }</pre>
 *
 * <p>Each character of a text counts as the byte with its number, as in a header.
 */
public final class MimeSniff {
    /** How many bytes a browser looks at. */
    public static final int HEADER = 1445;

    private static final int NO_SNIFF = 1;
    private static final int OLD_SERVER = 2;

    private MimeSniff() {}

    /** What bytes are loaded for. */
    public enum Context {
        PAGE,
        IMAGE,
        AUDIO_OR_VIDEO,
        FONT,
        PLUGIN,
        STYLE,
        SCRIPT,
        TEXT_TRACK,
        CACHE_MANIFEST
    }

    /** What a response is fetched for. Workers and worklets are scripts too. */
    public enum Destination {
        SCRIPT,
        STYLE,
        OTHER
    }

    /** The groups of MIME types. A document of {@code SCRIPTABLE} may run scripts: XML, HTML and PDF. */
    public enum Group {
        IMAGE,
        AUDIO_OR_VIDEO,
        FONT,
        ZIP,
        ARCHIVE,
        XML,
        HTML,
        SCRIPTABLE,
        JAVASCRIPT,
        JSON
    }

    /**
     * What is known of bytes before anybody looks at them.
     *
     * @param contentType the value of Content-Type, empty if there is none
     * @param noSniff whether sniffing is forbidden, as {@link #isNosniff} says
     * @param isOldServer whether that value is one that old servers sent for every file, as {@link #isOldServer} says
     * @param context what the bytes are loaded for
     */
    public record Supplied(String contentType, boolean noSniff, boolean isOldServer, Context context) {
        /** A page with that value of Content-Type. */
        public Supplied(String contentType) {
            this(contentType, false, false, Context.PAGE);
        }

        private int flags() {
            return (noSniff ? NO_SNIFF : 0) | (isOldServer ? OLD_SERVER : 0);
        }
    }

    /** A byte for each character, and for one that has none DEL, which no MIME type has. */
    private static byte[] header(String text) {
        byte[] all = new byte[text.length()];
        for (int i = 0; i < all.length; i++) {
            char it = text.charAt(i);
            all[i] = (byte) (it > 0xFF ? 0x7F : it);
        }
        return all;
    }

    private static Optional<String> text(byte[] found) {
        return found.length == 0 ? Optional.empty() : Optional.of(new String(found, StandardCharsets.ISO_8859_1));
    }

    /** {@return the MIME type of a text as the standard writes it, such as {@code text/html;charset=utf-8}, if it has one} */
    public static Optional<String> parse(String text) {
        return text(Library.mimeParse(header(text)));
    }

    /** {@return the MIME type that Fetch extracts from all values of Content-Type, with {@code ", "} between them} */
    public static Optional<String> extract(String values) {
        return text(Library.mimeExtract(header(values)));
    }

    /** {@return the groups that a MIME type is in} Its parameters make no difference. */
    public static Set<Group> groups(String mimeType) {
        int found = Library.mimeGroups(header(mimeType));
        Set<Group> all = EnumSet.noneOf(Group.class);
        for (Group group : Group.values()) {
            if ((found >> group.ordinal() & 1) != 0) {
                all.add(group);
            }
        }
        return all;
    }

    private static Optional<String> compute(Bytes bytes, Supplied supplied) {
        return text(Library.mimeCompute(header(supplied.contentType), supplied.flags(), supplied.context.ordinal(), bytes));
    }

    /**
     * {@return the type that a browser computes of what is known and of the first {@link #HEADER} bytes} It is empty if no
     * type was supplied and none is found, which is never so for a page.
     */
    public static Optional<String> compute(byte[] bytes, Supplied supplied) {
        return compute(Bytes.of(bytes), supplied);
    }

    /** {@return the same, of a buffer's bytes} */
    public static Optional<String> compute(ByteBuffer buffer, Supplied supplied) {
        return compute(Bytes.of(buffer), supplied);
    }

    private static boolean isDecided(Bytes bytes, Supplied supplied) {
        return Library.mimeIsDecided(header(supplied.contentType), supplied.flags(), bytes);
    }

    /** {@return whether no bytes that may follow change what {@code compute} returns for a page} True is certain. */
    public static boolean isDecided(byte[] bytes, Supplied supplied) {
        return isDecided(Bytes.of(bytes), supplied);
    }

    /** {@return the same, of a buffer's bytes} */
    public static boolean isDecided(ByteBuffer buffer, Supplied supplied) {
        return isDecided(Bytes.of(buffer), supplied);
    }

    /** {@return whether some bytes that may follow make a browser that got no type run scripts} False is certain. */
    public static boolean mayBeScriptable(byte[] bytes) {
        return Library.mimeMayBeScriptable(Bytes.of(bytes));
    }

    /** {@return the same, of a buffer's bytes} */
    public static boolean mayBeScriptable(ByteBuffer buffer) {
        return Library.mimeMayBeScriptable(Bytes.of(buffer));
    }

    /** {@return whether the value of X-Content-Type-Options forbids sniffing} Several values have {@code ", "} between them. */
    public static boolean isNosniff(String value) {
        return Library.mimeIsNosniff(header(value));
    }

    /** {@return whether a response that forbids sniffing is blocked, by the value of Content-Type} */
    public static boolean isBlocked(String contentType, Destination destination) {
        return Library.mimeIsBlocked(header(contentType), destination.ordinal());
    }

    /** {@return whether the value of the last Content-Type is one that old servers sent for every file} */
    public static boolean isOldServer(String contentType) {
        return Library.mimeIsOldServer(header(contentType));
    }
}
