package dev.hoarvelt.infer;

import java.nio.ByteBuffer;

/**
 * The calls of the C library, whose header infer.h says what each answers. Here they go by the native interface of Java,
 * through infer_jni.c. The class of this name in src22 stands in its place from Java 22 on.
 */
final class Library {
    /** Room for each text of a type of one's own, with its zero. */
    static final int TEXT_SIZE = 256;

    static {
        Loader.load();
    }

    private Library() {}

    static int position(Bytes it) {
        return position(it.array(), it.direct(), it.from(), it.size());
    }

    static int morePosition(Bytes it) {
        return morePosition(it.array(), it.direct(), it.from(), it.size());
    }

    static boolean isDecided(Bytes it) {
        return isDecided(it.array(), it.direct(), it.from(), it.size());
    }

    static boolean moreIsDecided(Bytes it) {
        return moreIsDecided(it.array(), it.direct(), it.from(), it.size());
    }

    /** The name of the encoding, or the empty text. */
    static String encoding(Bytes it) {
        return encoding(it.array(), it.direct(), it.from(), it.size());
    }

    /** The code of the class, or -1. Both texts get a zero after them. */
    static int typesGet(byte[] text, Bytes it, byte[] mimeType, byte[] extension) {
        return typesGet(text, it.array(), it.direct(), it.from(), it.size(), mimeType, extension);
    }

    /** What a name and bytes tell, into the answer, which has {@link Named#SIZE} bytes. */
    static void named(byte[] name, Bytes it, byte[] answer) {
        named(name, it.array(), it.direct(), it.from(), it.size(), answer);
    }

    /** The length of the line of a name and bytes, which goes into the room with a zero after it, or as much as fits. */
    static int line(byte[] name, Bytes it, byte[] room) {
        return line(name, it.array(), it.direct(), it.from(), it.size(), room);
    }

    /** The row that the bytes have, or -1. What decides it goes into the ranges, four numbers each, and the needs. */
    static int evidence(Bytes it, boolean more, long[] ranges, long[] needs) {
        return evidence(it.array(), it.direct(), it.from(), it.size(), more, ranges, needs);
    }

    /** The type that a browser computes, as the bytes of a header, or no bytes. */
    static byte[] mimeCompute(byte[] contentType, int flags, int context, Bytes it) {
        return mimeCompute(contentType, flags, context, it.array(), it.direct(), it.from(), it.size());
    }

    static boolean mimeIsDecided(byte[] contentType, int flags, Bytes it) {
        return mimeIsDecided(contentType, flags, it.array(), it.direct(), it.from(), it.size());
    }

    static boolean mimeMayBeScriptable(Bytes it) {
        return mimeMayBeScriptable(it.array(), it.direct(), it.from(), it.size());
    }

    private static native byte[] mimeCompute(byte[] contentType, int flags, int context, byte[] array, ByteBuffer direct, int from, int size);

    private static native boolean mimeIsDecided(byte[] contentType, int flags, byte[] array, ByteBuffer direct, int from, int size);

    private static native boolean mimeMayBeScriptable(byte[] array, ByteBuffer direct, int from, int size);

    private static native int evidence(byte[] array, ByteBuffer direct, int from, int size, boolean more, long[] ranges, long[] needs);

    private static native int position(byte[] array, ByteBuffer direct, int from, int size);

    private static native int morePosition(byte[] array, ByteBuffer direct, int from, int size);

    private static native boolean isDecided(byte[] array, ByteBuffer direct, int from, int size);

    private static native boolean moreIsDecided(byte[] array, ByteBuffer direct, int from, int size);

    private static native String encoding(byte[] array, ByteBuffer direct, int from, int size);

    private static native int typesGet(byte[] text, byte[] array, ByteBuffer direct, int from, int size, byte[] mimeType, byte[] extension);

    private static native void named(byte[] name, byte[] array, ByteBuffer direct, int from, int size, byte[] answer);

    private static native int line(byte[] name, byte[] array, ByteBuffer direct, int from, int size, byte[] room);

    /** What is odd about a name: the sum of the bits of Oddity. */
    static native int oddities(byte[] name);

    /** What is wrong with a text of types, or the empty text. The line and the column go into the place. */
    static native String typesMistake(byte[] text, long[] place);

    /** The MIME type of a text as the bytes of a header, or no bytes. */
    static native byte[] mimeParse(byte[] text);

    static native byte[] mimeExtract(byte[] values);

    /** The sum of the bits of MimeSniff.Group. */
    static native int mimeGroups(byte[] text);

    static native boolean mimeIsNosniff(byte[] value);

    static native boolean mimeIsBlocked(byte[] value, int destination);

    static native boolean mimeIsOldServer(byte[] value);

    static native int rowCount();

    static native int moreRowCount();

    static native int classCode(int row);

    static native String mimeType(int row);

    static native String extension(int row);

    static native String className(int classCode);

    static native String version();
}
