package dev.hoarvelt.infer;

import static java.lang.foreign.ValueLayout.ADDRESS;
import static java.lang.foreign.ValueLayout.JAVA_BOOLEAN;
import static java.lang.foreign.ValueLayout.JAVA_INT;
import static java.lang.foreign.ValueLayout.JAVA_LONG;

import java.lang.foreign.FunctionDescriptor;
import java.lang.foreign.Linker;
import java.lang.foreign.MemoryLayout;
import java.lang.foreign.MemorySegment;
import java.lang.foreign.SymbolLookup;
import java.lang.invoke.MethodHandle;
import java.nio.charset.StandardCharsets;
import java.util.Arrays;

/**
 * The calls of the C library, whose header infer.h says what each answers. Here they go by java.lang.foreign, past
 * infer_jni.c. The class of this name in src stands in its place before Java 22.
 */
final class Library {
    /** Room for each text of a type of one's own, with its zero, and so for any text. */
    static final int TEXT_SIZE = 256;

    /** Room for a MIME type with all its parameters: INFER_MIME_SIZE. */
    private static final int MIME_SIZE = 4096;

    static {
        Loader.load();
    }

    private static final MethodHandle POSITION = handle("infer_position", JAVA_INT, ADDRESS, JAVA_LONG);
    private static final MethodHandle MORE_POSITION = handle("infer_more_position", JAVA_INT, ADDRESS, JAVA_LONG);
    private static final MethodHandle IS_DECIDED = handle("infer_is_decided", JAVA_BOOLEAN, ADDRESS, JAVA_LONG);
    private static final MethodHandle MORE_IS_DECIDED = handle("infer_more_is_decided", JAVA_BOOLEAN, ADDRESS, JAVA_LONG);
    private static final MethodHandle ENCODING = handle("infer_encoding", JAVA_LONG, ADDRESS, JAVA_LONG, ADDRESS, JAVA_LONG);
    private static final MethodHandle TYPES_GET =
        handle("infer_types_get", JAVA_INT, ADDRESS, JAVA_LONG, ADDRESS, JAVA_LONG, ADDRESS, JAVA_LONG, ADDRESS, JAVA_LONG);
    private static final MethodHandle LINE = critical("infer_label_write", FunctionDescriptor.of(JAVA_LONG, ADDRESS, JAVA_LONG, ADDRESS, JAVA_LONG,
        JAVA_INT, JAVA_INT, JAVA_INT, ADDRESS, JAVA_LONG, ADDRESS, JAVA_LONG, JAVA_LONG, ADDRESS, ADDRESS, ADDRESS, JAVA_LONG));
    private static final MethodHandle NAMED = critical("infer_named", FunctionDescriptor.ofVoid(ADDRESS, JAVA_LONG, ADDRESS, JAVA_LONG, ADDRESS));
    private static final MethodHandle EVIDENCE = handle("infer_evidence", JAVA_INT, ADDRESS, JAVA_LONG, ADDRESS, JAVA_LONG, ADDRESS);
    private static final MethodHandle MORE_EVIDENCE = handle("infer_more_evidence", JAVA_INT, ADDRESS, JAVA_LONG, ADDRESS, JAVA_LONG, ADDRESS);
    private static final MethodHandle ODDITIES = handle("infer_oddities", JAVA_INT, ADDRESS, JAVA_LONG);
    private static final MethodHandle TYPES_CHECK = handle("infer_types_check", JAVA_LONG, ADDRESS, JAVA_LONG, ADDRESS, ADDRESS, ADDRESS, JAVA_LONG);
    private static final MethodHandle MIME_PARSE = handle("infer_mime_parse", JAVA_LONG, ADDRESS, JAVA_LONG, ADDRESS, JAVA_LONG);
    private static final MethodHandle MIME_EXTRACT = handle("infer_mime_extract", JAVA_LONG, ADDRESS, JAVA_LONG, ADDRESS, JAVA_LONG);
    private static final MethodHandle MIME_COMPUTE =
        handle("infer_mime_compute", JAVA_LONG, ADDRESS, JAVA_LONG, JAVA_INT, JAVA_INT, ADDRESS, JAVA_LONG, ADDRESS, JAVA_LONG);
    private static final MethodHandle MIME_IS_DECIDED = handle("infer_mime_is_decided", JAVA_BOOLEAN, ADDRESS, JAVA_LONG, JAVA_INT, ADDRESS, JAVA_LONG);
    private static final MethodHandle MIME_MAY_BE_SCRIPTABLE = handle("infer_mime_may_be_scriptable", JAVA_BOOLEAN, ADDRESS, JAVA_LONG);
    private static final MethodHandle MIME_GROUPS = handle("infer_mime_groups", JAVA_INT, ADDRESS, JAVA_LONG);
    private static final MethodHandle MIME_IS_NOSNIFF = handle("infer_mime_is_nosniff", JAVA_BOOLEAN, ADDRESS, JAVA_LONG);
    private static final MethodHandle MIME_IS_BLOCKED = handle("infer_mime_is_blocked", JAVA_BOOLEAN, ADDRESS, JAVA_LONG, JAVA_INT);
    private static final MethodHandle MIME_IS_OLD_SERVER = handle("infer_mime_is_old_server", JAVA_BOOLEAN, ADDRESS, JAVA_LONG);
    private static final MethodHandle ROW_COUNT = handle("infer_row_count", JAVA_LONG);
    private static final MethodHandle MORE_ROW_COUNT = handle("infer_more_row_count", JAVA_LONG);
    private static final MethodHandle CLASS = handle("infer_class", JAVA_INT, JAVA_INT);
    private static final MethodHandle MIME_TYPE = handle("infer_mime_type", JAVA_LONG, JAVA_INT, ADDRESS, JAVA_LONG);
    private static final MethodHandle EXTENSION = handle("infer_extension", JAVA_LONG, JAVA_INT, ADDRESS, JAVA_LONG);
    private static final MethodHandle CLASS_NAME = handle("infer_class_name", JAVA_LONG, JAVA_INT, ADDRESS, JAVA_LONG);
    private static final MethodHandle VERSION = handle("infer_version", JAVA_LONG, ADDRESS, JAVA_LONG);

    private Library() {}

    /** A call of the library. It never waits, so it may look at an array where that stands. */
    private static MethodHandle critical(String name, FunctionDescriptor types) {
        MemorySegment at = SymbolLookup.loaderLookup().find(name).orElseThrow(() -> new UnsatisfiedLinkError("the library has no " + name));
        return Linker.nativeLinker().downcallHandle(at, types, Linker.Option.critical(true));
    }

    private static MethodHandle handle(String name, MemoryLayout result, MemoryLayout... arguments) {
        return critical(name, FunctionDescriptor.of(result, arguments));
    }

    private static MemorySegment segment(Bytes it) {
        return it.array() == null ? MemorySegment.ofBuffer(it.direct()) : MemorySegment.ofArray(it.array()).asSlice(it.from(), it.size());
    }

    private static String told(byte[] room, long size) {
        return new String(room, 0, (int) size, StandardCharsets.US_ASCII);
    }

    /** What a call throws that throws nothing of its own: that memory is refused, or that another thread frees the bytes. */
    private static RuntimeException thrown(Throwable fault) {
        if (fault instanceof Error error) {
            throw error;
        }
        return fault instanceof RuntimeException exception ? exception : new IllegalStateException(fault);
    }

    static int position(Bytes it) {
        try {
            return (int) POSITION.invokeExact(segment(it), (long) it.size());
        } catch (Throwable fault) {
            throw thrown(fault);
        }
    }

    static int morePosition(Bytes it) {
        try {
            return (int) MORE_POSITION.invokeExact(segment(it), (long) it.size());
        } catch (Throwable fault) {
            throw thrown(fault);
        }
    }

    static boolean isDecided(Bytes it) {
        try {
            return (boolean) IS_DECIDED.invokeExact(segment(it), (long) it.size());
        } catch (Throwable fault) {
            throw thrown(fault);
        }
    }

    static boolean moreIsDecided(Bytes it) {
        try {
            return (boolean) MORE_IS_DECIDED.invokeExact(segment(it), (long) it.size());
        } catch (Throwable fault) {
            throw thrown(fault);
        }
    }

    /** The name of the encoding, or the empty text. */
    static String encoding(Bytes it) {
        byte[] out = new byte[TEXT_SIZE];
        try {
            return told(out, (long) ENCODING.invokeExact(segment(it), (long) it.size(), MemorySegment.ofArray(out), (long) TEXT_SIZE));
        } catch (Throwable fault) {
            throw thrown(fault);
        }
    }

    /** The code of the class, or -1. Both texts get a zero after them. */
    static int typesGet(byte[] text, Bytes it, byte[] mimeType, byte[] extension) {
        MemorySegment types = MemorySegment.ofArray(text);
        MemorySegment mimeTypeOut = MemorySegment.ofArray(mimeType);
        MemorySegment extensionOut = MemorySegment.ofArray(extension);
        try {
            return (int) TYPES_GET.invokeExact(
                types, (long) text.length, segment(it), (long) it.size(), mimeTypeOut, (long) TEXT_SIZE, extensionOut, (long) TEXT_SIZE);
        } catch (Throwable fault) {
            throw thrown(fault);
        }
    }

    /** What a name and bytes tell, into the answer, which has {@link Named#SIZE} bytes. */
    static void named(byte[] name, Bytes it, byte[] answer) {
        try {
            NAMED.invokeExact(MemorySegment.ofArray(name), (long) name.length, segment(it), (long) it.size(), MemorySegment.ofArray(answer));
        } catch (Throwable fault) {
            throw thrown(fault);
        }
    }

    /**
     * The row that the bytes have, or -1. What decides it goes into the ranges, four numbers each, and the needs. The last
     * number of each is shorter in C, where it stands in the bytes that come first.
     */
    static int evidence(Bytes it, boolean more, long[] ranges, long[] needs) {
        MethodHandle call = more ? MORE_EVIDENCE : EVIDENCE;
        try {
            return (int) call.invokeExact(segment(it), (long) it.size(), MemorySegment.ofArray(ranges), (long) ranges.length / 4, MemorySegment.ofArray(needs));
        } catch (Throwable fault) {
            throw thrown(fault);
        }
    }

    /** The length of the line of a name and bytes, which goes into the room with a zero after it, or as much as fits. */
    static int line(byte[] name, Bytes it, byte[] room) {
        MemorySegment none = MemorySegment.ofArray(new byte[0]);
        MemorySegment told = MemorySegment.ofArray(new int[2]);
        MemorySegment known = told.asSlice(JAVA_INT.byteSize());
        try {
            return (int) (long) LINE.invokeExact(
                MemorySegment.ofArray(name), (long) name.length, segment(it), (long) it.size(), 0, 0, 0,
                none, 0L, none, 0L, 0L, told, known, MemorySegment.ofArray(room), (long) room.length);
        } catch (Throwable fault) {
            throw thrown(fault);
        }
    }

    /** What is odd about a name: the sum of the bits of Oddity. */
    static int oddities(byte[] name) {
        try {
            return (int) ODDITIES.invokeExact(MemorySegment.ofArray(name), (long) name.length);
        } catch (Throwable fault) {
            throw thrown(fault);
        }
    }

    /** What is wrong with a text of types, or the empty text. The line and the column go into the place. */
    static String typesMistake(byte[] text, long[] place) {
        byte[] out = new byte[TEXT_SIZE];
        MemorySegment line = MemorySegment.ofArray(place);
        MemorySegment column = line.asSlice(JAVA_LONG.byteSize());
        try {
            return told(out, (long) TYPES_CHECK.invokeExact(
                MemorySegment.ofArray(text), (long) text.length, line, column, MemorySegment.ofArray(out), (long) TEXT_SIZE));
        } catch (Throwable fault) {
            throw thrown(fault);
        }
    }

    private static byte[] mime(MethodHandle call, byte[] text) {
        byte[] out = new byte[MIME_SIZE];
        try {
            long size = (long) call.invokeExact(MemorySegment.ofArray(text), (long) text.length, MemorySegment.ofArray(out), (long) MIME_SIZE);
            return Arrays.copyOf(out, (int) size);
        } catch (Throwable fault) {
            throw thrown(fault);
        }
    }

    /** The MIME type of a text as the bytes of a header, or no bytes. */
    static byte[] mimeParse(byte[] text) {
        return mime(MIME_PARSE, text);
    }

    static byte[] mimeExtract(byte[] values) {
        return mime(MIME_EXTRACT, values);
    }

    /** The type that a browser computes, as the bytes of a header, or no bytes. */
    static byte[] mimeCompute(byte[] contentType, int flags, int context, Bytes it) {
        byte[] out = new byte[MIME_SIZE];
        try {
            long size = (long) MIME_COMPUTE.invokeExact(
                MemorySegment.ofArray(contentType), (long) contentType.length, flags, context, segment(it), (long) it.size(),
                MemorySegment.ofArray(out), (long) MIME_SIZE);
            return Arrays.copyOf(out, (int) size);
        } catch (Throwable fault) {
            throw thrown(fault);
        }
    }

    static boolean mimeIsDecided(byte[] contentType, int flags, Bytes it) {
        try {
            return (boolean) MIME_IS_DECIDED.invokeExact(MemorySegment.ofArray(contentType), (long) contentType.length, flags, segment(it), (long) it.size());
        } catch (Throwable fault) {
            throw thrown(fault);
        }
    }

    static boolean mimeMayBeScriptable(Bytes it) {
        try {
            return (boolean) MIME_MAY_BE_SCRIPTABLE.invokeExact(segment(it), (long) it.size());
        } catch (Throwable fault) {
            throw thrown(fault);
        }
    }

    /** The sum of the bits of MimeSniff.Group. */
    static int mimeGroups(byte[] text) {
        try {
            return (int) MIME_GROUPS.invokeExact(MemorySegment.ofArray(text), (long) text.length);
        } catch (Throwable fault) {
            throw thrown(fault);
        }
    }

    private static boolean is(MethodHandle call, byte[] value) {
        try {
            return (boolean) call.invokeExact(MemorySegment.ofArray(value), (long) value.length);
        } catch (Throwable fault) {
            throw thrown(fault);
        }
    }

    static boolean mimeIsNosniff(byte[] value) {
        return is(MIME_IS_NOSNIFF, value);
    }

    static boolean mimeIsBlocked(byte[] value, int destination) {
        try {
            return (boolean) MIME_IS_BLOCKED.invokeExact(MemorySegment.ofArray(value), (long) value.length, destination);
        } catch (Throwable fault) {
            throw thrown(fault);
        }
    }

    static boolean mimeIsOldServer(byte[] value) {
        return is(MIME_IS_OLD_SERVER, value);
    }

    static int rowCount() {
        try {
            return (int) (long) ROW_COUNT.invokeExact();
        } catch (Throwable fault) {
            throw thrown(fault);
        }
    }

    static int moreRowCount() {
        try {
            return (int) (long) MORE_ROW_COUNT.invokeExact();
        } catch (Throwable fault) {
            throw thrown(fault);
        }
    }

    static int classCode(int row) {
        try {
            return (int) CLASS.invokeExact(row);
        } catch (Throwable fault) {
            throw thrown(fault);
        }
    }

    private static String text(MethodHandle call, int number) {
        byte[] out = new byte[TEXT_SIZE];
        try {
            return told(out, (long) call.invokeExact(number, MemorySegment.ofArray(out), (long) TEXT_SIZE));
        } catch (Throwable fault) {
            throw thrown(fault);
        }
    }

    static String mimeType(int row) {
        return text(MIME_TYPE, row);
    }

    static String extension(int row) {
        return text(EXTENSION, row);
    }

    static String className(int classCode) {
        return text(CLASS_NAME, classCode);
    }

    static String version() {
        byte[] out = new byte[TEXT_SIZE];
        try {
            return told(out, (long) VERSION.invokeExact(MemorySegment.ofArray(out), (long) TEXT_SIZE));
        } catch (Throwable fault) {
            throw thrown(fault);
        }
    }
}
