package dev.hoarvelt.infer;

import java.nio.ByteBuffer;

/** Bytes that a call of the library looks at: a range of an array, or else all of a direct buffer. */
record Bytes(byte[] array, ByteBuffer direct, int from, int size) {
    static Bytes of(byte[] bytes) {
        return new Bytes(bytes, null, 0, bytes.length);
    }

    /** Those between the position and the limit. */
    static Bytes of(ByteBuffer buffer) {
        // Of a view of one's own nobody else moves the position or the limit.
        ByteBuffer own = buffer.slice();
        if (own.hasArray()) {
            return new Bytes(own.array(), null, own.arrayOffset(), own.capacity());
        }
        if (own.isDirect()) {
            return new Bytes(null, own, 0, own.capacity());
        }
        // A buffer that is only to be read does not give its array.
        byte[] copy = new byte[own.capacity()];
        own.get(copy);
        return of(copy);
    }
}
