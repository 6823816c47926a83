package dev.hoarvelt.infer;

import java.io.IOException;
import java.io.InputStream;
import java.nio.file.FileSystemException;
import java.nio.file.Files;
import java.nio.file.Path;
import java.nio.file.attribute.BasicFileAttributes;
import java.util.Arrays;

/** The first bytes of a stream or a file. */
final class Front {
    private Front() {}

    /** Those of a stream, which stands afterwards where it stood before, however the reading ends. */
    static Bytes of(InputStream in) throws IOException {
        if (!in.markSupported()) {
            throw new IllegalArgumentException("the stream cannot go back: put a BufferedInputStream around it");
        }
        in.mark(Infer.FRONT);
        byte[] front;
        try {
            front = read(in);
        } catch (Throwable fault) {
            resetAfter(in, fault);
            throw fault;
        }
        in.reset();
        return Bytes.of(front);
    }

    private static void resetAfter(InputStream in, Throwable fault) {
        try {
            in.reset();
        } catch (IOException other) {
            fault.addSuppressed(other);
        }
    }

    /** Those of a regular file. No other is opened, so that no pipe is waited for and no device does anything. */
    static Bytes of(Path path) throws IOException {
        refuseUnlessRegular(path);
        try (InputStream in = Files.newInputStream(path)) {
            return Bytes.of(read(in));
        }
    }

    static void refuseUnlessRegular(Path path) throws IOException {
        if (!Files.readAttributes(path, BasicFileAttributes.class).isRegularFile()) {
            throw new FileSystemException(path.toString(), null, "not a regular file");
        }
    }

    private static byte[] read(InputStream in) throws IOException {
        byte[] front = new byte[Infer.FRONT];
        int count = 0;
        while (count < front.length) {
            int given = in.read(front, count, front.length - count);
            if (given == -1) {
                break;
            }
            // Such a stream would be asked for ever, or have the library look elsewhere.
            if (given <= 0 || given > front.length - count) {
                throw new IOException("the stream says that it gave " + given + " bytes of " + (front.length - count));
            }
            count += given;
        }
        return Arrays.copyOf(front, count);
    }
}
