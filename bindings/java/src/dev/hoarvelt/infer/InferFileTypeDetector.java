package dev.hoarvelt.infer;

import java.io.IOException;
import java.lang.System.Logger.Level;
import java.nio.file.Path;
import java.nio.file.spi.FileTypeDetector;
import java.util.concurrent.atomic.AtomicBoolean;

/**
 * Has {@link java.nio.file.Files#probeContentType} answer by a file's bytes, where it is on the class path or the module
 * path. What they do not tell is left to the Java runtime, which goes by the name.
 */
public final class InferFileTypeDetector extends FileTypeDetector {
    private static final AtomicBoolean WARNED = new AtomicBoolean();

    /** For the runtime, which makes one. */
    public InferFileTypeDetector() {}

    /** {@return the MIME type of the wider answer} It is null for plain text too, since a name says of what kind a text is. */
    @Override
    public String probeContentType(Path path) {
        try {
            return Infer.getMore(path).map(Type::mimeType).filter(mimeType -> !mimeType.equals("text/plain")).orElse(null);
        } catch (IOException fault) {
            // A file that is closed to us has a name all the same.
            return null;
        } catch (LinkageError fault) {
            if (WARNED.compareAndSet(false, true)) {
                System.getLogger(InferFileTypeDetector.class.getName()).log(Level.WARNING, "the types of files are told by their names alone: the library is not loaded", fault);
            }
            return null;
        }
    }
}
