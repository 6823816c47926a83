package dev.hoarvelt.infer;

import java.io.IOException;
import java.io.InputStream;
import java.io.OutputStream;
import java.nio.file.Files;
import java.nio.file.Path;
import java.util.Locale;

/** Loads the library: the file that a property names, or that of the jar for this platform. */
final class Loader {
    private static final String PROPERTY = "dev.hoarvelt.infer.library";
    private static final int STICKY = 01000;
    private static final int OTHERS_WRITE = 02;

    private Loader() {}

    static void load() {
        String path = System.getProperty(PROPERTY);
        if (path != null) {
            System.load(path);
            return;
        }
        String name = "native/" + platform() + "/" + System.mapLibraryName("infer_jni");
        try (InputStream in = Loader.class.getResourceAsStream(name)) {
            if (in == null) {
                throw new UnsatisfiedLinkError("the jar has no " + name + ": the property " + PROPERTY + " can name a library");
            }
            loadCopy(in);
        } catch (IOException fault) {
            throw (Error) new UnsatisfiedLinkError("no copy of " + name + ": the property " + PROPERTY + " can name a library").initCause(fault);
        }
    }

    private static String platform() {
        String system = System.getProperty("os.name").toLowerCase(Locale.ROOT);
        String machine = System.getProperty("os.arch");
        return (system.startsWith("windows") ? "windows" : system.startsWith("mac") ? "macos" : system) + "-" + (machine.equals("amd64") ? "x86_64" : machine);
    }

    /** Loads a copy that its owner alone reads and writes, and takes it away: a library stays once it is loaded. */
    private static void loadCopy(InputStream in) throws IOException {
        refuseOpenFolder(Path.of(System.getProperty("java.io.tmpdir")));
        Path copy = Files.createTempFile("infer", System.mapLibraryName("_jni"));
        try {
            // Into the file that is there: a new one would have the mode that the umask gives.
            try (OutputStream out = Files.newOutputStream(copy)) {
                in.transferTo(out);
            }
            loadFrom(copy);
        } finally {
            // Windows keeps a file that is loaded.
            if (!copy.toFile().delete()) {
                copy.toFile().deleteOnExit();
            }
        }
    }

    private static void loadFrom(Path copy) {
        try {
            System.load(copy.toString());
        } catch (UnsatisfiedLinkError fault) {
            String why = fault.getMessage() + ": java.io.tmpdir may be mounted noexec, and the property " + PROPERTY + " can name a library";
            throw (Error) new UnsatisfiedLinkError(why).initCause(fault);
        }
    }

    /** In a folder where all may write, and no sticky bit says that they may take away only what is theirs, another could replace the copy. */
    private static void refuseOpenFolder(Path folder) throws IOException {
        if (folder.getFileSystem().supportedFileAttributeViews().contains("unix")) {
            int mode = (int) Files.getAttribute(folder, "unix:mode");
            if ((mode & (STICKY | OTHERS_WRITE)) == OTHERS_WRITE) {
                throw new IOException("any user can replace files in " + folder);
            }
        }
    }
}
