/** The type of a file, from its first bytes. */
module dev.hoarvelt.infer {
    exports dev.hoarvelt.infer;

    provides java.nio.file.spi.FileTypeDetector with dev.hoarvelt.infer.InferFileTypeDetector;
}
