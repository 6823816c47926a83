package dev.hoarvelt.infer;

/**
 * A type of files. Later versions keep the meaning of a MIME type and of an extension, so store these.
 *
 * @param mimeType the MIME type, such as "image/jpeg"
 * @param extension the usual extension, without a dot
 * @param group the class: "app", "archive", "audio", "book", "doc", "font", "image", "text", "video", or a later one
 */
public record Type(String mimeType, String extension, String group) {}
