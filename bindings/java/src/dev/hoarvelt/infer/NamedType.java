package dev.hoarvelt.infer;

import java.util.Optional;

/**
 * A type that {@link Infer#named(String, byte[])} tells.
 *
 * @param mimeType its MIME type
 * @param extension its usual extension, without a dot, and empty if only names tell of the type
 * @param isOwnName whether nobody else names it, so that it tells files apart and is not to be sent
 */
public record NamedType(String mimeType, Optional<String> extension, boolean isOwnName) {}
