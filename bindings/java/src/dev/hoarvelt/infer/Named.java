package dev.hoarvelt.infer;

import java.nio.ByteBuffer;
import java.nio.ByteOrder;
import java.nio.charset.StandardCharsets;
import java.util.Optional;

/**
 * What a name and bytes tell.
 *
 * @param standing what the name did
 * @param type the type, if one is told
 * @param typeOfName the type that the name has first, whatever the bytes are
 * @param typeOfBytes the wider answer, which the bytes have whatever the name is
 */
public record Named(Standing standing, Optional<NamedType> type, Optional<NamedType> typeOfName, Optional<Type> typeOfBytes) {
    /** How many bytes the structure of the library has: two numbers, and two types of two texts and a byte. */
    static final int SIZE = 308;

    private static final int TEXT_SIZE = 74;
    private static final int TOLD = 2 * Integer.BYTES;
    private static final int NAME = TOLD + 2 * TEXT_SIZE + 1;
    private static final Standing[] STANDINGS = Standing.values();

    private static String text(byte[] answer, int from) {
        int end = from;
        while (answer[end] != 0) {
            end++;
        }
        return new String(answer, from, end - from, StandardCharsets.US_ASCII);
    }

    private static Optional<NamedType> typeAt(byte[] answer, int from) {
        String mimeType = text(answer, from);
        String extension = text(answer, from + TEXT_SIZE);
        boolean isOwnName = answer[from + 2 * TEXT_SIZE] != 0;
        return mimeType.isEmpty()
            ? Optional.empty()
            : Optional.of(new NamedType(mimeType, Optional.of(extension).filter(it -> !it.isEmpty()), isOwnName));
    }

    static Named of(byte[] answer) {
        ByteBuffer numbers = ByteBuffer.wrap(answer).order(ByteOrder.nativeOrder());
        return new Named(STANDINGS[numbers.getInt()], typeAt(answer, TOLD), typeAt(answer, NAME), Infer.answer(numbers.getInt()));
    }
}
