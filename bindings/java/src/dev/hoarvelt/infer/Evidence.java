package dev.hoarvelt.infer;

import java.util.List;
import java.util.Optional;
import java.util.stream.IntStream;

/**
 * What decides an answer: all bytes that have these in the same places, and such a length, have it too.
 *
 * @param type the answer
 * @param ranges which bytes
 * @param wanted how many ranges are wanted. If there are fewer, they are not enough
 * @param least the least length that is needed
 * @param isExact whether just the length that there is is needed
 */
public record Evidence(Optional<Type> type, List<Range> ranges, int wanted, int least, boolean isExact) {
    private static final int MOST = 80;

    static Evidence of(Bytes bytes, boolean more) {
        long[] numbers = new long[4 * MOST];
        long[] needs = new long[3];
        int row = Library.evidence(bytes, more, numbers, needs);
        int builtIn = more ? Library.position(bytes) : row;
        List<Range> ranges = IntStream.range(0, (int) Math.min(MOST, needs[0])).mapToObj(i -> range(numbers, 4 * i, row, builtIn)).toList();
        return new Evidence(Infer.answer(row), ranges, (int) needs[0], (int) needs[1], (needs[2] & 0xFF) != 0);
    }

    private static Range range(long[] numbers, int at, int row, int builtIn) {
        int of = (int) numbers[at + 3];
        return new Range((int) numbers[at], (int) numbers[at + 1], (int) numbers[at + 2], Infer.answer(of), of >= 0 && (of == row || of == builtIn));
    }
}
