package dev.hoarvelt.infer;

import java.util.Optional;

/**
 * Bytes that decide an answer.
 *
 * @param place where the first of them stands
 * @param length how many they are
 * @param step how far each other is behind the one before: 1 but for a search
 * @param type the type of which they tell. It is empty for the first byte, which rules out all types that begin with another
 * @param accepts whether the type is the answer, or the built-in one that it makes more exact. Otherwise they rule it out
 */
public record Range(int place, int length, int step, Optional<Type> type, boolean accepts) {}
