package io.zellunkay;

/**
 * What came of a text.
 *
 * @param output what {@code poolrun} writes of it
 * @param status 0 where all is well, 32 for a flaw, or the number of a refusal
 */
public record Told(String output, int status) {
}
