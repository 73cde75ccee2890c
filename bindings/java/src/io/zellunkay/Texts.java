package io.zellunkay;

import java.nio.charset.StandardCharsets;

/** Texts of records and scenarios: each call keeps nothing, and any thread may make it at any time. */
public final class Texts {
    private Texts() {
    }

    /** Judges the text of a record, as {@code poolrun audit} does. */
    public static Told audit(String record) {
        return told(0, record, 0);
    }

    /** Plays a scenario, as {@code poolrun steps} does. */
    public static Told steps(String scenario) {
        return told(1, scenario, 0);
    }

    /** To what all interleavings of a text's callers lead. The status is 37 where more than {@code most} states are reached. */
    public static Told explore(String callers, long most) {
        if (most < 0) {
            throw new IllegalArgumentException("most is " + most + ": it is at least 0");
        }
        return told(2, callers, most);
    }

    /** What the pool was like after the entry of this number of its record, 0 for the new pool. */
    public static Told now(String record, long entry) {
        if (entry < 0) {
            throw new IllegalArgumentException("entry is " + entry + ": it is at least 0");
        }
        return told(3, record, entry);
    }

    /** What the pool was like after the last entry of its record. */
    public static Told now(String record) {
        return told(3, record, -1);
    }

    private static Told told(int kind, String text, long number) {
        int[] status = new int[1];
        byte[] output = Core.text(kind, text.getBytes(StandardCharsets.UTF_8), number, status);
        return new Told(new String(output, StandardCharsets.UTF_8), status[0]);
    }
}
