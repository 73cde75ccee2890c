package io.zellunkay;

/** Why a call is refused, as the header zellunkay.h has it. */
public enum Status {
    BAD_SIZES(1),
    BAD_CAPACITY(2),
    BAD_LIMIT(3),
    NO_MEMORY(4),
    BOOK_FULL(5),
    UNKNOWN_TASK(6),
    UNKNOWN_SLOT(7),
    NOT_THERE(8),
    NOT_FUTURE(9),
    CLOCK_BACK(10),
    KEEP_ZERO(11),
    TORN_RECORD(22),
    BAD_LINE(23),
    BAD_ENTRY(24),
    READ_FAILED(25),
    FLAW(32),
    TOO_SMALL(33),
    WRONG_KIND(34),
    WRONG_ASK(35),
    NULL(36),
    TOO_MANY(37);

    private final int number;

    Status(int number) {
        this.number = number;
    }

    /** Its number, which a {@link Told} has too. */
    public int number() {
        return number;
    }

    static Status of(int number) {
        for (Status status : values()) {
            if (status.number == number) {
                return status;
            }
        }
        throw new IllegalArgumentException("no status has the number " + number);
    }
}
