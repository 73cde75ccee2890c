package io.zellunkay;

/** A call of the library was refused, and has changed nothing. The page TROUBLE.md has each number, with what to do. */
public final class Refused extends RuntimeException {
    private static final long serialVersionUID = 1;

    private final Status status;

    Refused(Status status) {
        super("refused " + status.number() + " " + status + ": " + Core.reason(status.number()));
        this.status = status;
    }

    /** Why. */
    public Status status() {
        return status;
    }

    static void unlessDone(int number) {
        if (number != 0) {
            throw new Refused(Status.of(number));
        }
    }
}
