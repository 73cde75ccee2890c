package io.zellunkay;

/** What becomes of a task that a pool cannot take. Each is a handler that says so of every task. */
public enum Verdict implements RejectionHandler {
    /** The submission throws a RejectedExecutionException, as {@code ThreadPoolExecutor.AbortPolicy}. */
    ABORT("abort"),
    /** Its submitter runs it, as {@code CallerRunsPolicy}; it is discarded once the pool is shut down. */
    CALLER_RUNS("callerruns"),
    /** It is dropped, as {@code DiscardPolicy}. A future of it is cancelled. */
    DISCARD("discard"),
    /** The queue's head is dropped and the task tries again, as {@code DiscardOldestPolicy}. A future of the head is cancelled. */
    DISCARD_OLDEST("discardoldest");

    /** The word of a pool line. */
    final String word;

    Verdict(String word) {
        this.word = word;
    }

    @Override
    public Verdict verdict(Runnable task, RecordedThreadPoolExecutor pool) {
        return this;
    }
}
