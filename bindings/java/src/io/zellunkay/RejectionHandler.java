package io.zellunkay;

/** Is asked what becomes of a task that a pool cannot take. The policies of {@link Verdict} are such handlers. */
@FunctionalInterface
public interface RejectionHandler {
    /**
     * The verdict, by the submitter's thread, which holds no lock. What it throws, the submission throws, and the task is rejected.
     */
    Verdict verdict(Runnable task, RecordedThreadPoolExecutor pool);
}
