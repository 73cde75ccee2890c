package io.zellunkay;

import java.util.Queue;
import java.util.concurrent.Callable;
import java.util.concurrent.FutureTask;

/** A future whose cancelling and whose end the machine hears of first, so that its record says what the future says. */
final class RecordedFuture<T> extends FutureTask<T> {
    /** Where the task is, as its future sees it. */
    enum Stage {
        /** It was not submitted. */
        NEW,
        /** The pool has it, and no thread has begun it. */
        WAITING,
        /** A worker or its submitter runs it. */
        RUNNING,
        /** The pool has it no more. */
        OUT
    }

    private final RecordedThreadPoolExecutor pool;
    private final Queue<RecordedFuture<T>> completions;

    /** Guarded by the pool's lock, as what follows. */
    Stage stage = Stage.NEW;

    int task;

    /** The number of the worker's pass, and its slot; or a slot below 0 for its submitter. */
    int by;

    long slot;

    RecordedFuture(RecordedThreadPoolExecutor pool, Callable<T> body, Queue<RecordedFuture<T>> completions) {
        super(body);
        this.pool = pool;
        this.completions = completions;
    }

    boolean isOf(RecordedThreadPoolExecutor other) {
        return pool == other;
    }

    @Override
    public boolean cancel(boolean mayInterruptIfRunning) {
        return pool.cancel(this, mayInterruptIfRunning);
    }

    /** Cancels the future alone. */
    boolean cancelAlone(boolean mayInterruptIfRunning) {
        return super.cancel(mayInterruptIfRunning);
    }

    @Override
    protected void set(T value) {
        pool.end(this, false, () -> super.set(value));
    }

    @Override
    protected void setException(Throwable fault) {
        pool.end(this, true, () -> super.setException(fault));
    }

    /** The body never began, for this reason. */
    void fail(Throwable fault) {
        setException(fault);
    }

    @Override
    protected void done() {
        if (completions != null) {
            completions.add(this);
        }
    }
}
