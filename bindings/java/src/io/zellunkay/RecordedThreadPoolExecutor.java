package io.zellunkay;

import io.zellunkay.Core.Ask;
import io.zellunkay.Core.What;
import io.zellunkay.RecordedFuture.Stage;
import java.lang.ref.Cleaner;
import java.nio.charset.StandardCharsets;
import java.util.ArrayDeque;
import java.util.ArrayList;
import java.util.Collection;
import java.util.HashMap;
import java.util.Iterator;
import java.util.LinkedHashMap;
import java.util.List;
import java.util.Map;
import java.util.Objects;
import java.util.concurrent.AbstractExecutorService;
import java.util.concurrent.BlockingQueue;
import java.util.concurrent.Callable;
import java.util.concurrent.ExecutionException;
import java.util.concurrent.Executors;
import java.util.concurrent.LinkedBlockingQueue;
import java.util.concurrent.RejectedExecutionException;
import java.util.concurrent.RunnableFuture;
import java.util.concurrent.ThreadFactory;
import java.util.concurrent.TimeUnit;
import java.util.concurrent.TimeoutException;
import java.util.concurrent.locks.Condition;
import java.util.concurrent.locks.ReentrantLock;

/**
 * A pool as {@link java.util.concurrent.ThreadPoolExecutor}, each of whose decisions is one step of a proved machine, made under one lock.
 *
 * <p>The threads, the lock and the wakes are Java's; which task is run, queued, refused or dropped, when a worker is made, and when one
 * leaves, the machine answers. The steps are the record. So what is proved of a record holds of it: see docs/bindings/JAVA.md.
 *
 * <p>Its calls are those of {@code ThreadPoolExecutor}, which the pages of the JDK describe; each call below says where it differs.
 */
public class RecordedThreadPoolExecutor extends AbstractExecutorService implements AutoCloseable {
    /** A queue that always has room. */
    public static final int UNBOUNDED = Integer.MAX_VALUE;

    /** A queue with no places: a task goes to a worker that waits, or to a new one. */
    public static final int HANDOFF = 0;

    /** The largest record, in entries. A task needs 6 as a rule. */
    public static final int LARGEST_RECORD = 1_048_576;

    /** Instead of a record's limit: no record is kept. */
    public static final int NO_RECORD = 0;

    private static final int OUTSIDE = 0;
    private static final int LARGEST_POOL = 1024;
    private static final int LARGEST_QUEUE = 65_536;
    private static final Cleaner CLEANER = Cleaner.create();

    private final long machine;
    private final boolean keepsRecord;
    private final RejectionHandler handler;
    private final ThreadFactory factory;
    private final long opened = System.nanoTime();
    private final ReentrantLock lock = new ReentrantLock();

    // What follows is guarded by the lock.
    private final Condition terminated = lock.newCondition();
    private final Core.Answers entered = new Core.Answers(3);
    private final Core.Answers answer = new Core.Answers(1);

    /** The jobs of tasks that have not begun, in the order of their submissions. */
    private final Map<Integer, Runnable> jobs = new LinkedHashMap<>();

    private final Map<Long, Worker> workers = new HashMap<>();

    /** Those that sleep, the last one last. */
    private final ArrayDeque<Worker> sleeping = new ArrayDeque<>();

    private int passes;
    private int core;
    private int maximum;
    private long keepMillis;
    private boolean coreTimesOut;
    private long lastTick;
    private boolean isTickRefused;
    private volatile boolean isShut;
    private volatile boolean isStopped;
    private volatile boolean isEnded;

    /** As the next one, with default threads and the largest record. */
    public RecordedThreadPoolExecutor(int core, int maximum, long keepAlive, TimeUnit unit, int bound, RejectionHandler handler) {
        this(core, maximum, keepAlive, unit, bound, handler, Executors.defaultThreadFactory(), LARGEST_RECORD);
    }

    /**
     * A pool with no threads yet.
     *
     * @param core so many workers are kept, 0 to 1,024
     * @param maximum so many at most, 1 to 1,024
     * @param keepAlive how long a worker above the core waits for a task, which is rounded up to milliseconds
     * @param unit the unit of that
     * @param bound how many tasks the queue holds, 1 to 65,536, or UNBOUNDED or HANDOFF
     * @param handler what becomes of tasks that the pool can't take
     * @param factory makes the threads
     * @param limit so many entries has the record at most, 64 to LARGEST_RECORD; or NO_RECORD
     */
    public RecordedThreadPoolExecutor(
            int core, int maximum, long keepAlive, TimeUnit unit, int bound, RejectionHandler handler, ThreadFactory factory, int limit) {
        this.handler = Objects.requireNonNull(handler);
        this.factory = Objects.requireNonNull(factory);
        isLegal(core >= 0 && maximum > 0 && core <= maximum, "the core size is 0 or more, the maximum above 0 and no less than the core size");
        isLegal(maximum <= LARGEST_POOL, "the maximum is at most 1,024");
        isLegal(keepAlive >= 0, "the keep-alive is 0 or more");
        isLegal(bound >= 0 && (bound <= LARGEST_QUEUE || bound == UNBOUNDED), "the bound is 1 to 65,536, UNBOUNDED or HANDOFF");
        isLegal(limit == NO_RECORD || limit >= 64 && limit <= LARGEST_RECORD, "the record's limit is 64 to 1,048,576, or NO_RECORD");
        this.core = core;
        this.maximum = maximum;
        keepMillis = millis(keepAlive, unit);
        keepsRecord = limit != NO_RECORD;
        String queue = bound == UNBOUNDED ? "unbounded" : bound == HANDOFF ? "handoff" : "bounded " + bound;
        String policy = handler instanceof Verdict verdict ? verdict.word : "own";
        String line = "pool " + core + " " + maximum + " " + queue + " keep " + keepMillis + " " + policy + (keepsRecord ? " limit " + limit : "");
        long at = Core.open(line.getBytes(StandardCharsets.US_ASCII), keepsRecord ? 0 : 1);
        Refused.unlessDone(at > 0 ? 0 : (int) -at);
        machine = at;
        CLEANER.register(this, () -> Core.close(at));
    }

    private static void isLegal(boolean holds, String what) {
        if (!holds) {
            throw new IllegalArgumentException(what);
        }
    }

    /** Rounded up. */
    private static long millis(long time, TimeUnit unit) {
        long millis = unit.toMillis(time);
        return unit.convert(millis, TimeUnit.MILLISECONDS) < time ? millis + 1 : millis;
    }

    // ---- The lock and the machine under it.

    /** One step, whose answer is in `answer`. */
    private int step(int by, int ask, long first, long second, long value) {
        return Core.step(machine, by, ask, first, second, value, answer.at);
    }

    private int step(int ask, long first) {
        return step(OUTSIDE, ask, first, 0, 0);
    }

    /** A task that is gone leaves the machine too, where no record needs it. */
    private void forget(int task) {
        if (!keepsRecord) {
            Core.release(machine, task);
        }
    }

    /** The job of a task that is gone. */
    private Runnable lose(int task) {
        Runnable job = jobs.remove(task);
        if (job instanceof RecordedFuture<?> future && future.isOf(this)) {
            future.stage = Stage.OUT;
        }
        forget(task);
        return job;
    }

    private void wakeOne() {
        Worker worker = sleeping.pollLast();
        if (worker != null) {
            worker.isAsleep = false;
            worker.wake.signal();
        }
    }

    private void wakeAll() {
        while (!sleeping.isEmpty()) {
            wakeOne();
        }
    }

    /** Who is to be woken behind an offer. */
    private void heed(Core.Answers answers, int index) {
        if (answers.what(index) == What.QUEUED) {
            wakeOne();
        } else if (answers.what(index) == What.HAND) {
            Worker worker = workers.get(answers.slot(index));
            sleeping.remove(worker);
            worker.isAsleep = false;
            worker.wake.signal();
        }
    }

    /** Whether a worker may ever leave by the clock. */
    private boolean hasClock() {
        return coreTimesOut || maximum > core;
    }

    /** Tells the machine the time. A full record may not take it; then nobody leaves by the clock any more. */
    private void tick() {
        long now = TimeUnit.NANOSECONDS.toMillis(System.nanoTime() - opened);
        if (now > lastTick) {
            isTickRefused = step(Ask.TICK, now) != 0;
            lastTick = now;
        }
    }

    /** Ends the pool, where it can end now. The lock is not held. */
    private void settle() {
        if (!isShut) {
            return;
        }
        lock.lock();
        boolean ends;
        try {
            ends = step(Ask.TIDY, 0) == 0;
        } finally {
            lock.unlock();
        }
        if (ends) {
            try {
                terminated();
            } finally {
                lock.lock();
                try {
                    step(Ask.ENDED, 0);
                    isEnded = true;
                    terminated.signalAll();
                } finally {
                    lock.unlock();
                }
            }
        }
    }

    // ---- Submissions.

    /**
     * As {@code ThreadPoolExecutor.execute}. It is refused with a RejectedExecutionException as well where the record has no room. Where no
     * thread can be made and there is none, the task is taken out of the queue again, and the submission refused.
     */
    @Override
    public void execute(Runnable job) {
        new Submission(Objects.requireNonNull(job)).make();
    }

    @Override
    protected <T> RunnableFuture<T> newTaskFor(Callable<T> body) {
        return new RecordedFuture<>(this, Objects.requireNonNull(body), null);
    }

    @Override
    protected <T> RunnableFuture<T> newTaskFor(Runnable body, T value) {
        return newTaskFor(Executors.callable(body, value));
    }

    /** A submission's path: what was answered last, and what is asked next. */
    private final class Submission {
        private final Runnable job;
        private int task;
        private int what;
        private int next;
        private long slot;
        private Throwable failure;

        Submission(Runnable job) {
            this.job = job;
        }

        private void read(Core.Answers answers, int index) {
            what = answers.what(index);
            next = answers.next(index);
            slot = answers.slot(index);
        }

        void make() {
            lock.lock();
            try {
                RecordedFuture<?> future = job instanceof RecordedFuture<?> given && given.isOf(RecordedThreadPoolExecutor.this) && given.stage == Stage.NEW ? given : null;
                int status = Core.enter(machine, OUTSIDE, future == null ? Core.PLAIN : Core.FUTURE, entered.at);
                if (status != 0) {
                    throw new RejectedExecutionException(job + " rejected from " + this, new Refused(Status.of(status)));
                }
                task = entered.task(0);
                jobs.put(task, job);
                if (future != null) {
                    future.stage = Stage.WAITING;
                    future.task = task;
                }
                heed(entered, 1);
                read(entered, entered.what(2) != 0 ? 2 : entered.what(1) != 0 ? 1 : 0);
            } finally {
                lock.unlock();
            }
            follow();
        }

        private void follow() {
            while (next != 0) {
                switch (next) {
                    case Ask.OPEN -> staff(OUTSIDE, slot, this);
                    case Ask.VERDICT -> judge();
                    case Ask.CALLER_END -> runHere();
                    default -> advance(next);
                }
            }
            boolean isServed = failure == null || serves();
            settle();
            rescue();
            if (what == What.REJECTED) {
                throw new RejectedExecutionException(job + " rejected from " + RecordedThreadPoolExecutor.this);
            }
            if (!isServed) {
                throw new RejectedExecutionException("no thread can be made for " + job, failure);
            }
        }

        private void advance(int ask) {
            lock.lock();
            try {
                Refused.unlessDone(step(ask, task));
                heed(answer, 0);
                read(answer, 0);
                if (!jobs.containsKey(task)) {
                    forget(task);
                }
            } finally {
                lock.unlock();
            }
        }

        /** Whether somebody serves the queue, behind a thread that could not be made. Else this task leaves it. */
        private boolean serves() {
            lock.lock();
            try {
                if (Core.viewOf(machine).slots() > 0 || step(Ask.REMOVE, task) != 0 || answer.what(0) != What.YES) {
                    return true;
                }
                lose(task);
                return false;
            } finally {
                lock.unlock();
            }
        }

        private void judge() {
            Verdict verdict = Verdict.ABORT;
            Throwable thrown = null;
            try {
                verdict = Objects.requireNonNull(handler.verdict(job, RecordedThreadPoolExecutor.this));
            } catch (Throwable fault) {
                thrown = fault;
            }
            Runnable dropped = null;
            lock.lock();
            try {
                Refused.unlessDone(step(OUTSIDE, Ask.VERDICT, task, verdict.ordinal(), 0));
                read(answer, 0);
                if (what == What.REJECTED || what == What.DISCARDED || what == What.SKIP || what == What.RETRY_DROP) {
                    dropped = lose(answer.task(0));
                }
            } finally {
                lock.unlock();
            }
            if (dropped instanceof RecordedFuture<?> future) {
                // Nobody waits for it in vain.
                future.cancelAlone(false);
            }
            if (thrown != null) {
                settle();
                RecordedThreadPoolExecutor.<RuntimeException>rethrow(thrown);
            }
        }

        private void runHere() {
            begin(task, job, OUTSIDE, -1);
            Throwable fault = null;
            try {
                job.run();
            } catch (Throwable thrown) {
                fault = thrown;
            }
            finish(task, job, fault);
            next = 0;
            RecordedThreadPoolExecutor.<RuntimeException>rethrow(fault);
        }
    }

    @SuppressWarnings("unchecked")
    private static <E extends Throwable> void rethrow(Throwable fault) throws E {
        if (fault != null) {
            throw (E) fault;
        }
    }

    /** Has a worker made for a reserved slot, and tells the machine. The answer goes to the submission, where there is one. */
    private boolean staff(int by, long slot, Submission submission) {
        Worker worker = new Worker(slot);
        Throwable failure = null;
        Thread thread = null;
        try {
            thread = factory.newThread(worker);
        } catch (Throwable fault) {
            failure = fault;
        }
        lock.lock();
        try {
            boolean isMade = false;
            if (thread != null) {
                try {
                    worker.thread = thread;
                    thread.start();
                    isMade = true;
                } catch (Throwable fault) {
                    failure = fault;
                }
            }
            Refused.unlessDone(step(by, isMade ? Ask.OPEN : Ask.FAIL, slot, 0, 0));
            worker.isLive = isMade && answer.what(0) == What.LIVE;
            if (worker.isLive) {
                workers.put(slot, worker);
            }
            if (submission != null) {
                submission.read(answer, 0);
                if (!isMade) {
                    submission.failure = failure != null ? failure : new NullPointerException("the factory made no thread");
                }
            }
            return worker.isLive;
        } finally {
            lock.unlock();
        }
    }

    /** Where tasks are queued in a pool that is shut down and has no slot, a worker is made for them. */
    private void rescue() {
        boolean goesOn = isShut;
        while (goesOn) {
            long slot;
            lock.lock();
            try {
                PoolView view = Core.viewOf(machine);
                if (view.state() != 1 || view.queued() == 0 || view.slots() > 0 || step(Ask.PRESTART, 0) != 0 || answer.what(0) != What.RESERVE) {
                    return;
                }
                slot = answer.slot(0);
            } finally {
                lock.unlock();
            }
            goesOn = staff(OUTSIDE, slot, null);
        }
    }

    // ---- What becomes of a job.

    private void begin(int task, Runnable job, int by, long slot) {
        lock.lock();
        try {
            jobs.remove(task);
            note(job, by, slot);
        } finally {
            lock.unlock();
        }
    }

    private void note(Runnable job, int by, long slot) {
        if (job instanceof RecordedFuture<?> future && future.isOf(this) && future.stage == Stage.WAITING) {
            future.stage = Stage.RUNNING;
            future.by = by;
            future.slot = slot;
        }
    }

    /** The machine hears of a job's end at its submitter, unless its future has told it. */
    private void finish(int task, Runnable job, Throwable fault) {
        lock.lock();
        try {
            if (job instanceof RecordedFuture<?> future && future.isOf(this) && future.task == task) {
                if (future.stage == Stage.RUNNING) {
                    tellEnd(future, false);
                }
            } else {
                step(OUTSIDE, Ask.CALLER_END, task, fault == null ? 0 : 1, fault == null ? 0 : 1);
                forget(task);
            }
        } finally {
            lock.unlock();
        }
    }

    private void tellEnd(RecordedFuture<?> future, boolean isFault) {
        int code = isFault ? 1 : 0;
        if (future.slot < 0) {
            step(OUTSIDE, Ask.CALLER_END, future.task, code, code);
        } else {
            step(future.by, Ask.END, future.slot, code, code);
            workers.get(future.slot).isBusy = false;
        }
        future.stage = Stage.OUT;
        forget(future.task);
    }

    /** A future has its outcome. The machine hears of it in the same hold of the lock, so that no cancel comes between. */
    void end(RecordedFuture<?> future, boolean isFault, Runnable outcome) {
        lock.lock();
        try {
            if (future.stage == Stage.RUNNING) {
                tellEnd(future, isFault);
            }
            outcome.run();
        } finally {
            lock.unlock();
        }
    }

    /** A cancel is the machine's to grant, as long as the pool has the task. A full record takes none. */
    boolean cancel(RecordedFuture<?> future, boolean mayInterrupt) {
        lock.lock();
        try {
            boolean isAsked = future.stage == Stage.WAITING || future.stage == Stage.RUNNING;
            if (isAsked && (step(OUTSIDE, Ask.CANCEL, future.task, mayInterrupt ? 1 : 0, 0) != 0 || answer.what(0) != What.YES)) {
                return false;
            }
            return future.cancelAlone(mayInterrupt);
        } finally {
            lock.unlock();
        }
    }

    // ---- Workers.

    private final class Worker implements Runnable {
        private final long slot;
        private final Core.Answers turned = new Core.Answers(3);
        private final Condition wake = lock.newCondition();
        private Thread thread;
        private boolean isLive;
        private boolean isAsleep;
        private boolean isBusy;
        private int by;
        private int task;
        private long idleSince;

        Worker(long slot) {
            this.slot = slot;
        }

        @Override
        public void run() {
            lock.lock();
            try {
                if (!isLive) {
                    return;
                }
                by = ++passes;
            } finally {
                lock.unlock();
            }
            boolean ends = false;
            for (Runnable job = next(false); job != null; job = next(ends)) {
                Throwable fault = runJob(job);
                boolean isPlain = !(job instanceof RecordedFuture<?> future && future.isOf(RecordedThreadPoolExecutor.this) && future.task == task);
                ends = isPlain;
                if (!isPlain) {
                    finish(task, job, fault);
                    if (fault != null) {
                        thread.getUncaughtExceptionHandler().uncaughtException(thread, fault);
                    }
                } else if (fault != null) {
                    depart();
                    RecordedThreadPoolExecutor.<RuntimeException>rethrow(fault);
                }
            }
            settle();
            rescue();
        }

        /** The next job; null where the worker leaves. */
        private Runnable next(boolean ends) {
            lock.lock();
            try {
                isBusy = false;
                while (true) {
                    if (hasClock() && jobs.isEmpty() && !isTickRefused) {
                        tick();
                    }
                    int status = Core.turn(machine, by, ends ? 1 : 0, slot, turned.at);
                    ends = false;
                    if (turned.what(2) == What.RUN) {
                        return begun();
                    } else if (turned.what(2) == What.SKIP) {
                        lose(turned.task(2));
                    } else if (turned.what(1) == What.LEAVE) {
                        workers.remove(slot);
                        return null;
                    } else if (turned.what(1) == What.IDLE || status == Status.NOT_THERE.number()) {
                        sleep(turned.what(1) == What.IDLE);
                    } else {
                        throw new Refused(Status.of(status));
                    }
                }
            } finally {
                lock.unlock();
            }
        }

        private Runnable begun() {
            isBusy = true;
            task = turned.task(2);
            Runnable job = jobs.remove(task);
            note(job, by, slot);
            // One worker at a time is on its way: it wakes the next one, where tasks are left.
            if (!jobs.isEmpty()) {
                wakeOne();
            }
            return job;
        }

        /** Sleeps until it is woken, or until its keep-alive is over, where it may leave then. */
        private void sleep(boolean isNew) {
            if (isNew) {
                idleSince = System.nanoTime();
            }
            PoolView view = Core.viewOf(machine);
            boolean mayLeave = !isTickRefused && (coreTimesOut || view.slots() > view.core());
            // The machine's clock goes by milliseconds: it may lag by one.
            long keep = TimeUnit.MILLISECONDS.toNanos(keepMillis == 0 ? 0 : keepMillis + 1);
            isAsleep = true;
            sleeping.addLast(this);
            while (isAsleep) {
                // An interrupt is of no task here.
                Thread.interrupted();
                long left = keep - (System.nanoTime() - idleSince);
                if (!mayLeave) {
                    wake.awaitUninterruptibly();
                } else if (left > 0) {
                    try {
                        wake.awaitNanos(left);
                    } catch (InterruptedException none) {
                        // As above.
                    }
                } else {
                    isAsleep = false;
                    sleeping.remove(this);
                    tick();
                }
            }
        }

        /** Runs a job with the hooks around it. The answer is what it threw, or one of them. */
        private Throwable runJob(Runnable job) {
            // No interrupt of an earlier job comes through; that of a stop does.
            Thread.interrupted();
            if (isStopped) {
                thread.interrupt();
            }
            Throwable fault = null;
            try {
                beforeExecute(thread, job);
            } catch (Throwable thrown) {
                if (job instanceof RecordedFuture<?> future) {
                    future.fail(thrown);
                }
                return thrown;
            }
            try {
                job.run();
            } catch (Throwable thrown) {
                fault = thrown;
            }
            try {
                afterExecute(job, fault);
            } catch (Throwable thrown) {
                return thrown;
            }
            return fault;
        }

        /** Leaves behind a plain job that threw, with another worker in its place where the pool wants one. */
        private void depart() {
            long heir = -1;
            lock.lock();
            try {
                isBusy = false;
                Refused.unlessDone(step(by, Ask.END, slot, 1, 1));
                forget(task);
                workers.remove(slot);
                Refused.unlessDone(step(by, Ask.LEAVE, slot, 0, 0));
                if (answer.what(0) == What.RESERVE) {
                    heir = answer.slot(0);
                }
            } finally {
                lock.unlock();
            }
            if (heir >= 0) {
                staff(by, heir, null);
            }
            settle();
            rescue();
        }
    }

    /** As {@code ThreadPoolExecutor.beforeExecute}. A future whose job it keeps from running has its exception. */
    protected void beforeExecute(Thread thread, Runnable job) {
    }

    /** As {@code ThreadPoolExecutor.afterExecute}. Behind a future the worker stays, whatever it throws. */
    protected void afterExecute(Runnable job, Throwable fault) {
    }

    /** As {@code ThreadPoolExecutor.terminated}. It is called with no lock held. */
    protected void terminated() {
    }

    // ---- Many tasks.

    @Override
    public <T> T invokeAny(Collection<? extends Callable<T>> bodies) throws InterruptedException, ExecutionException {
        try {
            return any(bodies, Long.MAX_VALUE);
        } catch (TimeoutException never) {
            throw new AssertionError(never);
        }
    }

    @Override
    public <T> T invokeAny(Collection<? extends Callable<T>> bodies, long timeout, TimeUnit unit)
            throws InterruptedException, ExecutionException, TimeoutException {
        return any(bodies, unit.toNanos(timeout));
    }

    private <T> T any(Collection<? extends Callable<T>> bodies, long nanos) throws InterruptedException, ExecutionException, TimeoutException {
        isLegal(!bodies.isEmpty(), "there is no task");
        BlockingQueue<RecordedFuture<T>> done = new LinkedBlockingQueue<>();
        List<RecordedFuture<T>> futures = new ArrayList<>();
        Iterator<? extends Callable<T>> rest = bodies.iterator();
        long begun = System.nanoTime();
        ExecutionException failure = null;
        int active = 0;
        try {
            while (true) {
                RecordedFuture<T> ended = done.poll();
                if (ended == null && rest.hasNext()) {
                    RecordedFuture<T> future = new RecordedFuture<>(this, Objects.requireNonNull(rest.next()), done);
                    futures.add(future);
                    execute(future);
                    active++;
                    continue;
                }
                if (ended == null && active == 0) {
                    throw failure;
                }
                if (ended == null) {
                    ended = nanos == Long.MAX_VALUE ? done.take() : done.poll(nanos - (System.nanoTime() - begun), TimeUnit.NANOSECONDS);
                }
                if (ended == null) {
                    throw new TimeoutException();
                }
                active--;
                try {
                    return ended.get();
                } catch (ExecutionException fault) {
                    failure = fault;
                } catch (RuntimeException fault) {
                    failure = new ExecutionException(fault);
                }
            }
        } finally {
            futures.forEach(future -> future.cancel(true));
        }
    }

    // ---- The end.

    @Override
    public void shutdown() {
        lock.lock();
        try {
            if (Core.viewOf(machine).state() == 0) {
                Refused.unlessDone(step(Ask.SHUTDOWN, 0));
                isShut = true;
            }
            wakeAll();
        } finally {
            lock.unlock();
        }
        settle();
        rescue();
    }

    /** As {@code ThreadPoolExecutor.shutdownNow}: threads that run a task are interrupted. Refused with 4 where there is no memory. */
    @Override
    public List<Runnable> shutdownNow() {
        List<Runnable> handed = new ArrayList<>();
        lock.lock();
        try {
            if (Core.viewOf(machine).state() <= 2) {
                Refused.unlessDone(step(Ask.STOP, 0));
                isShut = isStopped = true;
                for (long index = 0, task; (task = Core.handed(machine, index)) >= 0; index++) {
                    handed.add(lose((int) task));
                }
                workers.values().forEach(worker -> worker.thread.interrupt());
                wakeAll();
            }
        } finally {
            lock.unlock();
        }
        settle();
        return handed;
    }

    @Override
    public boolean isShutdown() {
        return view().state() >= 1;
    }

    @Override
    public boolean isTerminated() {
        return isEnded;
    }

    /** Whether it was shut down and is not terminated yet. */
    public boolean isTerminating() {
        return isShutdown() && !isEnded;
    }

    @Override
    public boolean awaitTermination(long timeout, TimeUnit unit) throws InterruptedException {
        long nanos = unit.toNanos(timeout);
        lock.lockInterruptibly();
        try {
            while (!isEnded) {
                if (nanos <= 0) {
                    return false;
                }
                nanos = terminated.awaitNanos(nanos);
            }
            return true;
        } finally {
            lock.unlock();
        }
    }

    /** As {@code ExecutorService.close} since Java 19: shuts down and waits for the end. An interrupt stops the pool, and is kept. */
    @Override
    public void close() {
        shutdown();
        boolean isInterrupted = false;
        while (!isEnded) {
            try {
                awaitTermination(1, TimeUnit.DAYS);
            } catch (InterruptedException fault) {
                if (!isInterrupted) {
                    shutdownNow();
                }
                isInterrupted = true;
            }
        }
        if (isInterrupted) {
            Thread.currentThread().interrupt();
        }
    }

    // ---- Controls.

    /** As {@code ThreadPoolExecutor.remove}. Its future, if it has one, stays as it is. */
    public boolean remove(Runnable job) {
        boolean isRemoved = false;
        lock.lock();
        try {
            for (Map.Entry<Integer, Runnable> entry : jobs.entrySet()) {
                if (entry.getValue().equals(job) && Core.placeOf(machine, entry.getKey()) == Core.PLACE_QUEUED) {
                    isRemoved = step(Ask.REMOVE, entry.getKey()) == 0 && answer.what(0) == What.YES;
                    if (isRemoved) {
                        lose(entry.getKey());
                    }
                    break;
                }
            }
        } finally {
            lock.unlock();
        }
        settle();
        return isRemoved;
    }

    /** Takes cancelled futures out of the queue. */
    public void purge() {
        lock.lock();
        try {
            Refused.unlessDone(step(Ask.PURGE, 0));
            List<Integer> cancelled = new ArrayList<>();
            jobs.forEach((task, job) -> {
                if (job instanceof RecordedFuture<?> future && future.isCancelled() && Core.placeOf(machine, task) == Core.PLACE_GONE) {
                    cancelled.add(task);
                }
            });
            cancelled.forEach(this::lose);
        } finally {
            lock.unlock();
        }
        settle();
    }

    /** Has a worker made, where there are fewer than the core size. Whether one was. */
    public boolean prestartCoreThread() {
        long slot;
        lock.lock();
        try {
            if (step(Ask.PRESTART, 0) != 0 || answer.what(0) != What.RESERVE) {
                return false;
            }
            slot = answer.slot(0);
        } finally {
            lock.unlock();
        }
        return staff(OUTSIDE, slot, null);
    }

    /** Has workers made up to the core size. How many were. */
    public int prestartAllCoreThreads() {
        int made = 0;
        while (prestartCoreThread()) {
            made++;
        }
        return made;
    }

    /** A setting's step, behind which workers look again. The answer is the number that comes with it. */
    private int set(int ask, long number, String refusal) {
        lock.lock();
        try {
            int status = step(ask, number);
            if (status == Status.BAD_SIZES.number() || status == Status.KEEP_ZERO.number()) {
                throw new IllegalArgumentException(refusal);
            }
            Refused.unlessDone(status);
            if (ask == Ask.CORE) {
                core = (int) number;
            } else if (ask == Ask.MAXIMUM) {
                maximum = (int) number;
            } else if (ask == Ask.KEEP) {
                keepMillis = number;
            } else if (ask == Ask.CORE_TIMEOUT) {
                coreTimesOut = number == 1;
            }
            int told = answer.number(0);
            wakeAll();
            return told;
        } finally {
            lock.unlock();
        }
    }

    public void setCorePoolSize(int core) {
        isLegal(core >= 0, "the core size is 0 or more");
        int wanted = set(Ask.CORE, core, "the core size is no more than the maximum");
        while (wanted > 0 && view().queued() > 0 && prestartCoreThread()) {
            wanted--;
        }
    }

    public void setMaximumPoolSize(int maximum) {
        isLegal(maximum > 0, "the maximum is above 0");
        set(Ask.MAXIMUM, maximum, "the maximum is no less than the core size, and at most 1,024");
    }

    public void setKeepAliveTime(long time, TimeUnit unit) {
        isLegal(time >= 0, "the keep-alive is 0 or more");
        set(Ask.KEEP, millis(time, unit), "core threads that time out need a keep-alive above 0");
    }

    public void allowCoreThreadTimeOut(boolean on) {
        set(Ask.CORE_TIMEOUT, on ? 1 : 0, "core threads that time out need a keep-alive above 0");
    }

    // ---- What is seen.

    /** What is seen of the pool, all of one moment. */
    public PoolView view() {
        lock.lock();
        try {
            return Core.viewOf(machine);
        } finally {
            lock.unlock();
        }
    }

    /** The text of the record so far. Refused with 34 where none is kept. */
    public String record() {
        int[] status = new int[1];
        byte[] text;
        lock.lock();
        try {
            text = Core.record(machine, status);
        } finally {
            lock.unlock();
        }
        Refused.unlessDone(status[0]);
        return new String(text, StandardCharsets.US_ASCII);
    }

    /** The judgment of the record so far, as {@code poolrun audit} has it. */
    public Told audit() {
        return Texts.audit(record());
    }

    public int getCorePoolSize() {
        return view().core();
    }

    public int getMaximumPoolSize() {
        lock.lock();
        try {
            return maximum;
        } finally {
            lock.unlock();
        }
    }

    public long getKeepAliveTime(TimeUnit unit) {
        lock.lock();
        try {
            return unit.convert(keepMillis, TimeUnit.MILLISECONDS);
        } finally {
            lock.unlock();
        }
    }

    public boolean allowsCoreThreadTimeOut() {
        lock.lock();
        try {
            return coreTimesOut;
        } finally {
            lock.unlock();
        }
    }

    public int getPoolSize() {
        return view().live();
    }

    public int getLargestPoolSize() {
        return view().largest();
    }

    public long getCompletedTaskCount() {
        return view().completed();
    }

    /** How many tasks the queue has. */
    public int getQueueSize() {
        return view().queued();
    }

    public int getActiveCount() {
        lock.lock();
        try {
            return (int) workers.values().stream().filter(worker -> worker.isBusy).count();
        } finally {
            lock.unlock();
        }
    }

    public long getTaskCount() {
        lock.lock();
        try {
            PoolView view = view();
            return view.completed() + view.queued() + getActiveCount();
        } finally {
            lock.unlock();
        }
    }

    @Override
    public String toString() {
        lock.lock();
        try {
            PoolView view = view();
            String state = view.state() == 0 ? "Running" : view.state() == 4 ? "Terminated" : "Shutting down";
            return super.toString() + "[" + state + ", pool size = " + view.live() + ", active threads = " + getActiveCount()
                    + ", queued tasks = " + view.queued() + ", completed tasks = " + view.completed() + "]";
        } finally {
            lock.unlock();
        }
    }
}
