import io.zellunkay.RecordedThreadPoolExecutor;
import io.zellunkay.Verdict;
import java.util.ArrayList;
import java.util.Collections;
import java.util.List;
import java.util.concurrent.BlockingQueue;
import java.util.concurrent.ExecutorService;
import java.util.concurrent.Executors;
import java.util.concurrent.LinkedBlockingQueue;
import java.util.concurrent.SynchronousQueue;
import java.util.concurrent.ThreadFactory;
import java.util.concurrent.ThreadPoolExecutor;
import java.util.concurrent.TimeUnit;

/** The JDK's pool and ours, behind one face. */
final class Pools {
    private Pools() {
    }

    /** What a case asks of a pool, beside its calls as an ExecutorService. */
    interface Pool {
        ExecutorService service();

        int core();

        int maximum();

        int size();

        int largest();

        int active();

        int queued();

        long completed();

        long tasks();

        long keep(TimeUnit unit);

        void setCore(int core);

        void setMaximum(int maximum);

        void setKeep(long time, TimeUnit unit);

        void coreTimesOut(boolean on);

        boolean prestart();

        int prestartAll();

        boolean remove(Runnable job);

        void purge();

        boolean isTerminating();

        void close();

        /** What the hooks heard. */
        List<String> heard();
    }

    /** How a pool is to be made. */
    record Settings(int core, int maximum, long keepMillis, int bound, Verdict verdict, ThreadFactory factory) {
        static final int UNBOUNDED = Integer.MAX_VALUE;

        static Settings of(int core, int maximum, int bound) {
            return new Settings(core, maximum, 0, bound, Verdict.ABORT, Executors.defaultThreadFactory());
        }

        Settings keep(long millis) {
            return new Settings(core, maximum, millis, bound, verdict, factory);
        }

        Settings verdict(Verdict other) {
            return new Settings(core, maximum, keepMillis, bound, other, factory);
        }

        Settings factory(ThreadFactory other) {
            return new Settings(core, maximum, keepMillis, bound, verdict, other);
        }
    }

    /** Notes what the hooks hear, and throws where a job's name asks for it. */
    private static final class Hooks {
        final List<String> heard = Collections.synchronizedList(new ArrayList<>());

        void before(Runnable job) {
            if (job.toString().equals("before throws")) {
                throw new IllegalStateException("before");
            }
            heard.add("before");
        }

        void after(Throwable fault) {
            heard.add(fault == null ? "after" : "after " + fault.getMessage());
        }
    }

    static Pool jdk(Settings settings) {
        BlockingQueue<Runnable> queue = settings.bound == 0 ? new SynchronousQueue<>() : new LinkedBlockingQueue<>(settings.bound);
        Hooks hooks = new Hooks();
        ThreadPoolExecutor pool = new ThreadPoolExecutor(
                settings.core, settings.maximum, settings.keepMillis, TimeUnit.MILLISECONDS, queue, settings.factory, handlerOf(settings.verdict)) {
            @Override
            protected void beforeExecute(Thread thread, Runnable job) {
                hooks.before(job);
            }

            @Override
            protected void afterExecute(Runnable job, Throwable fault) {
                hooks.after(fault);
            }

            @Override
            protected void terminated() {
                hooks.heard.add("terminated");
            }
        };
        return new Pool() {
            public ExecutorService service() {
                return pool;
            }

            public int core() {
                return pool.getCorePoolSize();
            }

            public int maximum() {
                return pool.getMaximumPoolSize();
            }

            public int size() {
                return pool.getPoolSize();
            }

            public int largest() {
                return pool.getLargestPoolSize();
            }

            public int active() {
                return pool.getActiveCount();
            }

            public int queued() {
                return pool.getQueue().size();
            }

            public long completed() {
                return pool.getCompletedTaskCount();
            }

            public long tasks() {
                return pool.getTaskCount();
            }

            public long keep(TimeUnit unit) {
                return pool.getKeepAliveTime(unit);
            }

            public void setCore(int core) {
                pool.setCorePoolSize(core);
            }

            public void setMaximum(int maximum) {
                pool.setMaximumPoolSize(maximum);
            }

            public void setKeep(long time, TimeUnit unit) {
                pool.setKeepAliveTime(time, unit);
            }

            public void coreTimesOut(boolean on) {
                pool.allowCoreThreadTimeOut(on);
            }

            public boolean prestart() {
                return pool.prestartCoreThread();
            }

            public int prestartAll() {
                return pool.prestartAllCoreThreads();
            }

            public boolean remove(Runnable job) {
                return pool.remove(job);
            }

            public void purge() {
                pool.purge();
            }

            public boolean isTerminating() {
                return pool.isTerminating();
            }

            /** As ExecutorService.close of Java 19. */
            public void close() {
                boolean isInterrupted = false;
                pool.shutdown();
                while (!pool.isTerminated()) {
                    try {
                        pool.awaitTermination(1, TimeUnit.DAYS);
                    } catch (InterruptedException fault) {
                        pool.shutdownNow();
                        isInterrupted = true;
                    }
                }
                if (isInterrupted) {
                    Thread.currentThread().interrupt();
                }
            }

            public List<String> heard() {
                return hooks.heard;
            }
        };
    }

    private static java.util.concurrent.RejectedExecutionHandler handlerOf(Verdict verdict) {
        return switch (verdict) {
            case ABORT -> new ThreadPoolExecutor.AbortPolicy();
            case CALLER_RUNS -> new ThreadPoolExecutor.CallerRunsPolicy();
            case DISCARD -> new ThreadPoolExecutor.DiscardPolicy();
            case DISCARD_OLDEST -> new ThreadPoolExecutor.DiscardOldestPolicy();
        };
    }

    static Pool ours(Settings settings) {
        Hooks hooks = new Hooks();
        RecordedThreadPoolExecutor pool = new RecordedThreadPoolExecutor(
                settings.core, settings.maximum, settings.keepMillis, TimeUnit.MILLISECONDS, settings.bound, settings.verdict, settings.factory, 60_000) {
            @Override
            protected void beforeExecute(Thread thread, Runnable job) {
                hooks.before(job);
            }

            @Override
            protected void afterExecute(Runnable job, Throwable fault) {
                hooks.after(fault);
            }

            @Override
            protected void terminated() {
                hooks.heard.add("terminated");
            }
        };
        return new Pool() {
            public ExecutorService service() {
                return pool;
            }

            public int core() {
                return pool.getCorePoolSize();
            }

            public int maximum() {
                return pool.getMaximumPoolSize();
            }

            public int size() {
                return pool.getPoolSize();
            }

            public int largest() {
                return pool.getLargestPoolSize();
            }

            public int active() {
                return pool.getActiveCount();
            }

            public int queued() {
                return pool.getQueueSize();
            }

            public long completed() {
                return pool.getCompletedTaskCount();
            }

            public long tasks() {
                return pool.getTaskCount();
            }

            public long keep(TimeUnit unit) {
                return pool.getKeepAliveTime(unit);
            }

            public void setCore(int core) {
                pool.setCorePoolSize(core);
            }

            public void setMaximum(int maximum) {
                pool.setMaximumPoolSize(maximum);
            }

            public void setKeep(long time, TimeUnit unit) {
                pool.setKeepAliveTime(time, unit);
            }

            public void coreTimesOut(boolean on) {
                pool.allowCoreThreadTimeOut(on);
            }

            public boolean prestart() {
                return pool.prestartCoreThread();
            }

            public int prestartAll() {
                return pool.prestartAllCoreThreads();
            }

            public boolean remove(Runnable job) {
                return pool.remove(job);
            }

            public void purge() {
                pool.purge();
            }

            public boolean isTerminating() {
                return pool.isTerminating();
            }

            public void close() {
                pool.close();
            }

            public List<String> heard() {
                return hooks.heard;
            }
        };
    }
}
