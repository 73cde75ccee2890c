import io.zellunkay.RecordedThreadPoolExecutor;
import io.zellunkay.Told;
import io.zellunkay.Verdict;
import java.util.ArrayList;
import java.util.Collections;
import java.util.List;
import java.util.concurrent.Callable;
import java.util.concurrent.CancellationException;
import java.util.concurrent.CountDownLatch;
import java.util.concurrent.ExecutionException;
import java.util.concurrent.ExecutorCompletionService;
import java.util.concurrent.ExecutorService;
import java.util.concurrent.Executors;
import java.util.concurrent.Future;
import java.util.concurrent.FutureTask;
import java.util.concurrent.RejectedExecutionException;
import java.util.concurrent.TimeUnit;
import java.util.concurrent.TimeoutException;
import java.util.concurrent.atomic.AtomicInteger;
import java.util.function.BooleanSupplier;
import java.util.function.Function;

/**
 * What the pages of ThreadPoolExecutor, ExecutorService, Future and ExecutorCompletionService state, as a table of cases, each played by the
 * JDK's pool and by ours. A case says what is to be seen; where ours is to differ, it says what is seen of it, and why. Each record is
 * audited behind its case. The status is 0 where all is as the table says.
 */
public final class Cases {
    private Cases() {
    }

    private interface Play {
        String of(Stage stage) throws Exception;
    }

    private record Case(String name, String seen, String ours, String why, Play play) {
    }

    private static final List<Case> TABLE = new ArrayList<>();
    private static String page;

    private static void same(String name, String seen, Play play) {
        TABLE.add(new Case(page + ": " + name, seen, seen, "", play));
    }

    private static void differs(String name, String jdk, String ours, String why, Play play) {
        TABLE.add(new Case(page + ": " + name, jdk, ours, why, play));
    }

    /** Where a case plays: its pool, and a gate at which its jobs wait. */
    private static final class Stage {
        private final Function<Pools.Settings, Pools.Pool> maker;
        final CountDownLatch gate = new CountDownLatch(1);
        final List<String> told = Collections.synchronizedList(new ArrayList<>());
        Pools.Pool pool;

        Stage(Function<Pools.Settings, Pools.Pool> maker) {
            this.maker = maker;
        }

        ExecutorService open(Pools.Settings settings) {
            pool = maker.apply(settings);
            return pool.service();
        }

        ExecutorService open(int core, int maximum, int bound) {
            return open(Pools.Settings.of(core, maximum, bound));
        }

        /** A job that waits at the gate, and tells where it is interrupted there. */
        Runnable waits() {
            return () -> {
                try {
                    gate.await();
                } catch (InterruptedException fault) {
                    told.add("interrupted");
                }
            };
        }

        Runnable tells(String word) {
            return () -> told.add(word);
        }

        /** Ends the pool, and waits for that. */
        void end() throws InterruptedException {
            gate.countDown();
            if (pool != null) {
                pool.service().shutdown();
                if (!pool.service().awaitTermination(20, TimeUnit.SECONDS)) {
                    throw new AssertionError("the pool does not end");
                }
            }
        }
    }

    private static void until(BooleanSupplier holds) throws InterruptedException {
        long begun = System.nanoTime();
        while (!holds.getAsBoolean()) {
            if (System.nanoTime() - begun > 10_000_000_000L) {
                throw new AssertionError("what is waited for does not come");
            }
            Thread.sleep(1);
        }
    }

    /** What a call throws, in short. */
    private static String fault(Callable<?> call) {
        try {
            return String.valueOf(call.call());
        } catch (Throwable thrown) {
            String name = thrown.getClass().getSimpleName();
            return thrown instanceof ExecutionException ? name + " of " + thrown.getCause().getClass().getSimpleName() : name;
        }
    }

    private static Callable<Void> call(Runnable body) {
        return Executors.callable(body, null);
    }

    private static String words(Object... seen) {
        StringBuilder words = new StringBuilder();
        for (Object word : seen) {
            words.append(words.length() == 0 ? "" : " ").append(word);
        }
        return words.toString();
    }

    private static final int ANY = Pools.Settings.UNBOUNDED;

    private static void sizes() {
        page = "sizes";
        same("below the core size a thread is made, though another is idle", "2", on -> {
            ExecutorService pool = on.open(2, 2, ANY);
            pool.submit(on.tells("")).get();
            pool.submit(on.tells("")).get();
            return words(on.pool.size());
        });
        same("at the core size a task is queued", "1 2", on -> {
            ExecutorService pool = on.open(1, 3, 2);
            for (int n = 0; n < 3; n++) {
                pool.execute(on.waits());
            }
            return words(on.pool.size(), on.pool.queued());
        });
        same("once the queue is full, threads are made up to the maximum", "3 2 RejectedExecutionException", on -> {
            ExecutorService pool = on.open(1, 3, 2);
            for (int n = 0; n < 5; n++) {
                pool.execute(on.waits());
            }
            return words(on.pool.size(), on.pool.queued(), fault(call(() -> pool.execute(on.waits()))));
        });
        same("with an unbounded queue the maximum has no effect", "1 9", on -> {
            ExecutorService pool = on.open(1, 5, ANY);
            for (int n = 0; n < 10; n++) {
                pool.execute(on.waits());
            }
            return words(on.pool.size(), on.pool.queued());
        });
        same("a handoff needs a thread that waits, or a new one", "2 0 RejectedExecutionException", on -> {
            ExecutorService pool = on.open(0, 2, 0);
            pool.execute(on.waits());
            pool.execute(on.waits());
            return words(on.pool.size(), on.pool.queued(), fault(call(() -> pool.execute(on.waits()))));
        });
        same("an idle thread takes what is handed off", "1", on -> {
            ExecutorService pool = on.open(Pools.Settings.of(0, 2, 0).keep(60_000));
            for (int n = 0; n < 20; n++) {
                pool.submit(on.tells("")).get();
                until(() -> on.pool.active() == 0);
                Thread.sleep(2);
            }
            return words(on.pool.largest());
        });
        same("core threads are made before there are tasks", "true true false 2 | 0", on -> {
            on.open(2, 2, ANY);
            return words(on.pool.prestart(), on.pool.prestart(), on.pool.prestart(), on.pool.size(), "|", on.pool.prestartAll());
        });
        same("with a core of 0 one thread is made", "1", on -> {
            ExecutorService pool = on.open(0, 4, ANY);
            pool.execute(on.waits());
            pool.execute(on.waits());
            return words(on.pool.size());
        });
        same("a larger core size has threads made for queued tasks", "1 3", on -> {
            ExecutorService pool = on.open(1, 5, ANY);
            for (int n = 0; n < 6; n++) {
                pool.execute(on.waits());
            }
            int before = on.pool.size();
            on.pool.setCore(3);
            return words(before, on.pool.size());
        });
        same("a smaller core size lets idle threads go", "1", on -> {
            ExecutorService pool = on.open(3, 3, ANY);
            on.pool.prestartAll();
            on.pool.setCore(1);
            until(() -> on.pool.size() == 1);
            pool.submit(on.tells("")).get();
            return words(on.pool.size());
        });
        same("a smaller maximum lets threads go when they are idle next", "4 2", on -> {
            ExecutorService pool = on.open(0, 4, 0);
            for (int n = 0; n < 4; n++) {
                pool.execute(on.waits());
            }
            int before = on.pool.size();
            on.pool.setKeep(60_000, TimeUnit.MILLISECONDS);
            on.pool.setMaximum(2);
            on.gate.countDown();
            until(() -> on.pool.size() == 2);
            return words(before, on.pool.size());
        });
        same("what is seen of the sizes", "2 5 0 0 0 0 0", on -> {
            on.open(2, 5, ANY);
            return words(on.pool.core(), on.pool.maximum(), on.pool.size(), on.pool.largest(), on.pool.active(), on.pool.queued(), on.pool.tasks());
        });
    }

    private static void clocks() {
        page = "keep-alive";
        same("threads above the core leave when they were idle so long", "3 1", on -> {
            ExecutorService pool = on.open(Pools.Settings.of(1, 3, 0).keep(40));
            for (int n = 0; n < 3; n++) {
                pool.execute(on.waits());
            }
            on.gate.countDown();
            int before = on.pool.size();
            until(() -> on.pool.size() == 1);
            Thread.sleep(100);
            return words(before, on.pool.size());
        });
        same("a keep-alive of 0 lets them leave at once", "1", on -> {
            ExecutorService pool = on.open(1, 3, 0);
            for (int n = 0; n < 3; n++) {
                pool.execute(on.waits());
            }
            on.gate.countDown();
            until(() -> on.pool.size() == 1);
            return words(on.pool.size());
        });
        same("core threads leave too, where that is allowed", "2 0", on -> {
            ExecutorService pool = on.open(Pools.Settings.of(2, 2, ANY).keep(30));
            on.pool.coreTimesOut(true);
            on.pool.prestartAll();
            int before = on.pool.size();
            until(() -> on.pool.size() == 0);
            pool.submit(on.tells("")).get();
            return words(before, on.pool.size() == 1 ? 0 : on.pool.size());
        });
        same("core threads that leave need a keep-alive", "IllegalArgumentException IllegalArgumentException", on -> {
            on.open(1, 1, ANY);
            String first = fault(call(() -> on.pool.coreTimesOut(true)));
            on.pool.setKeep(5, TimeUnit.SECONDS);
            on.pool.coreTimesOut(true);
            return words(first, fault(call(() -> on.pool.setKeep(0, TimeUnit.SECONDS))));
        });
        same("a keep-alive is told in any unit", "5 5000", on -> {
            on.open(Pools.Settings.of(1, 1, ANY).keep(5000));
            return words(on.pool.keep(TimeUnit.SECONDS), on.pool.keep(TimeUnit.MILLISECONDS));
        });
        differs("of less than a millisecond", "1500", "2000", "the machine's clock goes by milliseconds, and a keep-alive is rounded up", on -> {
            on.open(1, 1, ANY);
            on.pool.setKeep(1500, TimeUnit.MICROSECONDS);
            return words(on.pool.keep(TimeUnit.MICROSECONDS));
        });
    }

    private static void rejections() {
        page = "rejected tasks";
        Function<Verdict, Pools.Settings> full = verdict -> Pools.Settings.of(1, 1, 1).verdict(verdict);
        same("abort throws", "RejectedExecutionException [b]", on -> {
            ExecutorService pool = on.open(full.apply(Verdict.ABORT));
            pool.execute(on.waits());
            pool.execute(on.tells("b"));
            String thrown = fault(call(() -> pool.execute(on.tells("c"))));
            on.end();
            return words(thrown, on.told);
        });
        same("caller runs has the submitter run it", "true [b]", on -> {
            ExecutorService pool = on.open(full.apply(Verdict.CALLER_RUNS));
            pool.execute(on.waits());
            pool.execute(on.tells("b"));
            Thread[] by = new Thread[1];
            pool.execute(() -> by[0] = Thread.currentThread());
            on.end();
            return words(by[0] == Thread.currentThread(), on.told);
        });
        same("what it throws, the submitter gets", "IllegalStateException", on -> {
            ExecutorService pool = on.open(full.apply(Verdict.CALLER_RUNS));
            pool.execute(on.waits());
            pool.execute(on.tells("b"));
            return fault(call(() -> pool.execute(() -> {
                throw new IllegalStateException();
            })));
        });
        same("a future that its submitter ran is done", "7", on -> {
            ExecutorService pool = on.open(full.apply(Verdict.CALLER_RUNS));
            pool.execute(on.waits());
            pool.execute(on.tells("b"));
            return words(pool.submit(() -> 7).get(0, TimeUnit.SECONDS));
        });
        same("discard drops it", "[b]", on -> {
            ExecutorService pool = on.open(full.apply(Verdict.DISCARD));
            pool.execute(on.waits());
            pool.execute(on.tells("b"));
            pool.execute(on.tells("c"));
            on.end();
            return words(on.told);
        });
        same("discard oldest drops the queue's head", "[c]", on -> {
            ExecutorService pool = on.open(full.apply(Verdict.DISCARD_OLDEST));
            pool.execute(on.waits());
            pool.execute(on.tells("b"));
            pool.execute(on.tells("c"));
            on.end();
            return words(on.told);
        });
        for (Verdict verdict : Verdict.values()) {
            String seen = verdict == Verdict.ABORT ? "RejectedExecutionException []" : "null []";
            same("behind a shutdown, " + verdict, seen, on -> {
                ExecutorService pool = on.open(full.apply(verdict));
                pool.shutdown();
                return words(fault(call(() -> pool.execute(on.tells("a")))), on.told);
            });
        }
        differs("a future whose task was discarded", "false", "true", "its task is gone, so it is cancelled: nobody waits for it in vain", on -> {
            ExecutorService pool = on.open(full.apply(Verdict.DISCARD));
            pool.execute(on.waits());
            pool.execute(on.tells("b"));
            return words(pool.submit(on.tells("c")).isCancelled());
        });
        differs("a future that the oldest was", "false", "true", "as above", on -> {
            ExecutorService pool = on.open(full.apply(Verdict.DISCARD_OLDEST));
            pool.execute(on.waits());
            Future<?> oldest = pool.submit(on.tells("b"));
            pool.execute(on.tells("c"));
            return words(oldest.isCancelled());
        });
    }

    private static void hooks() {
        page = "hooks and threads";
        same("hooks come around each task, and at the end", "[before, after, before, after oh, terminated]", on -> {
            ExecutorService pool = on.open(Pools.Settings.of(1, 1, ANY).factory(quiet()));
            pool.execute(on.tells("a"));
            pool.execute(() -> {
                throw new IllegalStateException("oh");
            });
            on.end();
            return words(on.pool.heard());
        });
        same("a future's fault stays in it", "[before, after, terminated]", on -> {
            ExecutorService pool = on.open(1, 1, ANY);
            pool.submit(() -> {
                throw new IllegalStateException("oh");
            });
            on.end();
            return words(on.pool.heard());
        });
        same("a thread whose task throws is replaced", "[a] 1 1", on -> {
            AtomicInteger faults = new AtomicInteger();
            ExecutorService pool = on.open(Pools.Settings.of(1, 1, ANY).factory(body -> {
                Thread thread = new Thread(body);
                thread.setUncaughtExceptionHandler((dead, fault) -> faults.incrementAndGet());
                return thread;
            }));
            pool.execute(() -> {
                throw new IllegalStateException();
            });
            until(() -> faults.get() == 1);
            pool.submit(on.tells("a")).get();
            return words(on.told, on.pool.size(), faults.get());
        });
        same("a hook that throws keeps a task from running", "[b]", on -> {
            ExecutorService pool = on.open(Pools.Settings.of(1, 1, ANY).factory(quiet()));
            pool.execute(new Runnable() {
                public void run() {
                    on.told.add("a");
                }

                @Override
                public String toString() {
                    return "before throws";
                }
            });
            pool.submit(on.tells("b")).get();
            return words(on.told);
        });
        same("the factory makes the threads", "[named]", on -> {
            ExecutorService pool = on.open(Pools.Settings.of(1, 1, ANY).factory(body -> new Thread(body, "named")));
            pool.execute(() -> on.told.add(Thread.currentThread().getName()));
            on.end();
            return words(on.told);
        });
        differs("a factory that makes none", "null 1", "RejectedExecutionException 0", "the task would wait for a thread that nobody makes: it is refused", on -> {
            ExecutorService pool = on.open(Pools.Settings.of(1, 1, ANY).factory(body -> null));
            String told = words(fault(call(() -> pool.execute(on.tells("a")))), on.pool.queued());
            pool.shutdownNow();
            return told;
        });
        differs("a factory that throws", "IllegalStateException 0", "RejectedExecutionException 0", "it is the exception's cause", on -> {
            ExecutorService pool = on.open(Pools.Settings.of(1, 1, ANY).factory(body -> {
                throw new IllegalStateException();
            }));
            return words(fault(call(() -> pool.execute(on.tells("a")))), on.pool.queued());
        });
        same("a factory that fails once", "1 2", on -> {
            AtomicInteger made = new AtomicInteger();
            ExecutorService pool = on.open(Pools.Settings.of(2, 2, ANY).factory(body -> made.incrementAndGet() == 2 ? null : new Thread(body)));
            pool.execute(on.waits());
            pool.execute(on.waits());
            pool.execute(on.waits());
            return words(on.pool.queued(), on.pool.size());
        });
        same("nothing is no task", "NullPointerException NullPointerException", on -> {
            ExecutorService pool = on.open(1, 1, ANY);
            return words(fault(call(() -> pool.execute(null))), fault(() -> pool.submit((Runnable) null)));
        });
        same("settings that no pool can have", "IllegalArgumentException IllegalArgumentException IllegalArgumentException IllegalArgumentException", on -> words(
                fault(() -> on.open(-1, 1, ANY)), fault(() -> on.open(0, 0, ANY)), fault(() -> on.open(2, 1, ANY)),
                fault(() -> on.open(Pools.Settings.of(1, 1, ANY).keep(-1)))));
        same("settings that are changed so", "IllegalArgumentException IllegalArgumentException IllegalArgumentException", on -> {
            on.open(2, 3, ANY);
            return words(fault(call(() -> on.pool.setCore(-1))), fault(call(() -> on.pool.setMaximum(1))), fault(call(() -> on.pool.setMaximum(0))));
        });
        same("what is counted", "3 2 3 1 1", on -> {
            ExecutorService pool = on.open(1, 1, ANY);
            pool.submit(on.tells("")).get();
            pool.submit(on.tells("")).get();
            until(() -> on.pool.completed() == 2);
            pool.execute(on.waits());
            until(() -> on.pool.active() == 1);
            return words(on.pool.tasks(), on.pool.completed(), on.pool.tasks(), on.pool.active(), on.pool.largest());
        });
    }

    /** Threads whose faults nobody prints. */
    private static java.util.concurrent.ThreadFactory quiet() {
        return body -> {
            Thread thread = new Thread(body);
            thread.setUncaughtExceptionHandler((dead, fault) -> { });
            return thread;
        };
    }

    private static void queues() {
        page = "the queue";
        same("it goes by order of arrival", "[1, 2, 3, 4]", on -> {
            ExecutorService pool = on.open(1, 1, ANY);
            pool.execute(on.waits());
            for (int n = 1; n < 5; n++) {
                pool.execute(on.tells("" + n));
            }
            on.end();
            return words(on.told);
        });
        same("a task is removed before it begins", "true false false [b]", on -> {
            ExecutorService pool = on.open(1, 1, ANY);
            Runnable running = on.waits();
            Runnable queued = on.tells("a");
            pool.execute(running);
            pool.execute(queued);
            pool.execute(on.tells("b"));
            String told = words(on.pool.remove(queued), on.pool.remove(queued), on.pool.remove(running));
            on.end();
            return words(told, on.told);
        });
        same("cancelled futures are purged", "3 1 [c]", on -> {
            ExecutorService pool = on.open(1, 1, ANY);
            pool.execute(on.waits());
            pool.submit(on.tells("a")).cancel(false);
            pool.submit(on.tells("b")).cancel(false);
            pool.execute(on.tells("c"));
            int before = on.pool.queued();
            on.pool.purge();
            int after = on.pool.queued();
            on.end();
            return words(before, after, on.told);
        });
    }

    private static void ends() {
        page = "the end";
        same("behind a shutdown what was submitted is run", "true false true [a, b] true true", on -> {
            ExecutorService pool = on.open(1, 1, ANY);
            pool.execute(on.waits());
            pool.execute(on.tells("a"));
            pool.execute(on.tells("b"));
            pool.shutdown();
            pool.shutdown();
            String told = words(pool.isShutdown(), pool.isTerminated(), on.pool.isTerminating());
            on.end();
            return words(told, on.told, pool.isShutdown(), pool.isTerminated());
        });
        same("nothing more is taken", "RejectedExecutionException", on -> {
            ExecutorService pool = on.open(1, 1, ANY);
            pool.shutdown();
            return fault(() -> pool.submit(on.tells("a")));
        });
        same("a stop hands back what is queued, in order, and interrupts", "2 true [interrupted] true", on -> {
            ExecutorService pool = on.open(1, 1, ANY);
            CountDownLatch begun = new CountDownLatch(1);
            pool.execute(() -> {
                begun.countDown();
                on.waits().run();
            });
            begun.await();
            Runnable first = on.tells("a");
            pool.execute(first);
            pool.execute(on.tells("b"));
            List<Runnable> handed = pool.shutdownNow();
            boolean isEnded = pool.awaitTermination(10, TimeUnit.SECONDS);
            return words(handed.size(), handed.get(0) == first, on.told, isEnded);
        });
        same("what a stop handed back can be run", "false [a] true", on -> {
            ExecutorService pool = on.open(1, 1, ANY);
            pool.execute(on.waits());
            Future<?> queued = pool.submit(on.tells("a"));
            List<Runnable> handed = pool.shutdownNow();
            boolean before = queued.isDone();
            on.end();
            on.told.remove("interrupted");
            handed.get(0).run();
            return words(before, on.told, queued.isDone());
        });
        same("a wait ends when its time is over", "false", on -> {
            ExecutorService pool = on.open(1, 1, ANY);
            pool.execute(on.waits());
            pool.shutdown();
            return words(pool.awaitTermination(20, TimeUnit.MILLISECONDS));
        });
        same("a wait is interrupted", "InterruptedException", on -> {
            ExecutorService pool = on.open(1, 1, ANY);
            Thread.currentThread().interrupt();
            return fault(() -> pool.awaitTermination(10, TimeUnit.SECONDS));
        });
        same("a pool with no threads ends at once", "true [terminated]", on -> {
            ExecutorService pool = on.open(1, 1, ANY);
            pool.shutdown();
            return words(pool.isTerminated(), on.pool.heard());
        });
        same("close waits for the end", "true [a]", on -> {
            ExecutorService pool = on.open(1, 1, ANY);
            pool.execute(() -> {
                until50();
                on.told.add("a");
            });
            on.pool.close();
            return words(pool.isTerminated(), on.told);
        });
        same("close that is interrupted stops", "true [interrupted] true", on -> {
            ExecutorService pool = on.open(1, 1, ANY);
            CountDownLatch begun = new CountDownLatch(1);
            pool.execute(() -> {
                begun.countDown();
                on.waits().run();
            });
            begun.await();
            Thread.currentThread().interrupt();
            on.pool.close();
            return words(pool.isTerminated(), on.told, Thread.interrupted());
        });
    }

    private static void until50() {
        try {
            Thread.sleep(50);
        } catch (InterruptedException fault) {
            throw new AssertionError(fault);
        }
    }

    private static void futures() {
        page = "futures";
        same("values", "5 null 6", on -> {
            ExecutorService pool = on.open(1, 1, ANY);
            return words(pool.submit(() -> 5).get(), pool.submit(on.tells("")).get(), pool.submit(on.tells(""), 6).get());
        });
        same("faults", "ExecutionException of IllegalStateException", on -> {
            ExecutorService pool = on.open(1, 1, ANY);
            Future<?> future = pool.submit(() -> {
                throw new IllegalStateException();
            });
            return fault(future::get);
        });
        same("a queued one that is cancelled never begins", "true false true true CancellationException []", on -> {
            ExecutorService pool = on.open(1, 1, ANY);
            pool.execute(on.waits());
            Future<?> future = pool.submit(on.tells("a"));
            String told = words(future.cancel(false), future.cancel(false), future.isCancelled(), future.isDone(), fault(future::get));
            on.end();
            return words(told, on.told);
        });
        same("a running one is interrupted", "true CancellationException [interrupted]", on -> {
            ExecutorService pool = on.open(1, 1, ANY);
            CountDownLatch begun = new CountDownLatch(1);
            Future<?> future = pool.submit(() -> {
                begun.countDown();
                on.waits().run();
            });
            begun.await();
            String told = words(future.cancel(true), fault(future::get));
            until(() -> !on.told.isEmpty());
            return words(told, on.told);
        });
        same("or is not, where that is asked", "true CancellationException []", on -> {
            ExecutorService pool = on.open(1, 1, ANY);
            CountDownLatch begun = new CountDownLatch(1);
            Future<?> future = pool.submit(() -> {
                begun.countDown();
                on.waits().run();
            });
            begun.await();
            String told = words(future.cancel(false), fault(future::get));
            on.end();
            return words(told, on.told);
        });
        same("one that is done is not cancelled", "false false", on -> {
            ExecutorService pool = on.open(1, 1, ANY);
            Future<?> future = pool.submit(on.tells(""));
            future.get();
            return words(future.cancel(true), future.isCancelled());
        });
        same("an interrupt does not reach the next task", "0", on -> {
            ExecutorService pool = on.open(1, 1, ANY);
            AtomicInteger strays = new AtomicInteger();
            for (int n = 0; n < 300; n++) {
                Future<?> future = pool.submit(Thread::onSpinWait);
                Future<?> next = pool.submit(() -> strays.addAndGet(Thread.currentThread().isInterrupted() ? 1 : 0));
                future.cancel(true);
                next.get();
            }
            return words(strays.get());
        });
        same("a wait for a value ends when its time is over", "TimeoutException", on -> {
            ExecutorService pool = on.open(1, 1, ANY);
            Future<?> future = pool.submit(on.waits());
            return fault(() -> future.get(20, TimeUnit.MILLISECONDS));
        });
        same("a submitter that is interrupted submits", "true [a]", on -> {
            ExecutorService pool = on.open(1, 1, ANY);
            Thread.currentThread().interrupt();
            pool.execute(on.tells("a"));
            boolean isKept = Thread.interrupted();
            on.end();
            return words(isKept, on.told);
        });
        same("a future of one's own is a task like any other", "3 true", on -> {
            ExecutorService pool = on.open(1, 1, ANY);
            FutureTask<Integer> own = new FutureTask<>(() -> 3);
            pool.execute(own);
            int value = own.get();
            return words(value, own.isDone());
        });
    }

    private static void many() {
        page = "many tasks";
        Callable<Integer> fails = () -> {
            throw new IllegalStateException();
        };
        same("all of them, in their order", "[1, 2, 3] true", on -> {
            ExecutorService pool = on.open(2, 2, ANY);
            List<Future<Integer>> futures = pool.invokeAll(List.of(() -> 1, () -> 2, () -> 3));
            List<Integer> values = new ArrayList<>();
            for (Future<Integer> future : futures) {
                values.add(future.get());
            }
            return words(values, futures.stream().allMatch(Future::isDone));
        });
        same("all of them, with faults", "true ExecutionException of IllegalStateException", on -> {
            ExecutorService pool = on.open(2, 2, ANY);
            List<Future<Integer>> futures = pool.invokeAll(List.of(() -> 1, fails));
            return words(futures.stream().allMatch(Future::isDone), fault(futures.get(1)::get));
        });
        same("what is not done in time is cancelled", "1 true true", on -> {
            ExecutorService pool = on.open(1, 1, ANY);
            Callable<Integer> waits = () -> {
                on.gate.await();
                return 2;
            };
            List<Future<Integer>> futures = pool.invokeAll(List.of(() -> 1, waits, () -> 3), 1500, TimeUnit.MILLISECONDS);
            return words(futures.get(0).get(), futures.get(1).isCancelled(), futures.get(2).isCancelled());
        });
        same("one of them that succeeds", "2", on -> {
            ExecutorService pool = on.open(2, 2, ANY);
            return words(pool.invokeAny(List.of(fails, () -> 2, fails)));
        });
        same("the others are cancelled", "1 [interrupted]", on -> {
            ExecutorService pool = on.open(2, 2, ANY);
            CountDownLatch begun = new CountDownLatch(1);
            Callable<Integer> waits = () -> {
                begun.countDown();
                on.waits().run();
                return 2;
            };
            Callable<Integer> quick = () -> {
                begun.await();
                return 1;
            };
            int value = pool.invokeAny(List.of(waits, quick));
            until(() -> !on.told.isEmpty());
            return words(value, on.told);
        });
        same("none that succeeds", "ExecutionException of IllegalStateException", on -> {
            ExecutorService pool = on.open(2, 2, ANY);
            return fault(() -> pool.invokeAny(List.of(fails, fails)));
        });
        same("none in time", "TimeoutException", on -> {
            ExecutorService pool = on.open(1, 1, ANY);
            return fault(() -> pool.invokeAny(List.of(call(on.waits())), 30, TimeUnit.MILLISECONDS));
        });
        same("none at all", "IllegalArgumentException NullPointerException", on -> {
            ExecutorService pool = on.open(1, 1, ANY);
            return words(fault(() -> pool.invokeAny(List.<Callable<Integer>>of())), fault(() -> pool.invokeAny(null)));
        });
        same("a completion service tells who is done first", "2 1 null", on -> {
            ExecutorService pool = on.open(2, 2, ANY);
            ExecutorCompletionService<Integer> done = new ExecutorCompletionService<>(pool);
            done.submit(() -> {
                on.gate.await();
                return 1;
            });
            done.submit(() -> 2);
            int first = done.take().get();
            on.gate.countDown();
            return words(first, done.take().get(), done.poll());
        });
        same("also of what failed or was cancelled", "ExecutionException of IllegalStateException CancellationException", on -> {
            ExecutorService pool = on.open(1, 1, ANY);
            ExecutorCompletionService<Integer> done = new ExecutorCompletionService<>(pool);
            done.submit(fails);
            String first = fault(done.take()::get);
            pool.execute(on.waits());
            done.submit(() -> 1).cancel(false);
            on.gate.countDown();
            return words(first, fault(done.take()::get));
        });
    }

    /** Plays a case, and tells what was seen; with an audit of the record, where there is one. */
    private static String played(Case one, Function<Pools.Settings, Pools.Pool> maker) {
        Stage stage = new Stage(maker);
        String seen;
        try {
            seen = one.play.of(stage);
            Thread.interrupted();
            stage.end();
            if (stage.pool != null && stage.pool.service() instanceof RecordedThreadPoolExecutor pool) {
                Told told = pool.audit();
                seen += told.status() == 0 && told.output().contains("\nstate terminated\n") ? "" : " RECORD " + told;
            }
        } catch (Throwable fault) {
            fault.printStackTrace();
            seen = "THROWN " + fault;
        }
        return seen;
    }

    public static void main(String[] arguments) {
        sizes();
        clocks();
        rejections();
        hooks();
        queues();
        ends();
        futures();
        many();
        int wrong = 0;
        int apart = 0;
        for (Case one : TABLE) {
            if (arguments.length > 0 && !one.name.contains(arguments[0])) {
                continue;
            }
            String jdk = played(one, Pools::jdk);
            String ours = played(one, Pools::ours);
            boolean isRight = jdk.equals(one.seen) && ours.equals(one.ours);
            wrong += isRight ? 0 : 1;
            apart += one.why.isEmpty() ? 0 : 1;
            System.out.println((isRight ? "ok    " : "WRONG ") + one.name + (one.why.isEmpty() ? "" : " -- differs: " + one.why));
            if (!isRight) {
                System.out.println("        JDK  " + jdk + ", and it is to be " + one.seen);
                System.out.println("        ours " + ours + ", and it is to be " + one.ours);
            }
        }
        System.out.println(TABLE.size() + " cases, " + wrong + " wrong; in " + apart + " ours differs, for the reason that stands there");
        System.exit(wrong == 0 ? 0 : 1);
    }
}
