import java.nio.file.*;
import java.util.*;
import java.util.concurrent.*;
import java.util.concurrent.atomic.AtomicReference;

/**
 * Has the callers of a file for `poolrun explore` live with a java.util.concurrent.ThreadPoolExecutor, so many times, and prints how often
 * each end was seen, as `12 a run 1; b rejected; terminated`. A call that stands here for none of Java's ends the program with a message.
 *
 *     java Lives.java FILE LIVES
 */
public class Lives {
    /** What is known of a submission: its job, and the first fate that it got. */
    static class Row {
        final String outcome;
        final int priority;
        final boolean isFuture;
        final AtomicReference<String> fate = new AtomicReference<>();
        final CountDownLatch submitted = new CountDownLatch(1);
        volatile Runnable job;

        Row(String outcome, int priority, boolean isFuture) {
            this.outcome = outcome;
            this.priority = priority;
            this.isFuture = isFuture;
        }

        void end(String fate) {
            this.fate.compareAndSet(null, fate);
        }
    }

    /** One life of a pool with its callers. */
    static class Life {
        final Random random = new Random();
        final Map<String, Row> rows = new TreeMap<>();
        final Map<Runnable, Row> jobs = new ConcurrentHashMap<>();
        volatile ThreadPoolExecutor pool;
        volatile boolean isStopped;

        /** Lets some time pass, mostly none, so that each order of the threads comes. */
        void pause() {
            int choice = ThreadLocalRandom.current().nextInt(8);
            if (choice == 0) {
                Thread.yield();
            }
            int spins = choice < 3 ? 0 : ThreadLocalRandom.current().nextInt(1 << (2 * choice));
            for (int i = 0; i < spins; i++) {
                Thread.onSpinWait();
            }
        }

        Object body(Row row, Thread caller) throws Exception {
            pause();
            String how = Thread.currentThread() == caller ? "caller " : "run ";
            row.end(how + row.outcome);
            if (row.outcome.startsWith("!")) {
                throw new IllegalStateException(row.outcome);
            }
            return row.outcome;
        }

        void submit(Row row) {
            Thread caller = Thread.currentThread();
            if (row.isFuture) {
                row.job = new FutureTask<Object>(() -> body(row, caller));
            } else {
                row.job = () -> {
                    try {
                        body(row, caller);
                    } catch (Exception fault) {
                        throw new IllegalStateException(fault);
                    }
                };
            }
            jobs.put(row.job, row);
            try {
                pool.execute(row.job);
            } catch (RejectedExecutionException refused) {
                row.end("rejected");
            } finally {
                row.submitted.countDown();
            }
        }

        /** The four policies, as the JDK writes them; each says which job it drops. */
        void reject(String policy, Runnable job, ThreadPoolExecutor pool) {
            switch (policy) {
                case "abort" -> throw new RejectedExecutionException();
                case "callerruns" -> {
                    if (!pool.isShutdown()) {
                        job.run();
                    } else {
                        jobs.get(job).end("discarded");
                    }
                }
                case "discard" -> jobs.get(job).end("discarded");
                case "discardoldest" -> {
                    if (!pool.isShutdown()) {
                        Runnable oldest = pool.getQueue().poll();
                        if (oldest != null) {
                            jobs.get(oldest).end("discarded");
                        }
                        pool.execute(job);
                    } else {
                        jobs.get(job).end("discarded");
                    }
                }
                default -> throw unknown("policy " + policy);
            }
        }

        void call(String call) throws InterruptedException {
            String[] words = call.split(" ");
            Row row = words.length > 1 ? rows.get(words[1]) : null;
            switch (words[0]) {
                case "shutdown" -> pool.shutdown();
                case "stop" -> {
                    isStopped = true;
                    for (Runnable job : pool.shutdownNow()) {
                        jobs.get(job).end("handedback");
                    }
                }
                case "purge" -> pool.purge();
                case "prestart" -> pool.prestartCoreThread();
                case "core" -> pool.setCorePoolSize(Integer.parseInt(words[1]));
                case "max" -> pool.setMaximumPoolSize(Integer.parseInt(words[1]));
                case "coretimeout" -> pool.allowCoreThreadTimeOut(words[1].equals("on"));
                case "cancel" -> {
                    row.submitted.await();
                    if (row.isFuture && ((FutureTask<?>) row.job).cancel(words.length > 2)) {
                        row.end("cancelled");
                    }
                }
                case "remove" -> {
                    row.submitted.await();
                    if (pool.remove(row.job)) {
                        row.end("removed");
                    }
                }
                case "await" -> {
                    if (call.equals("await end")) {
                        pool.awaitTermination(1, TimeUnit.SECONDS);
                    } else {
                        while (row.fate.get() == null) {
                            Thread.sleep(0, 1000);
                        }
                    }
                }
                default -> throw unknown(call);
            }
        }

        /** What became of the tasks, once nobody moves: after five seconds, where a task or the pool never ends. */
        String end() throws InterruptedException {
            if (pool.isShutdown()) {
                pool.awaitTermination(5, TimeUnit.SECONDS);
            }
            long until = System.nanoTime() + 5_000_000_000L;
            StringBuilder end = new StringBuilder();
            for (Map.Entry<String, Row> named : rows.entrySet()) {
                while (named.getValue().fate.get() == null && System.nanoTime() < until) {
                    Thread.sleep(0, 1000);
                }
                String fate = named.getValue().fate.get();
                end.append(named.getKey()).append(' ').append(fate == null ? "open" : fate).append("; ");
            }
            if (pool.isTerminated()) {
                return end.append("terminated").toString();
            }
            return end.append(!pool.isShutdown() ? "running" : isStopped ? "stop" : "shutdown").toString();
        }
    }

    static IllegalArgumentException unknown(String what) {
        return new IllegalArgumentException("no call of Java's stands here for: " + what);
    }

    /** The job that a call submits; null where it is another call. */
    static Row rowOf(String job) {
        String[] words = job.split(" ");
        if (words[0].equals("group")) {
            throw unknown(job);
        }
        if (!words[0].equals("execute") && !words[0].equals("submit")) {
            return null;
        }
        return new Row(words[1], words.length > 3 ? Integer.parseInt(words[3]) : 0, words[0].equals("submit"));
    }

    static BlockingQueue<Runnable> queueOf(Life life, String[] words) {
        return switch (words[3]) {
            case "handoff" -> new SynchronousQueue<>();
            case "unbounded" -> new LinkedBlockingQueue<>();
            case "bounded" -> new ArrayBlockingQueue<>(Integer.parseInt(words[4]));
            case "priority" -> new PriorityBlockingQueue<>(11, Comparator.comparingInt((Runnable job) -> life.jobs.get(job).priority));
            default -> throw unknown(words[3]);
        };
    }

    /** The pool of a pool line. No tick passes, so a keep-alive that is not 0 never ends. */
    static ThreadPoolExecutor poolOf(Life life, String line, String factory) {
        String[] words = line.split(" ");
        int keep = Arrays.asList(words).indexOf("keep");
        String policy = words[keep + 2];
        ThreadFactory made = body -> {
            boolean refuses = factory.equals("refuses") || factory.equals("may refuse") && life.random.nextInt(3) == 0;
            if (refuses) {
                return null;
            }
            Thread thread = new Thread(body);
            thread.setDaemon(true);
            thread.setUncaughtExceptionHandler((in, fault) -> {});
            return thread;
        };
        ThreadPoolExecutor pool = new ThreadPoolExecutor(
            Integer.parseInt(words[1]), Integer.parseInt(words[2]), words[keep + 1].equals("0") ? 0 : 10_000, TimeUnit.SECONDS,
            queueOf(life, words), made, (job, at) -> life.reject(policy, job, at));
        if (line.contains(" coretimeout")) {
            pool.allowCoreThreadTimeOut(true);
        }
        return pool;
    }

    /** The calls of a caller, each of which it makes; its submissions are known by their names from now on. */
    static List<Callable<Void>> callsOf(Life life, String line, int caller) {
        List<Callable<Void>> calls = new ArrayList<>();
        for (String said : line.split("; ")) {
            int colon = said.indexOf(": ");
            Row row = rowOf(colon < 0 ? said : said.substring(colon + 2));
            if (row != null) {
                life.rows.put(colon < 0 ? "c" + caller + "." + calls.size() : said.substring(0, colon), row);
            }
            calls.add(() -> {
                if (row != null) {
                    life.submit(row);
                } else {
                    life.call(said);
                }
                return null;
            });
        }
        return calls;
    }

    static String live(List<String> lines) throws Exception {
        Life life = new Life();
        String factory = "consents";
        List<List<Callable<Void>>> callers = new ArrayList<>();
        for (String line : lines) {
            if (line.startsWith("factory ")) {
                factory = line.substring(8);
            } else if (line.startsWith("caller ")) {
                callers.add(callsOf(life, line.substring(7), callers.size()));
            }
        }
        life.pool = poolOf(life, lines.get(0), factory);
        CyclicBarrier start = new CyclicBarrier(callers.size());
        List<Thread> threads = new ArrayList<>();
        for (List<Callable<Void>> calls : callers) {
            Thread thread = new Thread(() -> {
                try {
                    start.await();
                    for (Callable<Void> call : calls) {
                        life.pause();
                        call.call();
                    }
                } catch (Exception fault) {
                    throw new IllegalStateException(fault);
                }
            });
            threads.add(thread);
            thread.start();
        }
        for (Thread thread : threads) {
            thread.join();
        }
        String end = life.end();
        life.pool.shutdownNow();
        return end;
    }

    public static void main(String[] words) throws Exception {
        List<String> lines = new ArrayList<>();
        for (String line : Files.readAllLines(Path.of(words[0]))) {
            if (!line.isEmpty() && !line.startsWith("#")) {
                lines.add(line);
            }
        }
        Map<String, Integer> seen = new TreeMap<>();
        for (int i = 0; i < Integer.parseInt(words[1]); i++) {
            seen.merge(live(lines), 1, Integer::sum);
        }
        seen.forEach((end, count) -> System.out.println(count + " " + end));
    }
}
