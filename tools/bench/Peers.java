import java.util.ArrayList;
import java.util.List;
import java.util.concurrent.LinkedBlockingQueue;
import java.util.concurrent.ThreadPoolExecutor;
import java.util.concurrent.TimeUnit;

/** What `lab_bench raw` times, of Java's pool: `java Peers.java COURSE WORKERS SUBMITTERS TASKS TURNS RUNS`. The first runs warm up, and are not printed. */
public final class Peers {
    private static final int WARM_UPS = 12;

    private record Crowd(int workers, int submitters, int tasks, int turns) {
        ThreadPoolExecutor pool() {
            var pool = new ThreadPoolExecutor(workers, workers, 1, TimeUnit.SECONDS, new LinkedBlockingQueue<>());
            pool.prestartAllCoreThreads();
            return pool;
        }

        Runnable job() {
            int turns = this.turns;
            return () -> {
                for (int turn = 0; turn < turns; turn++) Thread.onSpinWait();
            };
        }

        void submit(ThreadPoolExecutor pool) {
            for (int task = 0; task < tasks; task++) pool.execute(job());
        }

        void run(ThreadPoolExecutor pool) throws Exception {
            List<Thread> others = new ArrayList<>();
            for (int other = 1; other < submitters; other++) {
                var thread = new Thread(() -> submit(pool));
                thread.start();
                others.add(thread);
            }
            submit(pool);
            for (var other : others) other.join();
            pool.shutdown();
            if (!pool.awaitTermination(1, TimeUnit.MINUTES) || pool.getCompletedTaskCount() != (long) tasks * submitters) throw new IllegalStateException("another number of tasks ran");
        }
    }

    private static List<Long> times(String course, Crowd crowd) throws Exception {
        long before = System.nanoTime();
        var pool = crowd.pool();
        switch (course) {
            case "life" -> crowd.run(pool);
            case "through" -> {
                Thread.sleep(1);
                before = System.nanoTime();
                crowd.run(pool);
            }
            case "answer" -> {
                return answers(pool, crowd);
            }
            default -> throw new IllegalArgumentException(course);
        }
        return List.of(System.nanoTime() - before);
    }

    private static List<Long> answers(ThreadPoolExecutor pool, Crowd crowd) throws Exception {
        List<Long> times = new ArrayList<>();
        for (int task = 0; task < crowd.tasks; task++) {
            long submitted = System.nanoTime();
            pool.submit(() -> 0L).get();
            times.add(System.nanoTime() - submitted);
        }
        pool.shutdown();
        pool.awaitTermination(1, TimeUnit.MINUTES);
        return times;
    }

    public static void main(String[] words) throws Exception {
        var crowd = new Crowd(Integer.parseInt(words[1]), Integer.parseInt(words[2]), Integer.parseInt(words[3]), Integer.parseInt(words[4]));
        int runs = Integer.parseInt(words[5]);
        for (int run = -WARM_UPS; run < runs; run++) {
            var times = times(words[0], crowd);
            if (run < 0) continue;
            var text = new StringBuilder();
            for (long time : times) text.append("java ").append(time).append('\n');
            System.out.print(text);
        }
    }
}
