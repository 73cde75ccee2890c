package io.zellunkay;

import java.io.IOException;
import java.io.InputStream;
import java.nio.ByteBuffer;
import java.nio.ByteOrder;
import java.nio.file.Files;
import java.nio.file.Path;
import java.nio.file.StandardCopyOption;

/** The calls of the library, and their numbers, as the header zellunkay.h has them. A machine's calls are made one at a time. */
final class Core {
    private static final int VERSION = 1;

    static final int FUTURE = 1;
    static final int PLAIN = 0;

    /** What is asked. */
    static final class Ask {
        static final int VERDICT = 6;
        static final int CALLER_END = 7;
        static final int OPEN = 8;
        static final int FAIL = 9;
        static final int END = 12;
        static final int LEAVE = 13;
        static final int SHUTDOWN = 14;
        static final int STOP = 15;
        static final int TIDY = 16;
        static final int ENDED = 17;
        static final int REMOVE = 18;
        static final int PURGE = 19;
        static final int CANCEL = 20;
        static final int CORE = 22;
        static final int MAXIMUM = 23;
        static final int KEEP = 24;
        static final int CORE_TIMEOUT = 25;
        static final int TICK = 26;
        static final int PRESTART = 27;

        private Ask() {
        }
    }

    /** What is answered. */
    static final class What {
        static final int RESERVE = 1;
        static final int QUEUED = 4;
        static final int HAND = 5;
        static final int REJECTED = 10;
        static final int SKIP = 12;
        static final int DISCARDED = 13;
        static final int RETRY_DROP = 15;
        static final int LIVE = 16;
        static final int LEAVE = 22;
        static final int IDLE = 23;
        static final int RUN = 24;
        static final int YES = 26;

        private What() {
        }
    }

    static final int PLACE_QUEUED = 4;
    static final int PLACE_GONE = 9;

    static {
        load();
        if (version() != VERSION) {
            throw new UnsatisfiedLinkError("the library has calls of version " + version() + ", and this package is for version " + VERSION);
        }
    }

    private Core() {
    }

    /** Loads the library that the property zellunkay.library names, or else that of this package, from a temporary file. */
    private static void load() {
        String named = System.getProperty("zellunkay.library");
        if (named != null) {
            System.load(Path.of(named).toAbsolutePath().toString());
            return;
        }
        String name = System.getProperty("os.name").toLowerCase() + "-" + System.getProperty("os.arch") + "/libzellunkay_java.so";
        try (InputStream library = Core.class.getResourceAsStream(name)) {
            if (library == null) {
                throw new UnsatisfiedLinkError("this package has no io/zellunkay/" + name + ": the property zellunkay.library may name a library of your own");
            }
            Path file = Files.createTempFile("zellunkay", ".so");
            try {
                Files.copy(library, file, StandardCopyOption.REPLACE_EXISTING);
                System.load(file.toString());
            } finally {
                Files.delete(file);
            }
        } catch (IOException error) {
            throw new UnsatisfiedLinkError("the library can't be written to a temporary file: " + error);
        }
    }

    static native int version();

    static native String reason(int status);

    private static native long address(ByteBuffer buffer);

    static native long open(byte[] line, int recorder);

    static native int close(long machine);

    static native int step(long machine, int by, int ask, long first, long second, long value, long answer);

    static native int enter(long machine, int by, int kind, long entered);

    static native int turn(long machine, int by, int ends, long slot, long turned);

    private static native int view(long machine, long view);

    private static native int task(long machine, int task, long view);

    static native int release(long machine, int task);

    static native long handed(long machine, long index);

    static native byte[] record(long machine, int[] status);

    static native byte[] text(int kind, byte[] text, long number, int[] status);

    private static ByteBuffer buffer(int size) {
        return ByteBuffer.allocateDirect(size).order(ByteOrder.nativeOrder());
    }

    /** Room for some answers, one behind the other. */
    static final class Answers {
        private static final int SIZE = 32;

        private final ByteBuffer buffer;
        final long at;

        Answers(int count) {
            buffer = buffer(count * SIZE);
            at = address(buffer);
        }

        int what(int index) {
            return buffer.getInt(index * SIZE);
        }

        int task(int index) {
            return buffer.getInt(index * SIZE + 8);
        }

        int number(int index) {
            return buffer.getInt(index * SIZE + 12);
        }

        long slot(int index) {
            return buffer.getLong(index * SIZE + 16);
        }

        /** What the submitter asks next, 0 where nothing. */
        int next(int index) {
            return buffer.getInt(index * SIZE + 24);
        }
    }

    /** What is seen of a machine now. */
    static PoolView viewOf(long machine) {
        ByteBuffer view = buffer(PoolView.SIZE);
        Refused.unlessDone(view(machine, address(view)));
        return PoolView.of(view);
    }

    /** Where a task is now: a number of {@code zk_place}. One that the machine does not know is gone. */
    static int placeOf(long machine, int task) {
        ByteBuffer view = buffer(16);
        return task(machine, task, address(view)) == 0 ? view.getInt(0) : PLACE_GONE;
    }
}
