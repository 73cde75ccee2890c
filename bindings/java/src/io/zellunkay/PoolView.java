package io.zellunkay;

import java.nio.ByteBuffer;

/**
 * What is seen of a pool, all of one moment.
 *
 * @param state 0 running, 1 shutdown, 2 stop, 3 tidying, 4 terminated
 * @param submitted tasks so far
 * @param run tasks that workers ran
 * @param caller tasks that their submitters ran
 * @param rejected tasks that were rejected
 * @param discarded tasks that were discarded
 * @param handedback tasks that {@code shutdownNow} handed back
 * @param removed tasks that were removed from the queue
 * @param cancelled tasks that were cancelled
 * @param completed tasks that workers brought to their end, cancelled ones too
 * @param queued tasks that are in the queue now
 * @param live workers now
 * @param largest the most workers at once
 * @param core the core size
 * @param slots workers now, with those that are being made
 * @param now the moment, in milliseconds
 * @param steps entries so far
 */
public record PoolView(
        int state, int submitted, int run, int caller, int rejected, int discarded, int handedback, int removed, int cancelled,
        int completed, int queued, int live, int largest, int core, long slots, long now, long steps) {
    static final int SIZE = 14 * 4 + 3 * 8;

    static PoolView of(ByteBuffer raw) {
        return new PoolView(
                raw.getInt(), raw.getInt(), raw.getInt(), raw.getInt(), raw.getInt(), raw.getInt(), raw.getInt(), raw.getInt(), raw.getInt(),
                raw.getInt(), raw.getInt(), raw.getInt(), raw.getInt(), raw.getInt(), raw.getLong(), raw.getLong(), raw.getLong());
    }
}
