import java.util.concurrent.atomic.AtomicLong;

import regcheck.Recorder;

/**
 * Records two clients that take a lock by compare-and-swap at once, and says whether what they saw is
 * linearizable: {@code java Lock faulty}, or {@code java Lock right}. The faulty register compares and swaps
 * in two steps, so both clients get the lock. tests/languages compares what all languages say of it.
 */
final class Lock {
    private final AtomicLong value = new AtomicLong();
    private final boolean looksAgain; // whether it swaps only what it still finds
    private Runnable compared = () -> {}; // called between its two steps

    Lock(boolean looksAgain) {
        this.looksAgain = looksAgain;
    }

    boolean swap(long from, long to) {
        if (value.get() != from) {
            return false;
        }
        Runnable between = compared;
        compared = () -> {};
        between.run();
        if (looksAgain) {
            return value.compareAndSet(from, to);
        }
        value.set(to);
        return true;
    }

    /**
     * A second client takes the lock, in a thread of its own, while the first one is between its two steps.
     */
    static void record(Recorder recorder, boolean right) {
        Lock store = new Lock(right);
        Recorder.Client first = recorder.client("thread-1", "register");
        first.write("lock", 0, store.value::set);
        store.compared = () -> Toy.aside(() -> first.cas("lock", 0L, 1, () -> store.swap(0, 1)));
        recorder.client("thread-2", "register").cas("lock", 0L, 1, () -> store.swap(0, 1));
        first.write("lock", 0, store.value::set);
        recorder.client("thread-3", "register").read("lock", store.value::get);
    }

    public static void main(String[] words) {
        Toy.run("lock", words, Lock::record);
    }
}
