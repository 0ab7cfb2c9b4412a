import java.util.HashMap;
import java.util.Map;

import regcheck.Recorder;

/**
 * Records three clients of a cache in front of a database, and says whether what they saw is linearizable:
 * {@code java Cache faulty}, or {@code java Cache right}. The faulty one keeps a value that it read before a
 * write. tests/languages compares what all languages say of it.
 */
final class Cache {
    private final Map<String, Long> database = new HashMap<>();
    private final Map<String, Long> kept = new HashMap<>();
    private final Map<String, Integer> writes = new HashMap<>();
    private final boolean counts; // whether it keeps nothing that it read before a write
    private Runnable loaded = () -> {}; // called between reading the database and keeping the value

    Cache(boolean counts) {
        this.counts = counts;
    }

    synchronized void set(String key, long value) {
        database.put(key, value);
        writes.merge(key, 1, Integer::sum);
        kept.remove(key);
    }

    Long get(String key) {
        Long value;
        int before;
        synchronized (this) {
            if (kept.containsKey(key)) {
                return kept.get(key);
            }
            value = database.get(key);
            before = writes.getOrDefault(key, 0);
        }
        loaded.run();
        synchronized (this) {
            if (!counts || writes.getOrDefault(key, 0) == before) {
                kept.put(key, value);
            }
        }
        return value;
    }

    /**
     * The writer writes again, in a thread of its own, while the reader's answer from the
     * database is on its way.
     */
    static void record(Recorder recorder, boolean counts) {
        Cache store = new Cache(counts);
        Recorder.Client writer = recorder.client("thread-1", "cache");
        writer.write("x", value -> store.set("x", value));
        store.loaded = () -> Toy.aside(() -> writer.write("x", value -> store.set("x", value)));
        recorder.client("thread-2", "cache").read("x", () -> store.get("x"));
        recorder.client("thread-3", "cache").read("x", () -> store.get("x"));
    }

    public static void main(String[] words) {
        Toy.run("cache", words, Cache::record);
    }
}
