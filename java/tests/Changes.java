import regcheck.Recorder;

/**
 * Records one client that creates, replaces, swaps, deletes and locks, and says whether what it saw is
 * linearizable: {@code java Changes faulty}, or {@code java Changes right}. The faulty store gives a value
 * that was deleted. tests/languages compares what all languages say of it.
 */
final class Changes {
    private Changes() {
    }

    /** One client makes all calls, while another one says when a value may expire. */
    static void record(Recorder recorder, boolean right) {
        Recorder.Client client = recorder.client("thread-1", "store");
        Recorder.Client expiring = recorder.client("thread-2", "store");
        client.create("x", 5, () -> true);
        client.create("x", 6, () -> false);
        client.replace("x", 7, () -> true);
        client.swap("x", 8, () -> 7);
        expiring.expires("x", 8);
        client.deleteFound("x", () -> true);
        client.read("x", () -> right ? null : 8);
        client.delete("x", () -> {});
        client.lock("lock", 1, () -> true);
        client.unlock("lock", 1, () -> true);
    }

    public static void main(String[] words) {
        Toy.run("changes", words, Changes::record);
    }
}
