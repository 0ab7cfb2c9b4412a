import java.io.OutputStream;
import java.nio.file.Path;
import java.util.concurrent.atomic.AtomicLong;

import regcheck.Recorder;

/**
 * Runs toy stores whose events are the same in each language. tests/languages compares what is said of them.
 */
final class Toy {
    interface Store {
        void record(Recorder recorder, boolean right);
    }

    /**
     * Records one run of a store, and prints the verdict in words. The first word of the command line says
     * which store: faulty or right, or, for the right one and a search that soon gives up, bounded.
     */
    static void run(String name, String[] words, Store store) {
        AtomicLong time = new AtomicLong();
        Recorder recorder = new Recorder(OutputStream.nullOutputStream(), () -> time.addAndGet(1_000_000))
                .keepIn(Path.of("kept"));
        if (words[0].equals("bounded")) {
            recorder.steps(1);
        }
        store.record(recorder, !words[0].equals("faulty"));
        try {
            recorder.assertLinearizable(name);
            System.out.println("linearizable");
        } catch (Recorder.NotLinearizable | Recorder.NotChecked none) {
            System.out.println(none.getMessage());
            System.exit(1);
        }
    }

    /** Does something in a thread of its own, and waits for its end. */
    static void aside(Runnable action) {
        Thread thread = new Thread(action);
        thread.start();
        try {
            thread.join();
        } catch (InterruptedException error) {
            throw new IllegalStateException(error);
        }
    }
}
