import java.io.ByteArrayOutputStream;
import java.io.File;
import java.io.IOException;
import java.io.OutputStream;
import java.nio.charset.StandardCharsets;
import java.nio.file.Files;
import java.nio.file.Path;
import java.util.ArrayList;
import java.util.Comparator;
import java.util.List;
import java.util.Map;
import java.util.TreeMap;
import java.util.concurrent.ConcurrentHashMap;
import java.util.concurrent.TimeoutException;
import java.util.concurrent.atomic.AtomicLong;
import java.util.function.Consumer;
import java.util.regex.Matcher;
import java.util.regex.Pattern;
import java.util.stream.Stream;

import regcheck.Recorder;

/** The tests of the recorder, for {@code java} alone. The exit status is 1 if one fails. */
final class RecorderTest {
    private static final String LINES = """
            {"process":1,"event":"call","op":"write","register":"x","value":1,"client":"one","node":"a","time":1000000}
            {"process":1,"event":"reply","register":"x","client":"one","node":"a","time":2000000}
            {"process":1,"event":"call","op":"write","register":"x","value":2,"client":"one","node":"a","time":3000000}
            {"process":2,"event":"call","op":"write","register":"\\u0022\\u00fc\\u005c","value":1,"client":"one","node":"a","time":4000000}
            {"process":2,"event":"fail","register":"\\u0022\\u00fc\\u005c","client":"one","node":"a","time":5000000}
            {"process":3,"event":"call","op":"read","register":"x","time":6000000}
            {"process":3,"event":"reply","register":"x","value":null,"time":7000000}
            {"process":3,"event":"call","op":"read","register":"x","time":8000000}
            {"process":3,"event":"reply","register":"x","value":-3,"time":9000000}
            {"process":3,"event":"call","op":"read","register":"x","time":10000000}
            {"process":3,"event":"reply","register":"x","value":9223372036854775807,"time":11000000}
            {"process":3,"event":"call","op":"write","register":"x","value":-3,"time":12000000}
            {"process":3,"event":"reply","register":"x","time":13000000}
            {"process":3,"event":"call","op":"cas","register":"x","from":null,"to":1,"time":14000000}
            {"process":3,"event":"reply","register":"x","ok":false,"time":15000000}
            {"process":3,"event":"call","op":"cas","register":"x","from":-3,"to":1,"time":16000000}
            {"process":3,"event":"reply","register":"x","ok":true,"time":17000000}
            {"process":3,"event":"call","op":"cas","register":"x","from":1,"to":0,"time":18000000}
            {"process":3,"event":"fail","register":"x","time":19000000}
            {"process":3,"event":"call","op":"cas","register":"x","from":1,"to":0,"time":20000000}
            {"process":2,"event":"call","op":"read","register":"x","client":"one","node":"a","time":21000000}
            """;

    private record Row(String name, String words, Consumer<Recorder> use) {}

    private static final List<Row> MISTAKES = List.of(
            new Row("no name", "is no register", recorder -> recorder.client("one").write("", value -> {})),
            new Row("a long name", "1 to 255 bytes",
                    recorder -> recorder.client("one").write("x".repeat(256), value -> {})),
            new Row("half a letter", "is no register",
                    recorder -> recorder.client("one").write("\ud800", value -> {})),
            new Row("a long client", "is no client", recorder -> recorder.client("x".repeat(256))),
            new Row("two calls at once", "for each thread", recorder -> {
                Recorder.Client one = recorder.client("one");
                one.write("x", value -> one.read("x", () -> value));
            }),
            new Row("a fraction", "the store gave \"1.0\"",
                    recorder -> recorder.client("one").read("x", () -> 1.0)),
            new Row("64 bits and one", "64 bits",
                    recorder -> recorder.client("one").read("x", () -> "9223372036854775808")),
            new Row("a text", "the store gave \"7a\"",
                    recorder -> recorder.client("one").read("x", () -> "7a")));

    private static Path folder;

    static void lines() throws Exception {
        ByteArrayOutputStream output = new ByteArrayOutputStream();
        AtomicLong time = new AtomicLong();
        Recorder recorder = new Recorder(output, () -> time.addAndGet(1_000_000));
        Recorder.Client one = recorder.client("one", "a"), two = recorder.client("");
        one.write("x", value -> {});
        thrown(TimeoutException.class, () -> one.<TimeoutException>write("x", value -> {
            throw new TimeoutException();
        }));
        thrown(Recorder.NoEffect.class, () -> one.write("\"\u00fc\\", value -> {
            throw new Recorder.NoEffect(new IOException("connection refused"));
        }));
        two.read("x", () -> null);
        two.read("x", () -> "-3".getBytes(StandardCharsets.UTF_8));
        expect(two.<Long, RuntimeException>read("x", () -> Long.MAX_VALUE) == Long.MAX_VALUE,
                "the value is handed on");
        two.write("x", -3, value -> expect(value == -3, "the value is handed on"));
        expect(!two.<RuntimeException>cas("x", null, 1, () -> false), "it missed");
        expect(two.<RuntimeException>cas("x", -3L, 1, () -> true), "it took place");
        thrown(Recorder.NoEffect.class, () -> two.cas("x", 1L, 0, () -> {
            throw new Recorder.NoEffect(new IOException("connection refused"));
        }));
        thrown(TimeoutException.class, () -> two.<TimeoutException>cas("x", 1L, 0, () -> {
            throw new TimeoutException();
        }));
        thrown(TimeoutException.class, () -> one.<Long, TimeoutException>read("x", () -> {
            throw new TimeoutException();
        }));
        expect(text(recorder.history()).equals(LINES), text(recorder.history()));
        expect(output.toString(StandardCharsets.UTF_8).equals(LINES), "the output has each line");
        expect(recorder.mistakes().isEmpty(), "there is no mistake");
    }

    static void mistakes() {
        for (Row row : MISTAKES) {
            Recorder recorder = new Recorder().keepIn(folder);
            Consumer<Recorder> asserted = used -> used.assertLinearizable(row.name());
            for (Consumer<Recorder> use : List.of(row.use(), asserted)) {
                String words = thrown(Recorder.Mistake.class, () -> use.accept(recorder)).getMessage();
                expect(words.contains(row.words()), row.name() + ": " + words);
            }
        }
        Recorder full = new Recorder(new OutputStream() {
            @Override
            public void write(int octet) throws IOException {
                throw new IOException("the disk is full");
            }
        }, System::nanoTime);
        full.client("one").write("x", value -> {});
        expect(full.mistakes().get(0).getMessage().contains("the disk is full"), "a lost line is a mistake");
    }

    static void threads() throws Exception {
        Recorder recorder = new Recorder().keepIn(folder);
        Map<String, String> store = new ConcurrentHashMap<>();
        List<Thread> threads = new ArrayList<>();
        for (int number = 0; number < 4; number++) {
            String own = "x" + number % 2;
            Recorder.Client client = recorder.client("worker-" + number);
            threads.add(new Thread(() -> {
                for (int round = 0; round < 25; round++) {
                    client.write(own, value -> store.put(own, Long.toString(value)));
                    client.read("x0", () -> store.get("x0"));
                }
            }));
        }
        threads.forEach(Thread::start);
        for (Thread thread : threads) {
            thread.join();
        }
        recorder.assertLinearizable("threads");
        Matcher times = Pattern.compile("\"time\":(\\d+)}").matcher(text(recorder.history()));
        long last = 0, count = 0;
        for (; times.find(); count++) {
            long time = Long.parseLong(times.group(1));
            expect(last <= time, "the times ascend");
            last = time;
        }
        expect(count == 400, count + " lines have a time");
    }

    static void evidence() {
        Recorder recorder = new Recorder().keepIn(folder);
        recorder.client("one").write("x", value -> {});
        Throwable little = thrown(
                Recorder.NotLinearizable.class, () -> recorder.assertLinearizable("little"));
        expect(little.getMessage().contains("no read was completed"), little.getMessage());
        recorder.client("one").read("x", () -> 1);
        recorder.assertLinearizable("little");
        Recorder cas = new Recorder().keepIn(folder);
        cas.client("one").cas("x", null, 1, () -> true);
        cas.assertLinearizable("a cas that was answered");
    }

    /**
     * Two cas that find no value, at once. A search of one step gives up, and one without
     * configurations is none.
     */
    static void unknown() {
        Recorder recorder = new Recorder().keepIn(folder);
        recorder.client("one").cas("x", null, 1, () -> recorder.client("two").cas("x", null, 1, () -> true));
        System.setProperty("regkit", "/nowhere/regkit");
        Action asserts = () -> recorder.assertLinearizable("two");
        String no = thrown(Recorder.NotLinearizable.class, asserts).getMessage();
        recorder.steps(1);
        String unknown = thrown(Recorder.NotChecked.class, asserts).getMessage();
        recorder.configurations(0);
        String refused = thrown(Recorder.NotChecked.class, asserts).getMessage();
        System.clearProperty("regkit");
        expect(refused.contains("no verdict: ") && refused.contains("'0' for '--configurations"), refused);
        expect(no.contains("two.jsonl: not linearizable") && no.contains("\"kind\":\"search\""), no);
        expect(unknown.contains("two.jsonl: unknown: the search gave up; raise its bounds")
                && unknown.contains("\"gave_up\":{\"bound\":\"steps\"}"), unknown);
    }

    static void valuesAfter() {
        Recorder.Client client = new Recorder().valuesAfter(1000).client("one");
        for (long want = 1001; want < 1004; want++) {
            long wanted = want;
            client.write("x", value -> expect(value == wanted, value + ", not " + wanted));
        }
    }

    static void faultWithoutRegkit() throws Exception {
        Recorder recorder = new Recorder().keepIn(folder);
        recorder.client("one").read("x", () -> 7);
        System.setProperty("regkit", "/nowhere/regkit");
        String words = thrown(
                Recorder.NotLinearizable.class, () -> recorder.assertLinearizable("a fault/1")).getMessage();
        System.clearProperty("regkit");
        List<String> parts = List.of("a_fault_1.jsonl: not linearizable", "\"kind\":\"unwritten\"",
                "/nowhere/regkit could not be run");
        for (String part : parts) {
            expect(words.contains(part), words);
        }
        expect(Files.readString(folder.resolve("a_fault_1.jsonl")).equals(text(recorder.history())),
                "the history is kept");
    }

    /** The words on any history are those of regkit: this one says its arguments. */
    static void words() throws Exception {
        Path regkit = folder.resolve("regkit");
        Files.writeString(regkit, "#!/bin/sh\necho \"$4: $*\"\nexit 1\n");
        expect(regkit.toFile().setExecutable(true), "regkit can be run");
        Recorder recorder = new Recorder();
        recorder.client("one").cas("x", null, 1, () -> recorder.client("two").cas("x", null, 1, () -> true));
        Recorder.Answer no = Recorder.check(recorder.history());
        System.setProperty("regkit", regkit.toString());
        String told = no.words(recorder.history());
        System.setProperty("regkit", "/nowhere/regkit");
        String none = thrown(Recorder.NotChecked.class, () -> no.words(recorder.history())).getMessage();
        System.clearProperty("regkit");
        expect(told.matches("explain --color never \\S+history.jsonl \\S+history.report"), told);
        expect(none.contains("/nowhere/regkit could not be run"), none);
        // A search of one step gives up, and regkit is told so.
        Recorder.Answer unknown = Recorder.check(recorder.history(), new Recorder.Bounds(1L, null));
        System.setProperty("regkit", regkit.toString());
        String bounded = unknown.words(recorder.history());
        System.clearProperty("regkit");
        expect(unknown.verdict() == Recorder.Verdict.UNKNOWN, unknown.toString());
        expect(bounded.matches("explain .* --steps 1"), bounded);
        expect(Recorder.check(new byte[0]).words(new byte[0]).isEmpty(), "of a yes there is nothing to say");
    }

    /** Failed tests of one name have files of their own; a pass deletes only those of an earlier run. */
    static void files() throws Exception {
        Path earlier = folder.resolve("earlier.report");
        Files.writeString(earlier, "");
        for (Row row : List.of(new Row("same", "same.jsonl", recorder -> read(recorder, 7)),
                new Row("same", "same-2.jsonl", recorder -> read(recorder, 8)))) {
            Recorder recorder = new Recorder().keepIn(folder);
            row.use().accept(recorder);
            for (int time = 0; time < 2; time++) {
                thrown(Recorder.NotLinearizable.class, () -> recorder.assertLinearizable(row.name()));
            }
            String kept = Files.readString(folder.resolve(row.words()));
            expect(kept.equals(text(recorder.history())), row.words() + ": " + kept);
        }
        expect(!Files.exists(folder.resolve("same-3.jsonl")), "a recorder has one name");
        for (String test : List.of("earlier", "same")) {
            Recorder right = new Recorder().keepIn(folder);
            read(right, null);
            right.assertLinearizable(test);
        }
        expect(!Files.exists(earlier), "a pass deletes what an earlier run left");
        expect(Files.exists(folder.resolve("same.report")), "a pass deletes no other test's files");
    }

    private static void read(Recorder recorder, Object value) {
        recorder.client("one").read("x", () -> value);
    }

    static void noVerdict() throws Exception {
        byte[] none = "[]\n".getBytes(StandardCharsets.UTF_8);
        String first = thrown(Recorder.NotChecked.class, () -> Recorder.check(none)).getMessage();
        expect(first.startsWith("line 1: "), "refused");
        System.setProperty("regsearch", "/nowhere/regsearch");
        String refused = thrown(Recorder.NotChecked.class, () -> Recorder.check(none)).getMessage();
        System.clearProperty("regsearch");
        expect(refused.contains("/nowhere/regsearch could not be run"), refused);
        System.setProperty("regcheck", "/nowhere/regcheck");
        String words = thrown(Recorder.NotChecked.class, () -> Recorder.check(none)).getMessage();
        System.clearProperty("regcheck");
        expect(words.contains("/nowhere/regcheck could not be run"), words);
        Path beside = Files.createDirectories(folder.resolve("beside/regsearch"));
        Path refusing = beside.resolveSibling("regcheck");
        Files.writeString(refusing, "#!/bin/sh\nexit 2\n");
        expect(refusing.toFile().setExecutable(true), "it can be run");
        System.setProperty("regcheck", refusing.toString());
        String notFound = thrown(Recorder.NotChecked.class, () -> Recorder.check(none)).getMessage();
        System.clearProperty("regcheck");
        expect(!notFound.contains("could not be run"), "a folder is taken for regsearch: " + notFound);
    }

    /** One session reads the newer value, and then the older one. */
    private static Recorder goesBack() {
        Recorder recorder = new Recorder().keepIn(folder);
        recorder.client("one").write("x", value -> {});
        Recorder.Client two = recorder.client("two");
        two.read("x", () -> 1);
        two.read("x", () -> null);
        return recorder;
    }

    static void levels() throws Exception {
        Recorder recorder = goesBack();
        recorder.assertLevel("level", Recorder.Level.OWN_WRITES);
        for (Recorder.Level level : Recorder.Level.values()) {
            if (level != Recorder.Level.OWN_WRITES) {
                thrown(Recorder.NotKept.class, () -> recorder.assertLevel("level", level));
            }
        }
        Action session = () -> recorder.assertLevel("level", Recorder.Level.SESSION);
        String words = thrown(Recorder.NotKept.class, session).getMessage();
        expect(words.contains("level.jsonl: keeps read your writes; ") && words.contains(
                "required: session, which doesn't hold of 1 of 1 register: \"x\""), words);
        expect(Files.readString(folder.resolve("level.html")).contains("</svg>"), "the page is drawn");
        expect(Files.readString(folder.resolve("level.report")).contains("\"session\":\"no\""), "the report");
        Recorder.LevelAnswer no = Recorder.checkLevel(recorder.history(), Recorder.Level.SESSION);
        String told = no.words(recorder.history());
        expect(told.startsWith("keeps read your writes; "), told);
        System.setProperty("regkit", "/nowhere/regkit");
        String brief = thrown(Recorder.NotKept.class, session).getMessage();
        System.clearProperty("regkit");
        expect(brief.contains("level.jsonl: doesn't keep session\n  {\"atomic\":\"no\"")
                && brief.contains("/nowhere/regkit could not be run"), brief);
    }

    static void noLevel() throws Exception {
        Recorder little = new Recorder().keepIn(folder);
        little.client("one").write("x", value -> {});
        Action session = () -> little.assertLevel("none", Recorder.Level.SESSION);
        String words = thrown(Recorder.NotKept.class, session).getMessage();
        expect(words.contains("the history keeps session, but no read was completed"), words);
        Path unsure = Files.createTempFile("reglevel", "");
        Files.writeString(unsure, "#!/bin/sh\nexit 6\n");
        expect(unsure.toFile().setExecutable(true), "a program");
        System.setProperty("reglevel", unsure.toString());
        Action causal = () -> little.assertLevel("none", Recorder.Level.CAUSAL);
        String unknown = thrown(Recorder.NotChecked.class, causal).getMessage();
        expect(unknown.contains("causal is unknown: deciding it would take"), unknown);
        System.setProperty("reglevel", "/nowhere/reglevel");
        String none = thrown(Recorder.NotChecked.class, session).getMessage();
        System.clearProperty("reglevel");
        expect(none.contains("no verdict: /nowhere/reglevel could not be run"), none);
        little.client("one").cas("x", 1L, 2, () -> true);
        String refused = thrown(Recorder.NotChecked.class, session).getMessage();
        expect(refused.contains("; reglevel takes reads and writes of distinct values"), refused);
    }

    private interface Action {
        void act() throws Exception;
    }

    private static Throwable thrown(Class<? extends Throwable> kind, Action action) {
        try {
            action.act();
        } catch (Throwable error) {
            expect(kind.isInstance(error), error.toString());
            return error;
        }
        throw new AssertionError(kind + " was expected");
    }

    private static void expect(boolean holds, String words) {
        if (!holds) {
            throw new AssertionError(words);
        }
    }

    private static String text(byte[] bytes) {
        return new String(bytes, StandardCharsets.UTF_8);
    }

    public static void main(String[] none) throws Exception {
        folder = Files.createTempDirectory("regcheck-");
        Map<String, Action> named = Map.of("lines", RecorderTest::lines, "mistakes", RecorderTest::mistakes,
                "threads", RecorderTest::threads, "evidence", RecorderTest::evidence,
                "unknown", RecorderTest::unknown, "valuesAfter", RecorderTest::valuesAfter,
                "faultWithoutRegkit", RecorderTest::faultWithoutRegkit, "words", RecorderTest::words,
                "files", RecorderTest::files,
                "noVerdict", RecorderTest::noVerdict);
        Map<String, Action> tests = new TreeMap<>(named);
        tests.putAll(Map.of("levels", RecorderTest::levels, "noLevel", RecorderTest::noLevel));
        int failed = 0;
        for (Map.Entry<String, Action> test : tests.entrySet()) {
            try {
                test.getValue().act();
            } catch (Throwable error) {
                System.out.println(test.getKey() + ": " + error);
                failed++;
            }
        }
        try (Stream<Path> files = Files.walk(folder)) {
            files.sorted(Comparator.reverseOrder()).map(Path::toFile).forEach(File::delete);
        }
        System.out.println(tests.size() + " tests, " + failed + " failed");
        System.exit(failed > 0 ? 1 : 0);
    }
}
