package regcheck;

import java.io.ByteArrayOutputStream;
import java.io.IOException;
import java.io.OutputStream;
import java.io.UncheckedIOException;
import java.nio.CharBuffer;
import java.nio.charset.CharacterCodingException;
import java.nio.charset.StandardCharsets;
import java.nio.file.Files;
import java.nio.file.Path;
import java.util.ArrayList;
import java.util.HashMap;
import java.util.List;
import java.util.Locale;
import java.util.Map;
import java.util.Optional;
import java.util.concurrent.ConcurrentHashMap;
import java.util.function.Consumer;
import java.util.function.Function;
import java.util.function.LongSupplier;
import java.util.function.Supplier;
import java.util.stream.Collectors;
import java.util.stream.Stream;

/**
 * Records what the clients of a store call and get, and asks the programs {@code regcheck} and
 * {@code regsearch} whether it is linearizable, or {@code reglevel} whether it keeps a weaker level.
 *
 * <pre>{@code
 * Recorder recorder = new Recorder();
 * Recorder.Client client = recorder.client("worker-1", "replica-1");
 * client.write("x", value -> store.set("x", value));
 * Long value = client.read("x", () -> store.get("x"));
 * recorder.assertLinearizable("the store");
 * }</pre>
 *
 * It needs JDK 17 and nothing else. Threads share one recorder, and each takes a client of its own. The
 * values of a register's writes are 1, 2, 3, and so on, so that a read's value tells which write it saw. A
 * caller may choose values of its own, and repeat them, and may compare and swap (cas).
 */
public final class Recorder {
    private static final int NAME_BYTES = 255;
    // Exit statuses of the programs.
    private static final int ATOMIC = 0, NOT_ATOMIC = 1, REFUSED = 2, GAVE_UP = 6;

    private final ByteArrayOutputStream history = new ByteArrayOutputStream();
    private final OutputStream output;
    private final LongSupplier clock;
    private final Map<String, Long> values = new HashMap<>(); // the latest value of each register
    private final List<Mistake> mistakes = new ArrayList<>();
    private long valuesAfter;
    private Path folder = Path.of("regcheck-failures");
    private long processes;
    private Bounds bounds = Bounds.DEFAULT;
    private long reads; // completed ones, and changes whose answers told what was there

    /** Keeps the history in memory, with the times of the machine's monotonic clock. */
    public Recorder() {
        this(OutputStream.nullOutputStream(), System::nanoTime);
    }

    /** Gives each line to the output too, at once, with the times of this clock, in nanoseconds. */
    public Recorder(OutputStream output, LongSupplier clock) {
        this.output = output;
        this.clock = clock;
    }

    /** Says where assertLinearizable leaves what it found, in place of {@code regcheck-failures}. */
    public Recorder keepIn(Path folder) {
        this.folder = folder;
        return this;
    }

    /**
     * Says what the values of a register's writes come after, in place of 0. Where several processes record
     * one run, give each a number of its own, far from the others.
     */
    public Recorder valuesAfter(long number) {
        valuesAfter = number;
        return this;
    }

    /**
     * Says how many steps the search that cas and repeated values need may take, in place of 1,000,000,000.
     */
    public Recorder steps(long most) {
        bounds = new Bounds(most, bounds.configurations());
        return this;
    }

    /** Says how many configurations that search may hold in one list, in place of 65,536. */
    public Recorder configurations(long most) {
        bounds = new Bounds(bounds.steps(), most);
        return this;
    }

    /** A client for one thread. {@code regkit explain} says its name and its node, unless they are empty. */
    public Client client(String name, String node) {
        return new Client(this, member("client", name) + member("node", node));
    }

    /** A client without a node. */
    public Client client(String name) {
        return client(name, "");
    }

    /** The lines so far, which are a history at any moment: what is open is pending. */
    public synchronized byte[] history() {
        return history.toByteArray();
    }

    /** Each wrong use so far, also one that was thrown in a thread that nobody looked at. */
    public synchronized List<Mistake> mistakes() {
        return List.copyOf(mistakes);
    }

    /**
     * Throws unless the history is linearizable, a read was completed, and the recorder was used rightly. A
     * cas that was answered counts as a read. It says why in words, and leaves the history, its report and a
     * page that shows the fault in the folder, named after the test; a pass deletes what an earlier run left
     * there. Name the class with the test, so that a pass deletes no other test's files. If the search for an
     * order gave up, nobody knows: it throws NotChecked, which says what to do. The words and the page are
     * made by {@code regkit}: where it isn't there, the report stands in their place.
     */
    public void assertLinearizable(String test) {
        assertHolds(test, () -> Finding.of(check(history(), bounds)));
    }

    /**
     * Throws unless each register of the history keeps the level, a read was completed, and the recorder was
     * used rightly. It says why in the words of {@code regkit levels}, and leaves the history, the report of
     * reglevel and a page as assertLinearizable does. The page shows why the history isn't linearizable.
     * checkLevel says which histories have an answer.
     */
    public void assertLevel(String test, Level level) {
        assertHolds(test, () -> Finding.of(checkLevel(history(), level)));
    }

    private void assertHolds(String test, Supplier<Finding> checked) {
        for (Mistake mistake : mistakes()) {
            throw mistake;
        }
        String name = test.replaceAll("[^A-Za-z0-9._-]+", "_");
        Path begin = folder.resolve(name.substring(Math.max(0, name.length() - 200)));
        Finding found;
        try {
            found = checked.get();
        } catch (NotChecked none) {
            Kept kept = keep(begin);
            throw new NotChecked("no verdict: " + none.getMessage() + "\n\nhistory: " + kept.history());
        }
        if (found.holds() && hasRead()) {
            Kept.delete(begin);
            return;
        }
        Kept kept = keep(begin);
        kept.keep(kept.report(), found.report());
        found.fail().accept(found.holds() ? "too little evidence: the history " + found.what()
                + ", but no read was completed\n\nhistory: " + kept.history() : found.why().apply(kept));
    }

    private Kept keep(Path begin) {
        Kept kept = Kept.of(this, begin);
        kept.keep(kept.history(), history());
        return kept;
    }

    /**
     * What an answer says of a history: what the history does if that holds, why it doesn't, from the kept
     * files, and what throws these words.
     */
    private record Finding(
            boolean holds, byte[] report, String what, Function<Kept, String> why, Consumer<String> fail) {
        static Finding of(Answer answer) {
            return new Finding(answer.verdict() == Verdict.YES, answer.report(), "is linearizable",
                    kept -> kept.explain(Kept.shown(answer), () -> kept.told(answer.bounds()), kept.report(),
                            () -> new byte[0]),
                    words -> {
                        if (answer.verdict() == Verdict.UNKNOWN) {
                            throw new NotChecked(
                                    words + "\nbounds: give the recorder more steps or configurations");
                        }
                        throw new NotLinearizable(words);
                    });
        }

        /** The page is that of the report of regcheck, since one of reglevel has no fault to draw. */
        static Finding of(LevelAnswer answer) {
            return new Finding(answer.kept(), answer.report(), "keeps " + answer.level().key(),
                    kept -> kept.explain(Kept.lacking(answer), () -> kept.levels(answer), "-",
                            () -> check(kept.content()).report()),
                    words -> {
                        throw new NotKept(words);
                    });
        }
    }

    /** Whether a history is linearizable. Of UNKNOWN the search for an order gave up at a bound. */
    public enum Verdict { YES, NO, UNKNOWN }

    /**
     * Where the search gives up that cas and repeated values need: the steps that it takes for a register,
     * and the configurations that it holds in one list. Null stands for its default, 1,000,000,000 and
     * 65,536. Bounds count work and never time.
     */
    public record Bounds(Long steps, Long configurations) {
        private static final Bounds DEFAULT = new Bounds(null, null);

        private List<String> options() {
            return concat(option("--steps", steps), option("--configurations", configurations));
        }

        private static List<String> option(String name, Long most) {
            return most == null ? List.of() : List.of(name, most.toString());
        }
    }

    /**
     * The verdict on a history, the report of regcheck, or of regsearch where regcheck refuses the history,
     * and the bounds within which regsearch was asked.
     */
    public record Answer(Verdict verdict, byte[] report, Bounds bounds) {
        /**
         * Why the history isn't linearizable, or what to do if nobody knows, as {@code regkit explain} says
         * it; of YES, nothing. Throws NotChecked if there are no words.
         */
        public String words(byte[] history) {
            if (verdict == Verdict.YES) {
                return "";
            }
            return Kept.inFolder(history, kept -> {
                kept.keep(kept.report(), report);
                return kept.told(bounds);
            });
        }
    }

    /**
     * A guarantee that a store may give of each of its keys, or, as CAUSAL, of all of them together.
     * docs/levels.md explains them. A session is a client of a recorder until one of its calls stays pending.
     */
    public enum Level {
        /** Linearizable: each read gives the latest write. */
        ATOMIC,
        /** No read misses a newer write that had ended before it began. */
        REGULAR,
        /** Writes in the order of time, and each session sees its own operations in order. */
        SESSION,
        /** Writes in the order of time, and no session misses a write of its own. */
        OWN_WRITES,
        /** Writes in the order of time, and no session goes back to an older value. */
        MONOTONIC,
        /** Each session in order, and all agree on one order of the writes. */
        SEQUENTIAL,
        /** Of all keys together: no read misses a newer write that it knew of. */
        CAUSAL;

        /** The word of the command line, and the key of the report. */
        private String key() {
            return name().toLowerCase(Locale.ROOT);
        }
    }

    /**
     * Whether each register of a history, or the whole of it, keeps a level, the report of reglevel, and the
     * path of the reglevel that answered.
     */
    public record LevelAnswer(Level level, boolean kept, byte[] report, String program) {
        /**
         * Why the history doesn't keep the level, as {@code regkit levels} says it; if it does, nothing.
         * Throws NotChecked if there are no words.
         */
        public String words(byte[] history) {
            return kept ? "" : Kept.inFolder(history, files -> files.levels(this));
        }
    }

    /**
     * Says whether each register of a history keeps a level. It runs reglevel, which takes what regcheck
     * takes: reads and writes, each value written once to a register. Throws NotChecked, in the words of the
     * program, if there is no answer; or if reglevel gave up, as it may do if CAUSAL is asked for.
     */
    public static LevelAnswer checkLevel(byte[] history, Level level) {
        String program = Programs.reglevel();
        Ran ran = Ran.run(history, List.of(program, "--stale", "--require", level.key()));
        return switch (ran.status()) {
            case ATOMIC, NOT_ATOMIC -> new LevelAnswer(level, ran.status() == ATOMIC, ran.output(), program);
            case GAVE_UP -> throw new NotChecked("causal is unknown: deciding it would take more memory or "
                    + "work than reglevel spends. It is decided for fewer sessions, or a shorter run");
            case REFUSED -> throw new NotChecked(
                    ran.words() + "; reglevel takes reads and writes of distinct values");
            default -> throw new NotChecked(
                    program + " ended with status " + ran.status() + ": " + ran.words());
        };
    }

    /**
     * Asks regcheck, and of what it refuses, such as cas and repeated values, regsearch. Throws NotChecked,
     * in the words of the program, if there is no verdict.
     */
    public static Answer check(byte[] history) {
        return check(history, Bounds.DEFAULT);
    }

    /** The same within these bounds of regsearch. */
    public static Answer check(byte[] history, Bounds bounds) {
        String program = Programs.regcheck();
        Ran ran = Ran.run(history, List.of(program));
        if (ran.status() == REFUSED) {
            try {
                program = Programs.regsearch();
            } catch (NotChecked none) {
                throw new NotChecked(
                        ran.words() + "; repeated values and cas need regsearch, but " + none.getMessage());
            }
            ran = Ran.run(history, concat(List.of(program), bounds.options()));
        }
        return switch (ran.status()) {
            case ATOMIC -> new Answer(Verdict.YES, ran.output(), bounds);
            case NOT_ATOMIC -> new Answer(Verdict.NO, ran.output(), bounds);
            case GAVE_UP -> new Answer(Verdict.UNKNOWN, ran.output(), bounds);
            case REFUSED -> throw new NotChecked(ran.words());
            default -> throw new NotChecked(
                    program + " ended with status " + ran.status() + ": " + ran.words());
        };
    }

    private static List<String> concat(List<String> first, List<String> second) {
        return Stream.concat(first.stream(), second.stream()).toList();
    }

    /**
     * The recorder was used in a way that would make the history wrong. The call stays
     * pending, or isn't made.
     */
    public static final class Mistake extends RuntimeException {
        private Mistake(String words) {
            super(words);
        }
    }

    /** No order of the operations explains what the clients saw, or too little was read to say so. */
    public static final class NotLinearizable extends AssertionError {
        private NotLinearizable(String words) {
            super(words);
        }
    }

    /** Some register doesn't keep the level, or too little was read to say so. */
    public static final class NotKept extends AssertionError {
        private NotKept(String words) {
            super(words);
        }
    }

    /** The checker gave no verdict: it refused the history, its search gave up, or it failed. */
    public static final class NotChecked extends RuntimeException {
        private NotChecked(String words) {
            super(words);
        }
    }

    /**
     * Throw it from a call that certainly had no effect, and never will have: the connection was refused,
     * say. Don't throw it when a call timed out: if the store did the write after all, that invents a fault.
     */
    public static final class NoEffect extends RuntimeException {
        public NoEffect(Throwable cause) {
            super(cause);
        }
    }

    /** Gives the store a value. */
    public interface Setter<E extends Exception> {
        void set(long value) throws E;
    }

    /** Asks the store for a change, and tells whether it took place. */
    public interface Swapper<E extends Exception> {
        boolean swap() throws E;
    }

    /** Asks the store to do something, of which it tells nothing. */
    public interface Action<E extends Exception> {
        void run() throws E;
    }

    /** Asks the store: for a whole number, its text, or null if the store has no value. */
    public interface Getter<T, E extends Exception> {
        T get() throws E;
    }

    /** Makes one call after another. */
    public static final class Client {
        private final Recorder recorder;
        private final String who;
        private long process;
        // Whether the process has a call that isn't ended; true before the first call.
        private boolean spent = true;
        private boolean open; // whether a call is open right now

        private Client(Recorder recorder, String who) {
            this.recorder = recorder;
            this.who = who;
        }

        /**
         * Records a write. How the setter ends decides how the call ends. If it returns, the history has its
         * reply. If it throws, nobody knows what the store did: the call stays pending, and the client goes
         * on under a new process number. If it throws NoEffect, the call certainly had no effect.
         */
        public <E extends Exception> void write(String register, Setter<E> setter) throws E {
            write(register, recorder.next(register), setter);
        }

        /** Records a write of a value of the caller's own, which may repeat. */
        public <E extends Exception> void write(String register, long value, Setter<E> setter) throws E {
            during("write", register, ",\"value\":" + value, () -> {
                setter.set(value);
                return null;
            }, nothing -> "");
        }

        /**
         * Records a read, and gives what the getter gives. An exception ends the call as one of a write does.
         */
        public <T, E extends Exception> T read(String register, Getter<T, E> getter) throws E {
            return during("read", register, "", getter, given -> ",\"value\":" + recorder.numberOf(given));
        }

        /**
         * Records a compare-and-swap: the swapper asks the store to write {@code to} if the register holds
         * {@code from}, null if it has no value, and tells whether that took place. It gives what the swapper
         * gives. Let that be false only if the store compared, and said that it found another value. If the
         * store refused without comparing, throw NoEffect. An exception ends the call as one of a write does.
         */
        public <E extends Exception> boolean cas(String register, Long from, long to, Swapper<E> swapper)
                throws E {
            return change("from", from, to, register, swapper);
        }

        /** Records a cas by whatever name; {@code asks} is the member that has the value asked for. */
        private <E extends Exception> boolean change(String asks, Long asked, Long to, String register,
                Swapper<E> swapper) throws E {
            String said = ",\"" + asks + "\":" + asked + ",\"to\":" + to;
            return during("cas", register, said, swapper::swap, ok -> ",\"ok\":" + ok);
        }

        /**
         * Records a put-if-absent: the swapper asks the store to write the value if there is none, and tells
         * whether that took place. It gives what the swapper gives.
         */
        public <E extends Exception> boolean create(String register, long value, Swapper<E> swapper)
                throws E {
            return change("from", null, value, register, swapper);
        }

        /** Records a put that takes place only where there is a value. The swapper tells whether it did. */
        public <E extends Exception> boolean replace(String register, long value, Swapper<E> swapper)
                throws E {
            return change("unless", null, value, register, swapper);
        }

        /** Records a lock or a try-lock. The swapper tells whether the owner got it: no if anybody had it. */
        public <E extends Exception> boolean lock(String register, long owner, Swapper<E> swapper) throws E {
            return change("from", null, owner, register, swapper);
        }

        /**
         * Records that an owner gives a lock back, or a delete of one value alone. The swapper tells whether
         * the owner had it.
         */
        public <E extends Exception> boolean unlock(String register, long owner, Swapper<E> swapper)
                throws E {
            return change("from", owner, null, register, swapper);
        }

        /**
         * Records a delete. If the store tells whether there was a value, {@code deleteFound} finds more
         * faults.
         */
        public <E extends Exception> void delete(String register, Action<E> action) throws E {
            during("delete", register, "", () -> {
                action.run();
                return null;
            }, nothing -> "");
        }

        /** Records a delete, and gives what the store tells: whether there was a value. */
        public <E extends Exception> boolean deleteFound(String register, Swapper<E> swapper) throws E {
            return during("delete", register, "", swapper::swap, found -> ",\"found\":" + found);
        }

        /**
         * Records a swap, also called get-and-set: the getter gives the store the value, and gives the one
         * that was there, as a read's does.
         */
        public <T, E extends Exception> T swap(String register, long value, Getter<T, E> getter) throws E {
            return during("swap", register, ",\"value\":" + value, getter,
                    old -> ",\"old\":" + recorder.numberOf(old));
        }

        /**
         * Says that a value may expire from now on, if it is still there. Call it at the earliest moment:
         * when its time is over, less the error of the clocks; for a cache that evicts, before the store is
         * given the value.
         */
        public void expires(String register, long value) {
            synchronized (recorder) {
                String name = recorder.quoted(register, "register");
                append(++recorder.processes, "\"event\":\"call\",\"op\":\"cas\",\"register\":" + name
                        + ",\"from\":" + value + ",\"to\":null");
            }
        }

        /** Records a call, from what its line says to what its answer says. */
        private <T, E extends Exception> T during(String op, String register, String said,
                Getter<T, E> action, Function<T, String> answer) throws E {
            begin(op, register, said);
            try {
                T given = action.get();
                end("reply", register, answer.apply(given));
                return given;
            } catch (NoEffect failed) {
                end("fail", register, "");
                throw failed;
            } finally {
                leave();
            }
        }

        /** Writes the line of a call. */
        private void begin(String op, String register, String said) {
            synchronized (recorder) {
                String name = recorder.quoted(register, "register");
                if (open) {
                    throw recorder.mistake("the client has a call open while it calls a " + op + " of " + name
                            + ": take a client for each thread");
                }
                if (spent) {
                    process = ++recorder.processes;
                }
                open = spent = true;
                append(process, "\"event\":\"call\",\"op\":\"" + op + "\",\"register\":" + name + said);
            }
        }

        private void end(String event, String register, String answer) {
            synchronized (recorder) {
                String name = recorder.quoted(register, "register");
                append(process, "\"event\":\"" + event + "\",\"register\":" + name + answer);
                recorder.reads += answer.isEmpty() ? 0 : 1;
                spent = false;
            }
        }

        private void leave() {
            synchronized (recorder) {
                open = false;
            }
        }

        private void append(long number, String members) {
            recorder.append("{\"process\":" + number + "," + members + who);
        }
    }

    /** A value that the register never had from here. */
    private synchronized long next(String register) {
        return values.merge(register, valuesAfter + 1, (latest, first) -> latest + 1);
    }

    /** Adds a line, which lacks its time and its end. The caller holds the lock, so that the times ascend. */
    private void append(String begin) {
        byte[] line = (begin + ",\"time\":" + clock.getAsLong() + "}\n").getBytes(StandardCharsets.US_ASCII);
        history.writeBytes(line);
        try {
            output.write(line);
            output.flush();
        } catch (IOException error) {
            mistake("the history could not be written: " + error.getMessage());
        }
    }

    private synchronized boolean hasRead() {
        return reads > 0;
    }

    /** Keeps a mistake, so that it comes out even if it is thrown in a thread that nobody looks at. */
    private synchronized Mistake mistake(String words) {
        mistakes.add(new Mistake(words));
        return mistakes.get(mistakes.size() - 1);
    }

    private String member(String what, String name) {
        return name.isEmpty() ? "" : ",\"" + what + "\":" + quoted(name, what);
    }

    /** The name in JSON, in ASCII. Clients and nodes keep to the same rule as registers. */
    private String quoted(String name, String what) {
        int size = 0;
        try {
            size = StandardCharsets.UTF_8.newEncoder().encode(CharBuffer.wrap(name)).limit();
        } catch (CharacterCodingException halfLetter) {
            // It has no size, as the empty one.
        }
        if (size < 1 || size > NAME_BYTES) {
            throw mistake(escaped(name) + " is no " + what
                    + ": name it by a text of 1 to " + NAME_BYTES + " bytes");
        }
        return escaped(name);
    }

    private static String escaped(String text) {
        return text.chars().mapToObj(letter -> letter < ' ' || letter > '~' || letter == '"' || letter == '\\'
                ? String.format("\\u%04x", letter) : String.valueOf((char) letter))
                .collect(Collectors.joining("", "\"", "\""));
    }

    /** What the store gave, as the history has it. */
    private String numberOf(Object given) {
        if (given == null) {
            return "null";
        }
        String text = given instanceof byte[] bytes
                ? new String(bytes, StandardCharsets.UTF_8) : given.toString();
        try {
            if (given instanceof Number || text.matches("-?[0-9]{1,19}")) {
                return Long.toString(Long.parseLong(text));
            }
        } catch (NumberFormatException tooLarge) {
            // It is no value of a register, as any other text.
        }
        throw mistake("the store gave " + escaped(text)
                + ", but a value is a whole number of 64 bits, its text, or null");
    }

    /** Where the programs are. */
    private static final class Programs {
        static String regcheck() {
            return find("REGCHECK", "regcheck").orElseThrow(() -> missing("REGCHECK", "regcheck"));
        }

        static String regsearch() {
            return companion("REGSEARCH", "regsearch");
        }

        static String reglevel() {
            return companion("REGLEVEL", "reglevel");
        }

        static String regkit() {
            return companion("REGKIT", "regkit");
        }

        /** The one that is named, the one beside regcheck, as a release has it, or that on PATH. */
        private static String companion(String variable, String name) {
            return named(variable)
                    .or(() -> find("REGCHECK", "regcheck")
                            .map(checker -> Path.of(checker).resolveSibling(name))
                            .filter(Programs::isProgram).map(Path::toString))
                    .or(() -> find(variable, name)).orElseThrow(() -> missing(variable, name));
        }

        private static Optional<String> find(String variable, String name) {
            return named(variable).or(() -> Stream.of(System.getenv().getOrDefault("PATH", "").split(":"))
                    .map(folder -> Path.of(folder, name)).filter(Programs::isProgram)
                    .map(Path::toString).findFirst());
        }

        private static boolean isProgram(Path path) {
            return Files.isRegularFile(path) && Files.isExecutable(path);
        }

        /** The path in the system property or the variable of this name. */
        private static Optional<String> named(String variable) {
            String named = System.getProperty(variable.toLowerCase(), System.getenv(variable));
            return Optional.ofNullable(named).filter(path -> !path.isEmpty());
        }

        private static NotChecked missing(String variable, String name) {
            return new NotChecked(
                    name + " was not found: put it on PATH, or set " + variable + " to its path");
        }
    }

    /** What a run of a program gave. */
    private record Ran(int status, byte[] output, String words) {
        static Ran run(byte[] input, List<String> command) {
            return run(input, command, Map.of());
        }

        /** The same with more in the program's environment. */
        static Ran run(byte[] input, List<String> command, Map<String, String> more) {
            try {
                Path given = Files.createTempFile("regcheck-", ".jsonl");
                Path said = Files.createTempFile("regcheck-", ".words");
                try {
                    Files.write(given, input);
                    ProcessBuilder builder = new ProcessBuilder(command).redirectInput(given.toFile())
                            .redirectError(said.toFile());
                    builder.environment().putAll(more);
                    Process process = builder.start();
                    byte[] output = process.getInputStream().readAllBytes();
                    return new Ran(process.waitFor(), output, Files.readString(said).stripTrailing());
                } finally {
                    Files.delete(given);
                    Files.delete(said);
                }
            } catch (IOException error) {
                throw new NotChecked(command.get(0) + " could not be run: " + error.getMessage());
            } catch (InterruptedException error) {
                Thread.currentThread().interrupt();
                throw new NotChecked(command.get(0) + " was interrupted");
            }
        }
    }

    /** What a failed test leaves behind, as files whose names begin alike. */
    private record Kept(Path begin) {
        // Of failed tests of this process.
        private static final Map<Path, Recorder> OWNERS = new ConcurrentHashMap<>();

        /** The files of this name; or with a number behind it, if another recorder has left some. */
        static Kept of(Recorder owner, Path begin) {
            Path free = begin;
            for (int number = 2; owner != ownerOf(free, owner); number++) {
                free = begin.resolveSibling(begin.getFileName() + "-" + number);
            }
            return new Kept(free);
        }

        private static Recorder ownerOf(Path begin, Recorder otherwise) {
            return OWNERS.computeIfAbsent(begin.toAbsolutePath(), free -> otherwise);
        }

        /** Deletes the files of this name, unless a failed test of this process has them. */
        static void delete(Path begin) {
            if (OWNERS.containsKey(begin.toAbsolutePath())) {
                return;
            }
            try {
                for (String end : List.of(".jsonl", ".report", ".html")) {
                    Files.deleteIfExists(Path.of(begin + end));
                }
            } catch (IOException error) {
                throw new UncheckedIOException(error);
            }
        }

        String history() {
            return begin + ".jsonl";
        }

        String report() {
            return begin + ".report";
        }

        void keep(String file, byte[] content) {
            try {
                Path path = Path.of(file);
                Files.createDirectories(path.toAbsolutePath().getParent());
                Files.write(path, content);
            } catch (IOException error) {
                throw new UncheckedIOException(error);
            }
        }

        /** Why the kept history isn't linearizable, or what to do if nobody knows, in the words of regkit. */
        String told(Bounds bounds) {
            List<String> command =
                    List.of(Programs.regkit(), "explain", "--color", "never", history(), report());
            Ran told = Ran.run(new byte[0], concat(command, bounds.options()));
            if (told.status() != NOT_ATOMIC && told.status() != GAVE_UP) {
                throw new NotChecked(told.words());
            }
            return new String(told.output(), StandardCharsets.UTF_8).stripTrailing();
        }

        /** Why the kept history doesn't keep the level, in the words of regkit, by the same reglevel. */
        String levels(LevelAnswer answer) {
            List<String> command = List.of(Programs.regkit(), "levels", "--color", "never", "--require",
                    answer.level().key(), history());
            Ran told = Ran.run(new byte[0], command, Map.of("REGLEVEL", answer.program()));
            if (told.status() != NOT_ATOMIC) {
                throw new NotChecked(told.words());
            }
            return new String(told.output(), StandardCharsets.UTF_8).stripTrailing();
        }

        /** What is said of files of a history that are gone with it, without the history's name. */
        static String inFolder(byte[] history, Function<Kept, String> say) {
            try {
                Path folder = Files.createTempDirectory("regcheck-");
                Kept kept = new Kept(folder.resolve("history"));
                try {
                    kept.keep(kept.history(), history);
                    return say.apply(kept).substring((kept.history() + ": ").length());
                } finally {
                    delete(kept.begin());
                    Files.delete(folder);
                }
            } catch (IOException error) {
                throw new UncheckedIOException(error);
            }
        }

        /** The kept history. */
        byte[] content() {
            try {
                return Files.readAllBytes(Path.of(history()));
            } catch (IOException error) {
                throw new UncheckedIOException(error);
            }
        }

        /**
         * The words, and where the files are; it has the page drawn too, by a report that is given if it
         * isn't in a file. What is brief stands in the place of words that there are none of.
         */
        String explain(String brief, Supplier<String> say, String report, Supplier<byte[]> given) {
            String kept = "history: " + history() + "\nreport: " + report();
            try {
                return say.get() + "\n\n" + kept + "\n" + draw(report, given);
            } catch (NotChecked none) {
                return history() + ": " + brief + "\n\n" + none.getMessage() + "\n" + kept;
            }
        }

        /** Where the page is, or why there is none. */
        private String draw(String report, Supplier<byte[]> given) {
            String page = begin + ".html";
            try {
                Ran drawn = Ran.run(
                        given.get(), List.of(Programs.regkit(), "draw", history(), report, "-o", page));
                return drawn.status() == 0 ? "page: " + page : "no page: " + drawn.words();
            } catch (NotChecked none) {
                return "no page: " + none.getMessage();
            }
        }

        /** The lines of the report whose registers lack the level. Of CAUSAL it is the last line. */
        static String lacking(LevelAnswer answer) {
            String level = answer.level().key();
            String no = "\"" + level + "\":\"no\"";
            boolean ofTheWhole = answer.level() == Level.CAUSAL;
            Stream<String> lines = new String(answer.report(), StandardCharsets.UTF_8).lines()
                    .filter(line -> (ofTheWhole || line.contains("\"register\":")) && line.contains(no))
                    .map(line -> "  " + line);
            return Stream.concat(Stream.of("doesn't keep " + level), lines).collect(Collectors.joining("\n"));
        }

        /** The verdict, and the lines of the report that it rests on. */
        static String shown(Answer answer) {
            boolean unknown = answer.verdict() == Verdict.UNKNOWN;
            String verdict = unknown
                    ? "unknown: the search gave up; raise its bounds, or record runs with fewer calls open at once"
                    : "not linearizable";
            Stream<String> lines = new String(answer.report(), StandardCharsets.UTF_8).lines()
                    .filter(line -> line.contains(unknown ? "\"gave_up\":" : "\"fault\":"))
                    .map(line -> "  " + line);
            return Stream.concat(Stream.of(verdict), lines).collect(Collectors.joining("\n"));
        }
    }
}
