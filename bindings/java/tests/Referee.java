import java.io.IOException;
import java.lang.classfile.*;
import java.lang.constant.*;
import java.lang.invoke.*;
import java.nio.file.*;
import java.time.Duration;
import java.util.*;
import java.util.concurrent.locks.LockSupport;
import java.util.function.*;
import java.util.stream.*;
import zelamiku.*;

/**
 * HotSpot judges the heap's monitors: {@code Referee FOLDER SEED STEPS [HEAPCTL]}. Random legal programs are played step by step by five real
 * threads on HotSpot's monitors, and by five on a heap's. After each step both sides must have given the answer that the rules (JLS 17.1, 17.2)
 * give, and the same threads must sleep. Then threads without a conductor play programs with one legal end on both. Each program's script also goes
 * through HEAPCTL.
 *
 * <p>What the rules leave open isn't compared: which of several waiting threads is woken, and who of several gets a monitor first. Only how many
 * do.
 */
public class Referee {
    static final int THREADS = 5, MONITORS = 3, OBJECTS = 60;
    /** What takes longer hangs. */
    static final long PATIENCE = Duration.ofSeconds(Long.getLong("patience", 120)).toNanos();

    enum Op { ENTER, EXIT, WAIT, SIGNAL, SIGNAL_ALL, LOAD, STORE }

    /** The two sides differ, or one from the rules. */
    static final class Differs extends RuntimeException {
        Differs(String what) { super(what); }
    }

    // ---- players: threads that do what they are told ----

    abstract static class Player {
        private volatile int sent, done;
        private volatile String answer;
        private Op op;
        int monitor;
        long value;
        private final Thread conductor = Thread.currentThread();
        final Thread thread = new Thread(() -> {
            try {
                play();
            } catch (Throwable error) {
                answer = error.toString(); // it never ends its command
            }
        });

        Player() { thread.setDaemon(true); }

        abstract void play() throws Throwable;

        /** Does this, and returns the answer. */
        abstract String does(Op what) throws InterruptedException;

        final boolean isBusy() { return sent != done; }

        final void send(Op what, int on, long stored) {
            op = what;
            monitor = on;
            value = stored;
            sent++;
            LockSupport.unpark(thread);
        }

        /** The next command that is for the caller, after those that {@code does} has answered. */
        public final Op next() throws InterruptedException {
            for (;;) {
                for (int turn = 0; !isBusy(); turn++) if (turn > 100) LockSupport.park();
                String told = does(op);
                if (told == null) return op;
                done(told);
            }
        }

        public final void done(String told) {
            answer = told;
            done++;
            LockSupport.unpark(conductor);
        }
    }

    /** On HotSpot: its frame has the instructions monitorenter and monitorexit, in whatever order the commands come. */
    static final class Judge extends Player {
        static final MethodHandle FRAME = frame();
        final Object[] monitors;
        final long[] fields;

        Judge(Object[] monitors, long[] fields) {
            this.monitors = monitors;
            this.fields = fields;
            thread.start();
        }

        @Override void play() throws Throwable { FRAME.invokeExact(this); }

        public boolean isEnter() throws InterruptedException { return next() == Op.ENTER; }

        public Object wanted() { return monitors[monitor]; }

        /** static void play(Judge judge) { for (;;) if (judge.isEnter()) monitorenter, else monitorexit, of judge.wanted(); judge.done(..) } */
        private static MethodHandle frame() {
            ClassDesc judge = Judge.class.describeConstable().orElseThrow(), refused = ClassDesc.of("java.lang.IllegalMonitorStateException");
            MethodTypeDesc done = MethodTypeDesc.of(ConstantDescs.CD_void, ConstantDescs.CD_String), wanted = MethodTypeDesc.of(ConstantDescs.CD_Object);
            byte[] bytes = ClassFile.of().build(ClassDesc.of("Frame"), made -> made.withMethodBody("play", MethodTypeDesc.of(ConstantDescs.CD_void, judge),
                ClassFile.ACC_STATIC, code -> {
                    Label again = code.newBoundLabel(), exit = code.newLabel(), begin = code.newLabel(), end = code.newLabel(), failed = code.newLabel();
                    code.aload(0).invokevirtual(judge, "isEnter", MethodTypeDesc.of(ConstantDescs.CD_boolean)).ifeq(exit);
                    code.aload(0).invokevirtual(judge, "wanted", wanted).monitorenter().aload(0).ldc("ok").invokevirtual(judge, "done", done).goto_(again);
                    code.labelBinding(exit).aload(0).invokevirtual(judge, "wanted", wanted).labelBinding(begin).monitorexit().labelBinding(end);
                    code.aload(0).ldc("ok").invokevirtual(judge, "done", done).goto_(again);
                    code.labelBinding(failed).pop().aload(0).ldc("not held").invokevirtual(judge, "done", done).goto_(again);
                    code.exceptionCatch(begin, end, failed, refused);
                }));
            try {
                MethodHandles.Lookup lookup = MethodHandles.lookup();
                return lookup.findStatic(lookup.defineClass(bytes), "play", MethodType.methodType(void.class, Judge.class));
            } catch (ReflectiveOperationException error) {
                throw new AssertionError(error);
            }
        }

        @Override String does(Op what) throws InterruptedException {
            Object of = monitors[monitor];
            try {
                switch (what) {
                    case ENTER, EXIT -> { return null; }
                    case WAIT -> of.wait();
                    case SIGNAL -> of.notify();
                    case SIGNAL_ALL -> of.notifyAll();
                    default -> {
                        if (!Thread.holdsLock(of)) return "not held";
                        if (what == Op.LOAD) return "value " + fields[monitor];
                        fields[monitor] = value;
                    }
                }
                return "ok";
            } catch (IllegalMonitorStateException error) {
                return "not held";
            }
        }
    }

    static class Account extends Monitor {
        final Field.OfLong field = longField("field", 0);

        Account(Schema schema, String name) { super(schema, name); }
    }

    static class Accounts extends Schema {
        final List<Account> all = row("o", OBJECTS, name -> new Account(this, name));
    }

    /** On the heap. */
    static final class Tried extends Player {
        Account[] accounts;

        Tried() { thread.start(); }

        @Override void play() throws InterruptedException { next(); }

        @Override String does(Op what) {
            Account of = accounts[monitor];
            try {
                switch (what) {
                    case ENTER -> of.lock();
                    case EXIT -> of.unlock();
                    case WAIT -> of.await();
                    case SIGNAL -> { return "woke " + (of.signal() ? 1 : 0); }
                    case SIGNAL_ALL -> { return "woke " + of.signalAll(); }
                    case LOAD -> { return "value " + of.field.get(); }
                    case STORE -> of.field.set(value);
                }
                return "ok";
            } catch (HeapException.NotHeld error) {
                return "not held";
            }
        }
    }

    // ---- the rules ----

    enum State { IDLE, ENTERING, WAITING, WOKEN }

    private final State[] states = new State[THREADS];
    /** The monitor for which a thread sleeps, and with how many locks it goes on. */
    private final int[] wants = new int[THREADS], saved = new int[THREADS];
    private final int[] owner = new int[MONITORS], locks = new int[MONITORS];
    private final long[] values = new long[MONITORS];
    /** The program as a script of heapctl, and what that prints. */
    private final StringBuilder script = new StringBuilder(), printed = new StringBuilder();

    private final Heap heap;
    private final Accounts schema;
    private final Random random;
    private final Object[] objects = new Object[MONITORS];
    private final long[] fields = new long[MONITORS];
    private final Player[] judges = new Player[THREADS], tried = new Player[THREADS];
    private Account[] accounts;
    long steps;

    Referee(Heap heap, Accounts schema, long seed) {
        this.heap = heap;
        this.schema = schema;
        random = new Random(seed);
        Arrays.setAll(judges, thread -> new Judge(objects, fields));
        Arrays.setAll(tried, thread -> new Tried());
    }

    /** A program: random steps, and then all threads leave. */
    void program(int count) {
        int first = count * MONITORS % OBJECTS;
        accounts = schema.all.subList(first, first + MONITORS).toArray(Account[]::new);
        for (Player player : tried) ((Tried) player).accounts = accounts;
        Arrays.setAll(objects, index -> new Object());
        Arrays.fill(states, State.IDLE);
        Arrays.fill(owner, -1);
        script.setLength(0);
        printed.setLength(0);
        for (String line : List.of("object o%1$d%n", "field f%1$d o%1$d o%1$d 0%n"))
            for (int number = 0; number < MONITORS; number++) script.append(line.formatted(number));
        script.append("format ").append(THREADS).append(" 4000\n");
        for (int monitor = 0; monitor < MONITORS; monitor++) {
            step(0, Op.ENTER, monitor);
            step(0, Op.STORE, monitor);
            step(0, Op.EXIT, monitor);
        }
        for (int left = 20 + random.nextInt(60); left > 0; left--) {
            int thread = random.nextInt(THREADS), monitor = random.nextInt(MONITORS);
            Op op = Op.values()[new int[] {0, 0, 0, 1, 1, 2, 2, 3, 3, 4, 5, 6}[random.nextInt(12)]];
            if (isLegal(thread, op, monitor)) step(thread, op, monitor);
        }
        while (Arrays.stream(owner).anyMatch(thread -> thread >= 0) || Arrays.stream(states).anyMatch(state -> state != State.IDLE)) leave();
    }

    /** Whether the step leads to no circle, and leaves thread 0 awake to end the program. */
    private boolean isLegal(int thread, Op op, int monitor) {
        boolean isSleep = op == Op.ENTER ? owner[monitor] >= 0 && owner[monitor] != thread : op == Op.WAIT && owner[monitor] == thread;
        if (states[thread] != State.IDLE || isSleep && thread == 0) return false;
        // Of several waiting threads one is woken: it must be the only one that then wants the monitor.
        if (op == Op.SIGNAL && those(State.WAITING, monitor).size() > 1 && wanting(monitor).size() > 0) return false;
        for (int next = isSleep && op == Op.ENTER ? owner[monitor] : -1; next >= 0; next = states[next] == State.IDLE ? -1 : owner[wants[next]])
            if (next == thread) return false;
        return true;
    }

    /** A step toward the end: an idle thread frees what it holds, or thread 0 wakes those that wait for a monitor that is free. */
    private void leave() {
        for (int monitor = 0; monitor < MONITORS; monitor++)
            if (owner[monitor] >= 0 && states[owner[monitor]] == State.IDLE) {
                step(owner[monitor], Op.EXIT, monitor);
                return;
            }
        for (int monitor = 0; monitor < MONITORS; monitor++)
            if (owner[monitor] < 0 && !those(State.WAITING, monitor).isEmpty()) {
                step(0, Op.ENTER, monitor);
                step(0, Op.SIGNAL_ALL, monitor);
                return;
            }
        throw new AssertionError("the program has no end");
    }

    private List<Integer> those(State state, int monitor) {
        return IntStream.range(0, THREADS).filter(thread -> states[thread] == state && wants[thread] == monitor).boxed().toList();
    }

    private List<Integer> wanting(int monitor) {
        return Stream.concat(those(State.ENTERING, monitor).stream(), those(State.WOKEN, monitor).stream()).toList();
    }

    /** A step of an idle thread by the rules, on both sides. */
    private void step(int thread, Op op, int monitor) {
        boolean isHeld = owner[monitor] == thread, isFree = owner[monitor] < 0;
        List<Integer> waiting = those(State.WAITING, monitor), woken = op == Op.SIGNAL ? waiting.subList(0, Math.min(1, waiting.size())) : waiting;
        long value = random.nextInt(1000);
        String answer = "ok";
        if (op == Op.ENTER) {
            if (isHeld || isFree) {
                owner[monitor] = thread;
                locks[monitor]++;
            } else {
                sleep(thread, State.ENTERING, monitor, 1);
                answer = "held";
            }
        } else if (!isHeld) {
            answer = "not held";
        } else {
            switch (op) {
                case EXIT -> locks[monitor]--;
                case WAIT -> {
                    sleep(thread, State.WAITING, monitor, locks[monitor]);
                    locks[monitor] = 0;
                    answer = "waiting";
                }
                case LOAD -> answer = "value " + values[monitor];
                case STORE -> values[monitor] = value;
                default -> {
                    for (int one : woken) states[one] = State.WOKEN;
                    answer = woke(woken);
                }
            }
            if (locks[monitor] == 0) owner[monitor] = -1;
        }
        play(thread, op, monitor, value, answer);
        if (op == Op.SIGNAL && isHeld && waiting.size() > 1) oneOf(thread, monitor, waiting);
        if (owner[monitor] < 0) pass(monitor);
        compare();
    }

    private void sleep(int thread, State state, int monitor, int count) {
        states[thread] = state;
        wants[thread] = monitor;
        saved[thread] = count;
    }

    /** The monitor is free: the thread that wants it has it now. If there are several, each gets it in its turn, whichever that is, and leaves it. */
    private void pass(int monitor) {
        List<Integer> passing = wanting(monitor);
        if (passing.size() == 1) {
            int thread = passing.get(0);
            owner[monitor] = thread;
            locks[monitor] = saved[thread];
            goOn(thread, monitor);
            answered(thread, "ok");
        } else if (!passing.isEmpty()) {
            passOneByOne(monitor, List.of(new ArrayList<>(passing), new ArrayList<>(passing)), passing.size());
            for (int thread : passing) goOnAndLeave(thread, monitor);
        }
    }

    /** On each side so many of its threads get the monitor one after another, and leave it. */
    private void passOneByOne(int monitor, List<List<Integer>> sides, int count) {
        for (int number = 0; number < 2; number++) {
            Player[] side = number == 0 ? judges : tried;
            List<Integer> left = sides.get(number);
            for (int turn = 0; turn < count; turn++) {
                until(() -> left.stream().anyMatch(thread -> !side[thread].isBusy()), () -> name(side) + ": none of " + left + " gets the monitor");
                List<Integer> awake = left.stream().filter(thread -> !side[thread].isBusy()).toList();
                if (awake.size() > 1) throw new Differs(name(side) + ": " + awake + " have the monitor at once");
                left.remove(awake.get(0));
                Player player = side[awake.get(0)];
                for (int lock = saved[awake.get(0)]; lock > 0; lock--) {
                    player.send(Op.EXIT, monitor, 0);
                    until(() -> !player.isBusy(), () -> name(side) + ": no exit");
                    if (!player.answer.equals("ok")) throw new Differs(name(side) + ": exit: " + player.answer);
                }
            }
        }
    }

    /**
     * One of several waiting threads was woken, whichever that is: on each side one gets the monitor, and no other. Then the others are woken too.
     */
    private void oneOf(int thread, int monitor, List<Integer> waiting) {
        List<List<Integer>> sides = List.of(new ArrayList<>(waiting), new ArrayList<>(waiting));
        for (; locks[monitor] > 0; locks[monitor]--) play(thread, Op.EXIT, monitor, 0, "ok");
        passOneByOne(monitor, sides, 1);
        // Long enough for a second one that was woken by mistake.
        LockSupport.parkNanos(300_000);
        for (int one : waiting)
            if (sides.get(1).contains(one) && !tried[one].isBusy() || sides.get(0).contains(one) && !judges[one].isBusy())
                throw new Differs("a notify has woken several threads");
        goOnAndLeave(waiting.get(0), monitor); // in the script it is the least one
        List<Integer> others = waiting.subList(1, waiting.size());
        play(thread, Op.ENTER, monitor, 0, "ok");
        play(thread, Op.SIGNAL_ALL, monitor, 0, woke(others));
        play(thread, Op.EXIT, monitor, 0, "ok");
        passOneByOne(monitor, sides, others.size());
        for (int one : others) states[one] = State.WOKEN;
        for (int one : others) goOnAndLeave(one, monitor);
        owner[monitor] = -1;
    }

    /** The thread goes on with the monitor, after it has slept for it. */
    private void goOn(int thread, int monitor) {
        write(thread, states[thread] == State.WOKEN ? "resume" : "enter o" + monitor, "ok");
        states[thread] = State.IDLE;
    }

    private void goOnAndLeave(int thread, int monitor) {
        goOn(thread, monitor);
        for (int lock = saved[thread]; lock > 0; lock--) write(thread, "exit o" + monitor, "ok");
    }

    // ---- both sides ----

    private static String woke(List<Integer> threads) {
        return threads.isEmpty() ? "none" : "woke" + String.join("", threads.stream().map(thread -> " t" + (thread + 1)).toList());
    }

    private static String name(Player[] side) { return side[0] instanceof Judge ? "HotSpot" : "the heap"; }

    private void write(int thread, String words, String answer) {
        script.append('t').append(thread + 1).append(' ').append(words).append('\n');
        printed.append(answer).append('\n');
    }

    /** Both sides do this, and the answer is this one; with null the thread sleeps. */
    private void play(int thread, Op op, int monitor, long value, String answer) {
        steps++;
        String word = op == Op.SIGNAL ? "notify" : op == Op.SIGNAL_ALL ? "notifyall" : op.name().toLowerCase(Locale.ROOT);
        write(thread, word + (op == Op.LOAD || op == Op.STORE ? " f" : " o") + monitor + (op == Op.STORE ? " " + value : ""),
            answer.endsWith("held") ? "refused " + answer : answer);
        for (Player[] side : List.of(judges, tried)) side[thread].send(op, monitor, value);
        if (states[thread] == State.IDLE) answered(thread, answer);
    }

    /** Both sides have given this answer. HotSpot doesn't tell how many threads it has woken. */
    private void answered(int thread, String answer) {
        boolean isWoke = answer.equals("none") || answer.startsWith("woke");
        String count = isWoke ? "woke " + (answer.split(" ").length - 1) : answer;
        until(() -> !judges[thread].isBusy() && !tried[thread].isBusy(), () -> name(judges[thread].isBusy() ? judges : tried) + ": no answer");
        if (!judges[thread].answer.equals(isWoke ? "ok" : answer)) throw new Differs("HotSpot: " + judges[thread].answer + ", the rules: " + answer);
        if (!tried[thread].answer.equals(count)) throw new Differs("the heap: " + tried[thread].answer + ", HotSpot and the rules: " + count);
    }

    /** The same threads sleep on both sides, and HotSpot and the heap say so. */
    private void compare() {
        for (int thread = 0; thread < THREADS; thread++) {
            boolean isAsleep = states[thread] != State.IDLE;
            for (Player[] side : List.of(judges, tried))
                if (side[thread].isBusy() != isAsleep) throw new Differs(name(side) + ": t" + (thread + 1) + (isAsleep ? " is awake" : " sleeps"));
            Thread.State wanted = states[thread] == State.WAITING ? Thread.State.WAITING : Thread.State.BLOCKED;
            Thread judge = judges[thread].thread;
            if (isAsleep) until(() -> judge.getState() == wanted, () -> "HotSpot: " + judge.getState() + ", the rules: " + wanted);
        }
        if (Arrays.stream(states).noneMatch(state -> state == State.ENTERING || state == State.WOKEN)) return;
        var wanted = IntStream.range(0, THREADS).filter(thread -> states[thread] == State.ENTERING || states[thread] == State.WOKEN).boxed()
            .collect(Collectors.toMap(thread -> tried[thread].thread, thread -> (Monitor) accounts[wants[thread]]));
        until(() -> wanted.equals(heap.waits().stream().collect(Collectors.toMap(Stats.Wait::thread, Stats.Wait::monitor))), () -> "the heap's sleepers: "
            + heap.waits() + ", by the rules: " + wanted);
    }

    private void until(BooleanSupplier is, Supplier<String> otherwise) {
        long begun = System.nanoTime();
        for (int turn = 0; !is.getAsBoolean(); turn++) {
            if (System.nanoTime() - begun > PATIENCE) throw new Differs(otherwise.get());
            if (turn > 20) LockSupport.parkNanos(50_000); // the players unpark it
        }
    }

    // ---- without a conductor ----

    /** Threads take turns by wait and notify, in nested sections: both sides end with the same values. */
    void race() throws InterruptedException {
        int count = 2 + random.nextInt(3), rounds = 5 + random.nextInt(20);
        boolean isOne = count == 2 && random.nextBoolean();
        long[] turn = {0}, sum = {0};
        Object lock = new Object(), inner = new Object();
        Account outer = schema.all.get(OBJECTS - 2), nested = schema.all.get(OBJECTS - 1);
        heap.synchronizedOn(List.of(outer, nested), () -> {
            outer.field.set(0);
            nested.field.set(0);
        });
        List<Thread> threads = new ArrayList<>();
        for (int number = 0; number < count; number++) {
            int mine = number;
            threads.add(new Thread(() -> {
                for (int round = 0; round < rounds; round++)
                    synchronized (lock) {
                        while (turn[0] % count != mine) await(lock);
                        synchronized (inner) { synchronized (lock) { sum[0] = 31 * sum[0] + mine; } }
                        turn[0]++;
                        if (isOne) lock.notify();
                        else lock.notifyAll();
                    }
            }));
            threads.add(new Thread(() -> {
                for (int round = 0; round < rounds; round++) {
                    outer.lock();
                    while (outer.field.get() % count != mine) outer.await();
                    heap.synchronizedOn(List.of(nested, outer), () -> nested.field.set(31 * nested.field.get() + mine));
                    outer.field.add(1);
                    if (isOne) outer.signal();
                    else outer.signalAll();
                    outer.unlock();
                }
            }));
        }
        for (Thread thread : threads) {
            thread.setDaemon(true);
            thread.start();
        }
        for (Thread thread : threads) if (!thread.join(Duration.ofNanos(PATIENCE))) throw new Differs("a race has no end");
        long found = heap.synchronizedOn(List.of(nested), nested.field::get);
        if (found != sum[0]) throw new Differs("a race: " + found + " in the heap, " + sum[0] + " on HotSpot");
        steps += (long) count * rounds;
    }

    private static void await(Object lock) {
        try {
            lock.wait();
        } catch (InterruptedException error) {
            throw new AssertionError(error);
        }
    }

    /** The program as a script of heapctl prints what both sides have answered. */
    private void run(String heapctl, Path folder) throws IOException, InterruptedException {
        Path input = Files.writeString(folder.resolve("script"), script), output = folder.resolve("printed");
        new ProcessBuilder(heapctl, "run").redirectInput(input.toFile()).redirectOutput(output.toFile()).redirectError(ProcessBuilder.Redirect.INHERIT).start()
            .waitFor();
        String found = Files.readString(output).lines().skip(1).collect(Collectors.joining("\n", "", "\n"));
        if (!found.equals(printed.toString())) throw new Differs("heapctl run prints\n" + found);
    }

    public static void main(String[] words) throws IOException, InterruptedException {
        Path folder = Path.of(words[0]);
        long seed = Long.parseLong(words[1]), wanted = Long.parseLong(words[2]), scripts = 0;
        Accounts schema = new Accounts();
        Heap heap = Heap.open(folder.resolve("referee.heap"), schema, new Options().linger(Duration.ofSeconds(1)));
        Referee referee = new Referee(heap, schema, seed);
        int number = 0;
        try {
            for (; referee.steps < wanted; number++) {
                referee.program(number);
                if (number % 10 == 0) referee.race();
                if (words.length > 3 && number % 10 == 0) {
                    referee.run(words[3], folder);
                    scripts++;
                }
            }
        } catch (Differs | HeapException error) {
            System.out.println("DIFFERS in program " + number + " of seed " + seed + ": " + error.getMessage() + "\n" + referee.script + "wanted:\n" + referee.printed);
            Runtime.getRuntime().halt(1);
        }
        heap.close();
        System.out.println("the referee agrees in " + referee.steps + " steps of " + number + " programs, " + scripts + " of them by heapctl run");
    }
}
