import java.io.IOException;
import java.lang.reflect.InvocationTargetException;
import java.lang.reflect.Method;
import java.lang.reflect.Modifier;
import java.nio.file.*;
import java.time.Duration;
import java.util.*;
import java.util.concurrent.*;
import java.util.concurrent.locks.LockSupport;
import java.util.function.BooleanSupplier;
import zelamiku.*;

/** The tests of the binding: {@code Tests FOLDER [NAME]}. Each test is a static method that gets the path of a new heap. The last line is
 * {@code N passed, M failed}. */
public class Tests {
    enum Colour { RED, GREEN, BLUE }

    static class Account extends Monitor {
        final Field.OfLong balance = longField("balance", 100);
        final Field.OfInt count = asTransient(intField("count", -1));
        final Field.OfDouble rate = doubleField("rate", 0.5);
        final Field.OfBoolean isOpen = booleanField("isOpen", true);
        final Field.OfEnum<Colour> colour = enumField("colour", Colour.GREEN);

        Account(Schema schema, String name) { super(schema, name); }
    }

    static class Bank extends Schema {
        final Account alice = new Account(this, "alice"), bob = new Account(this, "bob"), carol = new Account(this, "carol");
        final List<Account> both = List.of(bob, alice);

        long sum() { return alice.balance.get() + bob.balance.get(); }
    }

    // ---- values ----

    static void fields_keep_their_values(Path path) {
        Bank first = new Bank();
        try (Heap heap = Heap.open(path, first)) {
            heap.synchronizedOn(List.of(first.alice), () -> {
                equal(List.of(100L, -1, 0.5, true, Colour.GREEN), values(first.alice));
                first.alice.balance.set(Long.MIN_VALUE);
                first.alice.count.set(7);
                first.alice.rate.set(-0.0);
                first.alice.isOpen.set(false);
                first.alice.colour.set(Colour.BLUE);
                equal(List.of(Long.MIN_VALUE, 7, -0.0, false, Colour.BLUE), values(first.alice));
                equal(Long.MIN_VALUE + 5, first.alice.balance.add(5));
            });
        }
        Bank again = new Bank();
        try (Heap heap = Heap.open(path, again, new Options().mustExist(true))) {
            // A transient field begins anew.
            equal(List.of(Long.MIN_VALUE + 5, -1, -0.0, false, Colour.BLUE), heap.synchronizedOn(List.of(again.alice), () -> values(again.alice)));
            equal(false, heap.report().isMade());
        }
    }

    static List<Object> values(Account of) {
        return List.of(of.balance.get(), of.count.get(), of.rate.get(), of.isOpen.get(), of.colour.get());
    }

    /** The number that Python's package computes of alice, bob, alice.balance, bob.balance. */
    static void names_give_pythons_fingerprint(Path path) {
        class Two extends Schema {
            final Monitor alice = new Monitor(this, "alice"), bob = new Monitor(this, "bob");
            final Field first = alice.longField("balance", 100), second = bob.longField("balance", 100);
        }
        Heap.open(path, new Two(), new Options().fingerprint(0xa22bd6d2e2959bdcL)).close();
        Heap.open(path, new Two()).close();
        refused(HeapException.OtherHeap.class, () -> Heap.open(path, new Two(), new Options().fingerprint(5)));
    }

    // ---- sections ----

    static void an_exception_takes_the_section_back(Path path) {
        Bank bank = new Bank();
        try (Heap heap = Heap.open(path, bank)) {
            IOException thrown = new IOException("in the middle");
            equal(thrown, refused(IOException.class, () -> heap.synchronizedOn(bank.both, () -> {
                bank.alice.balance.set(7777);
                bank.bob.colour.set(Colour.RED);
                throw thrown;
            })));
            equal(0, thrown.getSuppressed().length);
            try (Section section = heap.enter(bank.alice)) {
                bank.alice.balance.set(7777);
                // without exit()
            }
            bank.alice.lock();
            bank.alice.balance.set(7777);
            heap.revert();
            bank.alice.unlock();
            heap.synchronizedOn(bank.both, () -> equal(List.of(200L, Colour.GREEN), List.of(bank.sum(), bank.bob.colour.get())));
            try (Section section = heap.enter(bank.alice)) {
                bank.alice.balance.set(1);
                section.exit();
                refused(IllegalStateException.class, section::exit);
            }
            equal(1L, heap.synchronizedOn(List.of(bank.alice), bank.alice.balance::get));
            refused(HeapException.NotHeld.class, heap::revert);
        }
    }

    static void an_inner_failure_takes_back_the_whole(Path path) {
        Bank bank = new Bank();
        try (Heap heap = Heap.open(path, bank)) {
            refused(HeapException.Reverted.class, () -> heap.synchronizedOn(List.of(bank.alice, bank.bob), () -> {
                bank.alice.balance.set(1);
                refused(IllegalStateException.class, () -> heap.synchronizedOn(List.of(bank.bob), () -> { throw new IllegalStateException("inner"); }));
                refused(HeapException.Reverted.class, () -> bank.alice.balance.set(2));
            }));
            // One that had stored nothing goes on.
            heap.synchronizedOn(List.of(bank.alice), () -> {
                refused(IllegalStateException.class, () -> heap.synchronizedOn(List.of(bank.bob), () -> { throw new IllegalStateException("inner"); }));
                equal(100L, bank.alice.balance.add(0));
            });
            // One that has freed a monitor under which it had stored can't be taken back.
            IllegalStateException thrown = refused(IllegalStateException.class, () -> heap.synchronizedOn(List.of(bank.alice), () -> {
                heap.synchronizedOn(List.of(bank.bob), () -> bank.bob.balance.set(1));
                throw new IllegalStateException("too late");
            }));
            equal("too late", thrown.getMessage());
            HeapException ended = refused(HeapException.Abandoned.class, bank.alice::lock);
            has(ended.reason(), "too late");
            refused(HeapException.Abandoned.class, heap::close);
        }
        Bank again = new Bank();
        try (Heap heap = Heap.open(path, again)) {
            equal(200L, heap.synchronizedOn(again.both, again::sum));
            equal(List.of(Report.Why.NOT_ENDED), heap.report().dropped().stream().map(Report.Dropped::why).toList());
        }
    }

    static void monitors_are_taken_in_one_order(Path path) throws Exception {
        Bank bank = new Bank();
        try (Heap heap = Heap.open(path, bank)) {
            var threads = List.of(List.of(bank.alice, bank.bob), List.of(bank.bob, bank.alice)).stream().map(order -> Thread.ofPlatform().start(() -> {
                for (int turn = 0; turn < 5000; turn++) heap.synchronizedOn(order, () -> {
                    bank.alice.balance.add(-1);
                    bank.bob.balance.add(1);
                });
            })).toList();
            for (Thread thread : threads) thread.join();
            equal(List.of(-9900L, 10100L), heap.synchronizedOn(bank.both, () -> List.of(bank.alice.balance.get(), bank.bob.balance.get())));
            heap.synchronizedOn(List.of(bank.bob), () -> {
                refused(HeapException.OutOfOrder.class, () -> heap.enter(bank.alice));
                heap.synchronizedOn(List.of(bank.carol, bank.bob), () -> equal(true, bank.carol.isHeldByCurrentThread()));
                equal(false, bank.carol.isHeldByCurrentThread());
            });
        }
    }

    // ---- Lock and Condition ----

    static void a_monitor_is_a_lock(Path path) throws Exception {
        Bank bank = new Bank();
        try (Heap heap = Heap.open(path, bank)) {
            bank.alice.lock();
            equal(true, bank.alice.tryLock());
            equal(List.of(false, false), elsewhere(() -> List.of(bank.alice.tryLock(), bank.alice.tryLock(20, TimeUnit.MILLISECONDS))));
            Thread sleeper = Thread.ofPlatform().start(() -> refused(InterruptedException.class, bank.alice::lockInterruptibly));
            until(() -> heap.waits().size() == 1);
            equal(List.of(sleeper, bank.alice, Thread.currentThread()),
                heap.waits().stream().flatMap(wait -> List.of(wait.thread(), wait.monitor(), wait.owner()).stream()).toList());
            sleeper.interrupt();
            sleeper.join();
            bank.alice.unlock();
            equal(true, bank.alice.isHeldByCurrentThread());
            bank.alice.unlock();
            refused(HeapException.NotHeld.class, bank.alice::unlock);
            equal(true, elsewhere(() -> bank.alice.tryLock(1, TimeUnit.DAYS) && bank.alice.isHeldByCurrentThread() | unlocked(bank.alice)));
        }
    }

    static boolean unlocked(Monitor monitor) {
        monitor.unlock();
        return true;
    }

    static void threads_wait_and_are_signalled(Path path) throws Exception {
        Bank bank = new Bank();
        try (Heap heap = Heap.open(path, bank)) {
            refused(HeapException.NotHeld.class, bank.alice::await);
            refused(HeapException.NotHeld.class, bank.alice::signal);
            var full = bank.alice.newCondition();
            var empty = bank.alice.newCondition();
            // A buffer of one: with two conditions a signal of each wakes all.
            CompletableFuture<Long> taken = CompletableFuture.supplyAsync(() -> {
                long sum = 0;
                for (int turn = 0; turn < 500; turn++) sum += heap.synchronizedOn(List.of(bank.alice), () -> {
                    while (bank.alice.count.get() < 0) full.awaitUninterruptibly();
                    int value = bank.alice.count.get();
                    bank.alice.count.set(-1);
                    empty.signal();
                    return value;
                });
                return sum;
            }, Thread::startVirtualThread);
            for (int turn = 0; turn < 500; turn++) {
                int value = turn;
                heap.synchronizedOn(List.of(bank.alice), () -> {
                    while (bank.alice.count.get() >= 0) empty.await();
                    bank.alice.count.set(value);
                    full.signal();
                });
            }
            equal(499L * 250, taken.get());
            bank.alice.lock();
            equal(false, bank.alice.signal());
            equal(0, bank.alice.signalAll());
            refused(UnsupportedOperationException.class, () -> full.awaitNanos(1));
            Thread.currentThread().interrupt();
            refused(InterruptedException.class, full::await);
            bank.alice.unlock();
        }
    }

    // ---- lanes and threads ----

    static void many_threads_share_the_lanes(Path path) throws Exception {
        Bank bank = new Bank();
        try (Heap heap = Heap.open(path, bank, new Options().lanes(3).laneTimeout(Duration.ofMinutes(5))); var pool = Executors.newVirtualThreadPerTaskExecutor()) {
            List<Thread> threads = new ArrayList<>();
            for (int number = 0; number < 100; number++) threads.add(Thread.ofPlatform().start(() -> pay(heap, bank)));
            // Tests runs with one carrier: a sleep in a section, and the waits of others for its monitor, leave it to other threads.
            for (int number = 0; number < 300; number++) pool.submit(() -> pay(heap, bank));
            for (Thread thread : threads) thread.join();
            pool.shutdown();
            equal(true, pool.awaitTermination(300, TimeUnit.SECONDS));
            equal(List.of(-300L, 500L), heap.synchronizedOn(bank.both, () -> List.of(bank.alice.balance.get(), bank.bob.balance.get())));
        }
    }

    static void pay(Heap heap, Bank bank) {
        heap.synchronizedOn(bank.both, () -> {
            bank.alice.balance.add(-1);
            LockSupport.parkNanos(100_000);
            bank.bob.balance.add(1);
        });
        heap.durable();
    }

    static void a_lane_is_awaited_for_a_time(Path path) throws Exception {
        Bank bank = new Bank();
        try (Heap heap = Heap.open(path, bank, new Options().lanes(1).laneTimeout(Duration.ofMillis(100)))) {
            try (Section section = heap.enter(bank.alice)) {
                equal(true, elsewhere(() -> refused(HeapException.NoLane.class, () -> heap.enter(bank.bob)) != null));
                bank.alice.balance.set(3);
                section.exit();
            }
            equal(103L, elsewhere(() -> heap.synchronizedOn(bank.both, bank::sum)));
        }
    }

    // ---- durability ----

    static void sections_become_durable(Path path) throws Exception {
        Bank bank = new Bank();
        try (Heap heap = Heap.open(path, bank, new Options().linger(Duration.ofSeconds(3600)))) {
            equal(true, heap.durable(Duration.ZERO));
            heap.synchronizedOn(List.of(bank.alice), () -> bank.alice.balance.add(1));
            heap.durable();
            equal(1L, heap.stats().sections());
            // What depends on an open section isn't durable.
            bank.bob.lock();
            bank.carol.lock();
            bank.bob.unlock();
            elsewhere(() -> {
                heap.synchronizedOn(List.of(bank.bob), () -> bank.bob.balance.add(1));
                equal(false, heap.durable(Duration.ofMillis(50)));
                equal(false, heap.durableAsync().completeOnTimeout(false, 50, TimeUnit.MILLISECONDS).get());
                return null;
            });
            refused(HeapException.InSection.class, heap::durable);
            refused(HeapException.InSection.class, heap::durableAsync);
            bank.carol.unlock();
            heap.durable();
            equal(3L, heap.stats().sections());
            List<CompletableFuture<Boolean>> futures = new ArrayList<>();
            for (int turn = 0; turn < 300; turn++) {
                heap.synchronizedOn(List.of(bank.alice), () -> bank.alice.balance.add(1));
                futures.add(heap.durableAsync());
            }
            for (var future : futures) equal(true, future.get(120, TimeUnit.SECONDS));
            // Futures that can't be kept fail.
            bank.bob.lock();
            bank.carol.lock();
            bank.bob.unlock();
            var lost = elsewhere(() -> {
                heap.synchronizedOn(List.of(bank.bob), () -> bank.bob.balance.add(1));
                return heap.durableAsync();
            });
            heap.stop();
            equal(HeapException.Closed.class, refused(CompletionException.class, lost::join).getCause().getClass());
            refused(HeapException.Closed.class, bank.carol::unlock);
        }
    }

    // ---- misuse ----

    static void misuse_gets_exceptions(Path path) throws Exception {
        Bank bank = new Bank();
        refused(IllegalStateException.class, bank.alice::lock);
        Heap heap = Heap.open(path, bank);
        refused(IllegalStateException.class, () -> Heap.open(path, bank));
        refused(HeapException.Busy.class, () -> Heap.open(path, new Bank()));
        refused(IllegalStateException.class, () -> bank.alice.longField("more", 0));
        refused(IllegalArgumentException.class, heap::enter);
        refused(IllegalArgumentException.class, () -> heap.enter(new Bank().alice));
        has(refused(HeapException.NotHeld.class, bank.alice.balance::get).getMessage(), "alice.balance");
        try (Section section = heap.enter(bank.alice)) {
            equal(true, elsewhere(() -> refused(WrongThreadException.class, section::exit) != null));
            equal(true, elsewhere(() -> refused(HeapException.NotHeld.class, bank.alice::unlock) != null));
            has(refused(HeapException.NotHeld.class, bank.bob.balance::get).getMessage(), "bob.balance");
            section.exit();
        }
        // An inner section that is left open, and an outer one that was ended by unlock.
        Section outer = heap.enter(bank.alice);
        heap.enter(bank.bob);
        bank.alice.balance.set(1);
        refused(HeapException.OutOfOrder.class, outer::exit);
        equal(false, bank.bob.isHeldByCurrentThread());
        try (Section section = heap.enter(bank.alice)) {
            equal(100L, bank.alice.balance.get());
            bank.alice.unlock();
            elsewhere(() -> heap.synchronizedOn(bank.both, bank::sum));
        }
        refused(HeapException.SectionFull.class, () -> heap.synchronizedOn(bank.both, () -> { while (true) bank.alice.balance.add(1); }));
        // A thread that ends inside a section.
        Thread left = Thread.ofPlatform().start(bank.alice::lock);
        left.join();
        has(refused(HeapException.Abandoned.class, bank.alice::lock).reason(), "ended inside a section");
        refused(HeapException.Abandoned.class, heap::close);
        heap.close();
        Bank other = new Bank();
        Heap next = Heap.open(path, other);
        Section open = next.enter(other.alice);
        refused(HeapException.Running.class, next::close);
        refused(HeapException.Closed.class, open::exit);
        for (Call call : List.<Call>of(bank.alice::lock, bank.alice::tryLock, bank.alice.balance::get, bank.alice::unlock, bank.alice::signal, other.alice::lock,
                other.bob.balance::get, heap::revert, heap::waits, () -> heap.copyTo(path), () -> next.enter(other.bob), next::waits))
            refused(HeapException.Stopped.class, call);
        heap.durable();
    }

    static void limits_are_told(Path path) throws Exception {
        class Many extends Schema {
            final List<Monitor> monitors = row("m", 17, name -> new Monitor(this, name));
            final Field one = monitors.get(0).longField("one", 0);
        }
        Many many = new Many();
        try (Heap heap = Heap.open(path, many)) {
            refused(HeapException.TooMany.class, () -> heap.synchronizedOn(many.monitors, () -> { }));
            equal(false, many.monitors.get(0).isHeldByCurrentThread());
        }
        refused(HeapException.BadSchema.class, () -> Heap.open(path, new Schema()));
        refused(HeapException.BadSchema.class, () -> Heap.open(path, new Many(), new Options().lanes(33)));
        refused(HeapException.OtherHeap.class, () -> Heap.open(path, new Bank()));
        Path none = path.resolveSibling("none");
        refused(HeapException.NoHeap.class, () -> Heap.open(none, new Bank(), new Options().mustExist(true)));
        equal(false, Files.exists(none));
        Files.writeString(none, "something else");
        HeapException error = refused(HeapException.NotAHeap.class, () -> Heap.open(none, new Bank()));
        equal(List.of(none.toString(), none + ": " + error.reason() + "; " + error.cure()), List.of(error.path(), error.getMessage()));
        equal(2, refused(HeapException.FileFailed.class, () -> Heap.open(none.resolveSibling("no").resolve("folder"), new Bank())).errno());
    }

    /** Threads make all calls while another closes the heap: each ends by an exception of ours, and the JVM goes on. */
    static void calls_beside_a_close_are_safe(Path path) throws Exception {
        for (int turn = 0; turn < 12; turn++) {
            Bank bank = new Bank();
            Heap heap = Heap.open(path, bank, new Options().lanes(4).log(null));
            Queue<Throwable> wrong = new ConcurrentLinkedQueue<>();
            CountDownLatch begun = new CountDownLatch(8);
            List<Thread> threads = new ArrayList<>();
            for (int number = 0; number < 8; number++) {
                Random random = new Random(8 * turn + number);
                threads.add((number % 2 == 0 ? Thread.ofPlatform() : Thread.ofVirtual()).start(() -> {
                    begun.countDown();
                    try {
                        while (true) randomCall(heap, bank, random.nextInt(9));
                    } catch (HeapException.Stopped error) {
                        // the end
                    } catch (Throwable error) {
                        wrong.add(error);
                    }
                }));
            }
            begun.await();
            Thread.sleep(turn);
            if (turn % 2 == 0) heap.stop();
            else heap.abandon("tried");
            for (Thread thread : threads) equal(true, thread.join(Duration.ofSeconds(120)));
            for (Throwable error : wrong) throw new AssertionError(error);
        }
    }

    static void randomCall(Heap heap, Bank bank, int choice) throws Exception {
        switch (choice) {
            case 0 -> heap.synchronizedOn(bank.both, () -> bank.alice.balance.add(1));
            case 1 -> heap.durable(Duration.ofMillis(1));
            case 2 -> heap.waits();
            case 3 -> { if (bank.bob.tryLock(1, TimeUnit.MILLISECONDS)) bank.bob.unlock(); }
            case 4 -> heap.durableAsync();
            case 5 -> { try { bank.alice.balance.get(); } catch (HeapException.NotHeld error) { /* or the end */ } }
            case 6 -> { try (Section section = heap.enter(bank.bob)) { bank.bob.balance.add(1); } }
            case 7 -> heap.synchronizedOn(List.of(bank.carol), () -> { if (bank.carol.signalAll() == 0) bank.carol.await(); });
            default -> heap.synchronizedOn(List.of(bank.carol), bank.carol::signalAll);
        }
    }

    // ---- looking ----

    static void a_circle_is_seen_and_logged(Path path) throws Exception {
        Bank bank = new Bank();
        List<String> lines = new ArrayList<>();
        Options options = new Options().log(new Lines(lines));
        try (Heap heap = Heap.open(path, bank, options)) {
            CountDownLatch both = new CountDownLatch(2);
            List<Thread> threads = List.of(List.of(bank.alice, bank.bob), List.of(bank.bob, bank.alice)).stream().map(order -> Thread.ofPlatform().start(() -> {
                order.get(0).lock();
                both.countDown();
                try {
                    both.await();
                } catch (InterruptedException error) {
                    throw new AssertionError(error);
                }
                refused(HeapException.Closed.class, order.get(1)::lock);
                refused(HeapException.Closed.class, order.get(0)::unlock);
            })).toList();
            until(() -> { synchronized (lines) { return lines.stream().anyMatch(line -> line.startsWith("WARNING") && line.contains("circle")); } });
            equal(List.of(true, true), heap.waits().stream().map(wait -> wait.inCircle() && threads.contains(wait.thread()) && threads.contains(wait.owner())).toList());
            heap.stop();
            for (Thread thread : threads) thread.join();
        }
        // A log that throws ends nothing. (Its trace goes to System.err.)
        var error = System.err;
        System.setErr(new java.io.PrintStream(java.io.OutputStream.nullOutputStream()));
        Heap.open(path, new Bank(), new Options().log(new Lines(null))).close();
        System.setErr(error);
    }

    record Lines(List<String> lines) implements System.Logger {
        @Override public String getName() { return "lines"; }

        @Override public boolean isLoggable(Level level) { return true; }

        @Override public void log(Level level, ResourceBundle bundle, String text, Throwable thrown) { throw new AssertionError(); }

        @Override public void log(Level level, ResourceBundle bundle, String text, Object... values) {
            synchronized (lines) { lines.add(level + " " + text); }
        }
    }

    static void a_copy_and_counts(Path path) {
        Bank bank = new Bank();
        Path copy = path.resolveSibling("copy");
        try (Heap heap = Heap.open(path, bank)) {
            equal(List.of(true, 8, 0L), List.of(heap.report().isMade(), heap.report().lanes(), heap.report().undone()));
            heap.synchronizedOn(List.of(bank.alice), () -> bank.alice.balance.set(5));
            heap.durable();
            heap.copyTo(copy);
            refused(HeapException.CopyFailed.class, () -> heap.copyTo(path));
            var stats = heap.stats();
            equal(List.of(1L, stats.rounds() * 2, 1), List.of(stats.sections(), stats.syncs(), stats.lent()));
        }
        Bank other = new Bank();
        try (Heap heap = Heap.open(copy, other)) {
            equal(105L, heap.synchronizedOn(other.both, other::sum));
        }
    }

    /** Also where a later opening doesn't ask for it. */
    static void a_heap_that_is_made_on_atomic_sectors_takes_one_sync_a_round(Path path) {
        for (boolean asked : List.of(true, false)) {
            Bank bank = new Bank();
            try (Heap heap = Heap.open(path, bank, new Options().atomicSectors(asked).linger(Duration.ofSeconds(3600)))) {
                heap.synchronizedOn(List.of(bank.alice), () -> bank.alice.balance.set(5));
                heap.durable();
                equal(List.of(1L, 1L, 0L), List.of(heap.stats().rounds(), heap.stats().oneSyncRounds(), heap.stats().twoSyncRounds()));
            }
        }
    }

    // ---- what the tests use ----

    interface Call {
        void run() throws Throwable;
    }

    static void equal(Object wanted, Object found) {
        if (!wanted.equals(found)) throw new AssertionError("wanted " + wanted + ", found " + found);
    }

    static void has(String text, String part) {
        if (!text.contains(part)) throw new AssertionError("'" + part + "' isn't in: " + text);
    }

    /** The exception of this class that the call throws. */
    static <X extends Throwable> X refused(Class<X> kind, Call call) {
        try {
            call.run();
        } catch (Throwable thrown) {
            if (kind.isInstance(thrown)) return kind.cast(thrown);
            throw new AssertionError("wanted " + kind, thrown);
        }
        throw new AssertionError("no " + kind);
    }

    static <T> T elsewhere(Callable<T> call) throws Exception {
        try (var pool = Executors.newSingleThreadExecutor()) {
            return pool.submit(call).get();
        }
    }

    static void until(BooleanSupplier is) throws InterruptedException {
        for (int turn = 0; !is.getAsBoolean(); turn++) {
            if (turn == 12_000) throw new AssertionError("not within two minutes");
            Thread.sleep(10);
        }
    }

    public static void main(String[] words) throws IllegalAccessException, IOException {
        int passed = 0, failed = 0;
        Path folder = Path.of(words[0]);
        var tests = Arrays.stream(Tests.class.getDeclaredMethods()).filter(test -> Modifier.isStatic(test.getModifiers()) && !test.isSynthetic()
            && Arrays.equals(test.getParameterTypes(), new Class<?>[] {Path.class})).sorted(Comparator.comparing(Method::getName)).toList();
        for (var test : tests) {
            if (words.length > 1 && !test.getName().contains(words[1])) continue;
            try {
                test.invoke(null, Files.createDirectory(folder.resolve(test.getName())).resolve("test.heap"));
                passed++;
            } catch (InvocationTargetException error) {
                System.out.println("FAILED: " + test.getName());
                error.getCause().printStackTrace(System.out);
                failed++;
            }
        }
        System.out.println(passed + " passed, " + failed + " failed");
        System.exit(failed == 0 ? 0 : 1);
    }
}
