package zelamiku;

import java.io.ByteArrayOutputStream;
import java.nio.charset.StandardCharsets;
import java.util.*;
import java.util.function.Function;
import java.util.stream.*;

/**
 * The objects of a heap and their fields. A program declares them by a subclass:
 *
 * {@snippet :
 * class Account extends Monitor {
 *     final Field.OfLong balance = longField("balance", 100);
 *     Account(Schema schema, String name) { super(schema, name); }
 * }
 * class Bank extends Schema {
 *     final Account alice = new Account(this, "alice"), bob = new Account(this, "bob");
 *     final List<Account> others = row("others", 64, name -> new Account(this, name));
 * }
 * }
 *
 * Objects and fields are numbered in the order in which they are made, so a program must make them in the same order each time. The names
 * are for errors and for the {@linkplain Options#fingerprint fingerprint}. An instance belongs to the first heap that is opened with it: make
 * a new one for each opening.
 */
public class Schema {
    final List<Monitor> monitors = new ArrayList<>();
    final List<Field> fields = new ArrayList<>();
    /** Written once, before the heap is known to any thread. */
    Heap heap;

    /** A schema without objects. */
    public Schema() {}

    /**
     * Makes so many objects or fields, which are named {@code name[0]}, {@code name[1]}, ..
     *
     * @param make makes one, of the name that it gets
     */
    public static <T> List<T> row(String name, int count, Function<String, ? extends T> make) {
        return IntStream.range(0, count).<T>mapToObj(index -> make.apply(name + "[" + index + "]")).toList();
    }

    /** The open heap. IllegalStateException: none was opened with this schema. */
    final Heap open() {
        Heap open = heap;
        if (open == null) throw new IllegalStateException("no heap was opened with this schema");
        return open;
    }

    final void mustBeUnopened() {
        if (heap != null) throw new IllegalStateException("a heap was opened with this schema: make a new one");
    }

    /** FNV-1a over the names in UTF-8, objects first, with a byte ff between two; 1 if that is 0. Python's package computes the same. */
    final long fingerprint() {
        long hash = 0xcbf29ce484222325L;
        var bytes = new ByteArrayOutputStream();
        for (Object named : Stream.concat(monitors.stream(), fields.stream()).toList()) {
            if (bytes.size() > 0) bytes.write(0xff);
            bytes.writeBytes(named.toString().getBytes(StandardCharsets.UTF_8));
        }
        for (byte one : bytes.toByteArray()) hash = (hash ^ (one & 0xff)) * 0x100000001b3L;
        return hash == 0 ? 1 : hash;
    }
}
