import java.nio.file.Path;
import java.util.List;
import zelamiku.Field;
import zelamiku.Heap;
import zelamiku.Monitor;
import zelamiku.Schema;

/** Moves 10 from one account to another, each time that it runs. */
public class Transfer {
    static class Account extends Monitor {
        final Field.OfLong balance = longField("balance", 100);

        Account(Schema schema, String name) { super(schema, name); }
    }

    static class Bank extends Schema {
        final Account alice = new Account(this, "alice"), bob = new Account(this, "bob");
    }

    public static void main(String[] words) {
        Bank bank = new Bank();
        try (Heap heap = Heap.open(Path.of("accounts.heap"), bank)) {   // made, or recovered
            heap.synchronizedOn(List.of(bank.alice, bank.bob), () -> {  // a section: a crash keeps all of it or nothing
                if (bank.alice.balance.get() >= 10) {
                    bank.alice.balance.add(-10);
                    bank.bob.balance.add(10);
                }
                System.out.println(bank.alice.balance.get() + " " + bank.bob.balance.get()); // 90 110, 80 120, ..
            });
            heap.durable();                                             // returns when no crash can lose it
        }
    }
}
