import com.sun.net.httpserver.HttpExchange;
import com.sun.net.httpserver.HttpServer;
import java.io.IOException;
import java.net.InetAddress;
import java.net.InetSocketAddress;
import java.nio.charset.StandardCharsets;
import java.nio.file.Path;
import java.util.List;
import java.util.concurrent.Executors;
import zelamiku.Field;
import zelamiku.Heap;
import zelamiku.HeapException;
import zelamiku.Monitor;
import zelamiku.Schema;

/**
 * A shop over HTTP, which answers when no crash can lose the order. {@code Orders FILE [PORT]} prints the port.
 *
 * <pre> POST /order/CUSTOMER/REQUEST/ITEM/COUNT   "ordered"; or "done before", if the customer's last request has this number; or 409 and the
 * reason GET  /customer/CUSTOMER                   the number of the last request that was done, the money left GET  /totals
 * all money, and all pieces of all items, wherever they are: these never change </pre>
 *
 * <p>Each request has a virtual thread. An order is one section: it takes pieces from the stock and money from the customer, and notes the
 * request's number.
 */
public class Orders {
    static final int CUSTOMERS = 16, ITEMS = 4, PRICE = 3;

    static class Customer extends Monitor {
        final Field.OfLong money = longField("money", 1_000_000), request = longField("request", 0);
        final List<Field.OfLong> pieces = Schema.row("pieces", ITEMS, name -> longField(name, 0));

        Customer(Schema schema, String name) { super(schema, name); }
    }

    static class Item extends Monitor {
        final Field.OfLong stock = longField("stock", 10_000_000), income = longField("income", 0);

        Item(Schema schema, String name) { super(schema, name); }
    }

    static class Shop extends Schema {
        final List<Customer> customers = row("customer", CUSTOMERS, name -> new Customer(this, name));
        final List<Item> items = row("item", ITEMS, name -> new Item(this, name));
    }

    /** Why an order can't be done: it leaves the section, which is taken back. */
    static class Impossible extends Exception {
        Impossible(String reason) { super(reason); }
    }

    private final Shop shop = new Shop();
    private final Heap heap;

    Orders(Path file) { heap = Heap.open(file, shop); }

    String order(Customer customer, long request, int number, long count) throws Impossible {
        Item item = shop.items.get(number);
        String answer = heap.synchronizedOn(List.of(customer, item), () -> {
            if (customer.request.get() == request) return "done before";
            customer.request.set(request);
            if (item.stock.add(-count) < 0) throw new Impossible("out of stock");
            item.income.add(count * PRICE);
            customer.pieces.get(number).add(count);
            if (customer.money.add(-count * PRICE) < 0) throw new Impossible("too little money");
            return "ordered";
        });
        heap.durable();
        return answer;
    }

    /** Customer by customer, and item by item: a section holds 16 monitors at most, so the totals are those of a moment without orders. */
    String totals() {
        long money = 0, pieces = 0;
        for (Customer customer : shop.customers) {
            money += heap.synchronizedOn(List.of(customer), customer.money::get);
            pieces += heap.synchronizedOn(List.of(customer), () -> customer.pieces.stream().mapToLong(Field.OfLong::get).sum());
        }
        for (Item item : shop.items) {
            money += heap.synchronizedOn(List.of(item), item.income::get);
            pieces += heap.synchronizedOn(List.of(item), item.stock::get);
        }
        return money + " " + pieces;
    }

    private String answer(String method, String[] words) throws Impossible {
        return switch (method + " " + words[1]) {
            case "POST order" -> order(shop.customers.get(Integer.parseInt(words[2])), Long.parseLong(words[3]), Integer.parseInt(words[4]), Long.parseLong(words[5]));
            case "GET customer" -> {
                Customer customer = shop.customers.get(Integer.parseInt(words[2]));
                String seen = heap.synchronizedOn(List.of(customer), () -> customer.request.get() + " " + customer.money.get());
                heap.durable(); // what was read may not have been durable yet
                yield seen;
            }
            case "GET totals" -> totals();
            default -> throw new IllegalArgumentException("no such path");
        };
    }

    private void handle(HttpExchange exchange) throws IOException {
        int status = 200;
        String text;
        try {
            text = answer(exchange.getRequestMethod(), exchange.getRequestURI().getPath().split("/"));
        } catch (Impossible error) {
            status = 409;
            text = error.getMessage();
        } catch (IllegalArgumentException | IndexOutOfBoundsException error) {
            status = 404;
            text = error.toString();
        } catch (HeapException error) {
            status = 503;
            text = error.getMessage();
        }
        byte[] bytes = (text + "\n").getBytes(StandardCharsets.UTF_8);
        try (exchange) {
            exchange.sendResponseHeaders(status, bytes.length);
            exchange.getResponseBody().write(bytes);
        }
    }

    public static void main(String[] words) throws IOException {
        Orders orders = new Orders(Path.of(words[0]));
        int port = words.length > 1 ? Integer.parseInt(words[1]) : 0;
        HttpServer server = HttpServer.create(new InetSocketAddress(InetAddress.getLoopbackAddress(), port), 100);
        server.createContext("/", orders::handle);
        server.setExecutor(Executors.newVirtualThreadPerTaskExecutor());
        Runtime.getRuntime().addShutdownHook(new Thread(orders.heap::stop)); // at Ctrl-C; a kill loses nothing that was answered
        server.start();
        System.out.println(server.getAddress().getPort());
    }
}
