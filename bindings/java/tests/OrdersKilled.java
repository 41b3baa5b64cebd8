import java.io.*;
import java.net.URI;
import java.net.http.*;
import java.net.http.HttpResponse.BodyHandlers;
import java.nio.file.Path;
import java.util.*;
import java.util.concurrent.atomic.AtomicLong;

/**
 * Kills the server of examples/java/orders under load: {@code OrdersKilled KILLS FILE COMMAND..}. No order that was answered may be lost, and none
 * may be there by half. First the judge must refuse made-up states; without words nothing else is done.
 */
public class OrdersKilled {
    static final int CUSTOMERS = 16;
    static final HttpClient HTTP = HttpClient.newHttpClient();

    static String call(int port, String method, String path) throws IOException, InterruptedException {
        var request = HttpRequest.newBuilder(URI.create("http://127.0.0.1:" + port + path)).method(method, HttpRequest.BodyPublishers.noBody()).build();
        var answer = HTTP.send(request, BodyHandlers.ofString());
        if (answer.statusCode() != 200 && answer.statusCode() != 409) throw new AssertionError(path + ": " + answer.statusCode() + " " + answer.body());
        return answer.body().strip();
    }

    /** Why a started server can't have this: the last order of a customer, and the totals. Null: it can. {@code before}: the totals of the first start. */
    static String wrong(long found, long answered, long sent, String totals, String before) {
        if (found < answered) return "order " + found + " is the last one, and " + answered + " was answered";
        if (found > sent) return "order " + found + " is the last one, and only " + sent + " were sent";
        return before == null || totals.equals(before) ? null : "the totals are " + totals + ", and were " + before;
    }

    static void tryJudge() {
        boolean passes = wrong(2, 2, 2, "1 2", null) == null && wrong(3, 2, 3, "1 2", "1 2") == null;
        boolean refuses = wrong(1, 2, 3, "1 2", "1 2") != null && wrong(4, 2, 3, "1 2", "1 2") != null && wrong(2, 2, 3, "1 1", "1 2") != null;
        if (!passes || !refuses) throw new AssertionError("the judge passes a made-up state that is wrong, or refuses one that is right");
        System.out.println("the judge refuses 3 made-up states");
    }

    public static void main(String[] words) throws IOException, InterruptedException {
        tryJudge();
        if (words.length == 0) return;
        int kills = Integer.parseInt(words[0]);
        List<String> command = new ArrayList<>(Arrays.asList(words).subList(2, words.length));
        command.add(Path.of(words[1]).toString());
        long[] sent = new long[CUSTOMERS], answered = new long[CUSTOMERS];
        AtomicLong orders = new AtomicLong();
        String totals = null;
        Random random = new Random(kills);
        for (int kill = 0; kill <= kills; kill++) {
            Process server = new ProcessBuilder(command).redirectError(ProcessBuilder.Redirect.INHERIT).start();
            try (BufferedReader lines = server.inputReader()) {
                int port = Integer.parseInt(lines.readLine());
                String found = call(port, "GET", "/totals");
                for (int customer = 0; customer < CUSTOMERS; customer++) {
                    long last = Long.parseLong(call(port, "GET", "/customer/" + customer).split(" ")[0]);
                    String why = wrong(last, answered[customer], sent[customer], found, totals);
                    if (why != null) throw new AssertionError("customer " + customer + ": " + why);
                }
                totals = found;
                if (kill == kills) break;
                List<Thread> clients = new ArrayList<>();
                for (int number = 0; number < CUSTOMERS; number++) {
                    int customer = number;
                    Random choice = new Random(random.nextLong());
                    clients.add(Thread.startVirtualThread(() -> {
                        try {
                            while (true) {
                                long request = ++sent[customer];
                                String answer = call(port, "POST", "/order/%d/%d/%d/%d".formatted(customer, request, choice.nextInt(4), choice.nextInt(20)));
                                // One that was refused is taken back, and its number with it.
                                if (answer.equals("ordered")) answered[customer] = request;
                                orders.incrementAndGet();
                            }
                        } catch (IOException | InterruptedException error) {
                            // the server is gone
                        }
                    }));
                }
                Thread.sleep(200 + random.nextInt(600));
                server.destroyForcibly();
                for (Thread client : clients) client.join();
            } finally {
                server.destroyForcibly().waitFor();
            }
        }
        System.out.println(kills + " kills, " + orders + " orders answered, none lost, no half of one");
    }
}
