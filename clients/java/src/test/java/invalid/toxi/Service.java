package invalid.toxi;

import static org.junit.jupiter.api.Assertions.assertTrue;

import java.io.BufferedReader;
import java.io.IOException;
import java.io.InputStreamReader;
import java.net.ConnectException;
import java.net.InetAddress;
import java.net.ServerSocket;
import java.net.Socket;
import java.util.concurrent.Callable;

/** A service that answers each line with a thousand bytes and closes, and its clients. */
final class Service {
    static final int SIZE = 1000;
    static final int PATIENCE = 30_000;
    static final int SHORT = 2000;
    static final String ADDRESS;

    static {
        try {
            ADDRESS = started();
        } catch (IOException error) {
            throw new ExceptionInInitializerError(error);
        }
    }

    private Service() {}

    private static String started() throws IOException {
        @SuppressWarnings("resource")
        ServerSocket listener = new ServerSocket(0, 50, InetAddress.getLoopbackAddress());
        daemon(() -> {
            while (true) {
                Socket client = listener.accept();
                daemon(() -> answer(client));
            }
        });
        return "127.0.0.1:" + listener.getLocalPort();
    }

    private static Object answer(Socket client) throws IOException {
        try (client) {
            if (new BufferedReader(new InputStreamReader(client.getInputStream())).readLine() != null) {
                client.getOutputStream().write("x".repeat(SIZE).getBytes());
            }
        }
        return null;
    }

    private static void daemon(Callable<?> work) {
        Thread thread = new Thread(() -> {
            try {
                work.call();
            } catch (Exception gone) {
                // A client that was cut.
                return;
            }
        });
        thread.setDaemon(true);
        thread.start();
    }

    /** One proxy, {@code shop}, whose connections all meet these toxics. */
    static Toxi.Builder shop(Toxic<?>... toxics) {
        Toxi.Builder shop = Toxi.builder().proxy("shop", ADDRESS);
        return toxics.length == 0 ? shop : shop.rule(Rule.of("shop", toxics));
    }

    static Socket connected(String address) throws IOException {
        int colon = address.lastIndexOf(':');
        return new Socket(address.substring(0, colon), Integer.parseInt(address.substring(colon + 1)));
    }

    /** The bytes of an answer, whose pieces each have some milliseconds. */
    static int fetched(String address, int timeout) throws IOException {
        try (Socket client = connected(address)) {
            client.setSoTimeout(timeout);
            client.getOutputStream().write("get\n".getBytes());
            return client.getInputStream().readAllBytes().length;
        }
    }

    static int fetched(String address) throws IOException {
        return fetched(address, PATIENCE);
    }

    /** Of each of some tries, whether it had the whole answer. */
    static String works(Toxi toxi, int tries) {
        StringBuilder told = new StringBuilder();
        while (told.length() < tries) {
            try {
                told.append(fetched(toxi.address("shop")) == SIZE ? '+' : '-');
            } catch (IOException cut) {
                told.append('-');
            }
        }
        return told.toString();
    }

    static boolean isRefused(String address) throws IOException {
        try {
            connected(address).close();
            return false;
        } catch (ConnectException refused) {
            return true;
        }
    }

    static void eventually(String what, Callable<Boolean> holds) throws Exception {
        for (long end = System.nanoTime() + PATIENCE * 1_000_000L; !holds.call(); Thread.sleep(10)) {
            assertTrue(System.nanoTime() < end, "not within 30 s: " + what);
        }
    }
}
