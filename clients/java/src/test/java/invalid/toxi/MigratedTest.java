package invalid.toxi;

import static org.junit.jupiter.api.Assertions.assertEquals;
import static org.junit.jupiter.api.Assertions.assertThrows;

import java.io.IOException;
import java.net.ConnectException;
import java.net.SocketTimeoutException;
import org.junit.jupiter.api.AfterAll;
import org.junit.jupiter.api.AfterEach;
import org.junit.jupiter.api.BeforeAll;
import org.junit.jupiter.api.Test;
import org.junit.jupiter.api.parallel.Execution;
import org.junit.jupiter.api.parallel.ExecutionMode;

/** A suite that was one of Toxiproxy, with a client that knows a fixed address. Its tests share a proxy, so they run in turn. */
@Execution(ExecutionMode.SAME_THREAD)
final class MigratedTest {
    private static final String ADDRESS = "127.0.26.80:26379";
    private static Toxi cache;

    @BeforeAll
    static void start() {
        Proxy proxy = Proxy.of("cache", Service.ADDRESS).listeningAt(ADDRESS);
        cache = Toxi.builder().proxy(proxy).start();
    }

    @AfterAll
    static void stop() {
        cache.close();
    }

    @AfterEach
    void reset() {
        cache.restart();
    }

    @Test
    void slowCache() {
        cache.restart(Rule.of("cache", Toxics.latency().latency(10_000)));
        assertThrows(SocketTimeoutException.class, this::get);
    }

    @Test
    void cacheDown() {
        cache.down();
        assertThrows(ConnectException.class, this::get);
        cache.up();
    }

    @Test
    void cache() throws IOException {
        assertEquals(Service.SIZE, get());
    }

    /** The client under test, whose limit is short where an answer is late by ten seconds. */
    private int get() throws IOException {
        return Service.fetched(ADDRESS, 2000);
    }
}
