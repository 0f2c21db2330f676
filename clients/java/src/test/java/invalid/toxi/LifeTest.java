package invalid.toxi;

import static invalid.toxi.Service.SIZE;
import static invalid.toxi.Service.eventually;
import static invalid.toxi.Service.fetched;
import static invalid.toxi.Service.isRefused;
import static invalid.toxi.Service.shop;
import static org.junit.jupiter.api.Assertions.assertArrayEquals;
import static org.junit.jupiter.api.Assertions.assertEquals;
import static org.junit.jupiter.api.Assertions.assertFalse;
import static org.junit.jupiter.api.Assertions.assertThrows;
import static org.junit.jupiter.api.Assertions.assertTrue;

import java.io.BufferedReader;
import java.io.IOException;
import java.io.InputStreamReader;
import java.net.BindException;
import java.net.ServerSocket;
import java.nio.file.Files;
import java.nio.file.Path;
import java.nio.file.attribute.PosixFilePermissions;
import java.time.Duration;
import java.util.ArrayList;
import java.util.List;
import java.util.Map;
import org.junit.jupiter.api.Test;
import org.junit.jupiter.api.extension.RegisterExtension;
import org.junit.jupiter.api.io.TempDir;

/** Starts, restarts and ends. */
final class LifeTest {
    @RegisterExtension
    final ToxiExtension toxi = new ToxiExtension();

    @TempDir
    Path folder;

    @Test
    void aLinkThatDoesNotComeTimesOut() {
        Toxi served = toxi.start(shop());
        assertThrows(ToxiException.Timeout.class, () -> served.link("shop", 1, Duration.ofMillis(100)));
    }

    @Test
    void aRestartServesOtherRulesAtTheSameAddress() throws IOException {
        Toxi served = toxi.start(shop());
        String address = served.address("shop");
        fetched(address);
        served.link("shop", 1);
        for (int bytes : new int[] {100, 10}) {
            served.restart(Rule.of("shop", Toxics.limitData().bytes(bytes)));
            assertEquals(address, served.address("shop"));
            fetched(address);
            assertEquals(bytes, served.link("shop", 1).down());
        }
    }

    @Test
    void aWrongRestartChangesNothing() throws IOException {
        Toxi served = toxi.start(shop());
        ToxiException error = assertThrows(ToxiException.class, () -> served.restart(Rule.of("shp")));
        assertTrue(error.getMessage().contains("no proxy shp"), error.getMessage());
        assertEquals(SIZE, fetched(served.address("shop")));
    }

    @Test
    void downRefusesAndUpAnswers() throws IOException {
        Toxi served = toxi.start(shop());
        String address = served.address("shop");
        served.down();
        served.down();
        assertTrue(isRefused(address));
        int port = Integer.parseInt(address.substring(address.lastIndexOf(':') + 1));
        assertThrows(BindException.class, () -> new ServerSocket(port).close());
        served.up();
        served.up();
        assertEquals(SIZE, fetched(address));
        assertEquals(SIZE, served.link("shop", 1).down());
    }

    @Test
    void logsAreKept() throws Exception {
        Toxi served = toxi.start(shop(Toxics.latency().latency(5)).log(folder.resolve("logs")));
        fetched(served.address("shop"));
        served.link("shop", 1);
        served.close();
        List<String> replay = new ArrayList<>(List.of(System.getenv("TOXI"), "replay"));
        served.logs().forEach(log -> replay.add(log.toString()));
        assertEquals(4, replay.size());
        String judged = Program.answer(replay, Toxi.PATIENCE);
        assertEquals(2, judged.lines().filter(line -> line.startsWith("faithful shop 1 ")).count(), judged);
    }

    @Test
    void aRedTestTellsHowToRunItAgain() throws Exception {
        List<String> command = List.of(java(), "-cp", System.getProperty("java.class.path"), RedCase.class.getName());
        String told = Program.answer(command, Toxi.PATIENCE);
        String seed = told.replaceFirst("(?s).*\nTOXI_SEED=(\\d+) .*", "$1");
        String again = "TOXI_SEED=" + seed + " mvn test '-Dtest=invalid.toxi.RedCase#slowAnswer'\nseed " + seed + "\n";
        for (String wanted : List.of(again, "bytes = 100", "\"down\":100")) {
            assertTrue(told.contains(wanted), told);
        }
        assertFalse(told.contains("fastAnswer"), told);
    }

    @Test
    void theSeedComesFromTheEnvironment() throws Exception {
        Process other = ServedCase.start(Map.of("TOXI_SEED", "18446744073709551615", "TOXI_WORKERS", "none"));
        try {
            assertEquals("18446744073709551615", firstLine(other).split(" ")[1]);
        } finally {
            other.destroyForcibly();
        }
        ToxiException error = assertThrows(ToxiException.class, () -> Seeds.of("seven"));
        assertTrue(error.getMessage().contains("TOXI_SEED is a whole number"), error.getMessage());
    }

    @Test
    void aProgramThatIsNotThereOrIsOfAnotherVersion() throws IOException {
        Path program = folder.resolve("toxi");
        ToxiException missing = assertThrows(ToxiException.class, shop().program(program.toString())::start);
        assertTrue(missing.getMessage().contains("can't be started"), missing.getMessage());
        Files.writeString(program, "#!/bin/sh\necho toxi 0.0.1\n");
        Files.setPosixFilePermissions(program, PosixFilePermissions.fromString("rwx------"));
        ToxiException other = assertThrows(ToxiException.class, shop().program(program.toString())::start);
        assertTrue(other.getMessage().contains("is of version 0.0.1"), other.getMessage());
    }

    @Test
    void aPortThatIsTaken() {
        Proxy taken = Proxy.of("shop", Service.ADDRESS).listeningAt(toxi.start(shop()).address("shop"));
        assertEquals("P4", assertThrows(ToxiFault.class, Toxi.builder().proxy(taken)::start).code());
    }

    @Test
    void nothingIsLeftOfATestThatEndedOrWasKilled() throws Exception {
        Toxi served = toxi.start(shop());
        served.close();
        served.close();
        assertTrue(isRefused(served.address("shop")));
        Process killed = ServedCase.start(Map.of("JAVA_TOOL_OPTIONS", "-Djava.io.tmpdir=" + folder));
        String address = firstLine(killed).split(" ")[0];
        assertFalse(isRefused(address));
        killed.destroyForcibly();
        eventually("toxi ends with the test that started it", () -> isRefused(address));
        assertArrayEquals(new String[0], folder.toFile().list());
    }

    @Test
    void runsAreAnswered() throws Exception {
        Process client = new ProcessBuilder(java(), "-cp", System.getProperty("java.class.path"), AnswersCase.class.getName()).start();
        try (var requests = client.getOutputStream()) {
            requests.write("{\"run\": 1, \"proxies\": {\"shop\": \"127.0.0.1:4\"}}\n{\"run\": 2, \"proxies\": {}}\n".getBytes());
        }
        assertEquals("toxi-answer 1 11\ntoxi-answer 2 0\n", new String(client.getInputStream().readAllBytes()));
        assertEquals(0, client.waitFor());
    }

    static String java() {
        return Path.of(System.getProperty("java.home"), "bin", "java").toString();
    }

    private static String firstLine(Process process) throws IOException {
        return new BufferedReader(new InputStreamReader(process.getInputStream())).readLine();
    }
}
