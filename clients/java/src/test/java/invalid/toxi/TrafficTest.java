package invalid.toxi;

import static invalid.toxi.Service.SHORT;
import static invalid.toxi.Service.SIZE;
import static invalid.toxi.Service.fetched;
import static invalid.toxi.Service.shop;
import static invalid.toxi.Service.works;
import static org.junit.jupiter.api.Assertions.assertEquals;
import static org.junit.jupiter.api.Assertions.assertNotEquals;
import static org.junit.jupiter.api.Assertions.assertThrows;
import static org.junit.jupiter.api.Assertions.assertTrue;

import java.io.IOException;
import java.net.SocketException;
import java.net.SocketTimeoutException;
import java.util.List;
import org.junit.jupiter.api.Test;
import org.junit.jupiter.api.extension.RegisterExtension;

/** What passes a proxy, and what doesn't. */
final class TrafficTest {
    @RegisterExtension
    final ToxiExtension toxi = new ToxiExtension();

    @Test
    void anAnswerPasses() throws IOException {
        Toxi served = toxi.start(shop());
        assertEquals(SIZE, fetched(served.address("shop")));
        assertEquals(new Link("shop", 1, 4, "closed", SIZE, "closed"), served.link("shop", 1));
    }

    @Test
    void aSlowAnswerTimesOut() {
        Toxi served = toxi.start(shop(Toxics.latency().latency(10_000)));
        assertThrows(SocketTimeoutException.class, () -> fetched(served.address("shop"), SHORT));
    }

    @Test
    void silenceTimesOut() {
        Toxi served = toxi.start(shop(Toxics.timeout()));
        assertThrows(SocketTimeoutException.class, () -> fetched(served.address("shop"), SHORT));
    }

    @Test
    void aConnectionIsReset() {
        Toxi served = toxi.start(shop(Toxics.resetPeer()));
        assertThrows(SocketException.class, () -> fetched(served.address("shop")));
        assertEquals("reset", served.link("shop", 1).downEnd());
    }

    @Test
    void anAnswerIsCut() throws IOException {
        Toxi served = toxi.start(shop(Toxics.limitData().bytes(100)));
        assertEquals(100, fetched(served.address("shop")));
        assertEquals(100, served.link("shop", 1).down());
    }

    @Test
    void aRequestIsCut() {
        Toxi served = toxi.start(shop(Toxics.limitData().bytes(2).stream(Stream.UPSTREAM)));
        assertEquals("-", works(served, 1));
        assertEquals(2, served.link("shop", 1).up());
    }

    @Test
    void theThirdTryWorks() {
        Toxi served = toxi.start(shop().rule(Rule.of("shop", Toxics.limitData()).to(2)));
        assertEquals("--+", works(served, 3));
    }

    @Test
    void aSeedGivesItsSequenceAgain() {
        Toxic<?> flaky = Toxics.limitData().toxicity(0.5);
        String first = works(toxi.start(shop(flaky).seed(7)), 16);
        assertEquals(first, works(toxi.start(shop(flaky).seed(7)), 16));
        assertNotEquals(first, works(toxi.start(shop(flaky).seed(8)), 16));
    }

    @Test
    void everyToxicIsTaken() throws IOException {
        List<Toxic<?>> toxics = List.of(
                Toxics.latency().name("slow").latency(3).jitter(1).until(9).from(1),
                Toxics.bandwidth(1000).until(9).from(1),
                Toxics.slowClose().delay(1),
                Toxics.timeout().timeout(9000).from(8000).after(5000),
                Toxics.resetPeer().timeout(9000).after(9000),
                Toxics.slicer(10).sizeVariation(5).delay(1).until(9).from(1),
                Toxics.limitData().bytes(4000));
        for (Toxic<?> toxic : toxics) {
            assertEquals(SIZE, fetched(toxi.start(shop(toxic)).address("shop")));
        }
    }

    @Test
    void aShareIsWholeThousandths() {
        Toxi served = toxi.start(shop(Toxics.latency().latency(1).toxicity(0.1 + 0.2)));
        assertTrue(served.report().contains("toxicity = \"0.300\"\n"), served.report());
        ToxiFault fault = assertThrows(ToxiFault.class, () -> shop(Toxics.latency().latency(1).toxicity(0.0005)).start());
        assertEquals("S7", fault.code());
    }
}
