package invalid.toxi;

import static invalid.toxi.Service.SIZE;
import static invalid.toxi.Service.fetched;
import static invalid.toxi.Service.shop;
import static org.junit.jupiter.api.Assertions.assertEquals;
import static org.junit.jupiter.api.Assertions.assertThrows;
import static org.junit.jupiter.api.Assertions.assertTrue;

import java.io.IOException;
import java.net.InetAddress;
import java.net.ServerSocket;
import java.util.List;
import org.junit.jupiter.api.Test;
import org.junit.jupiter.api.extension.RegisterExtension;
import org.junit.jupiter.api.function.Executable;

/** Names and addresses, and what is wrong with them. */
final class NamesTest {
    @RegisterExtension
    final ToxiExtension toxi = new ToxiExtension();

    private static void assertSays(String wanted, Executable wrong) {
        String message = assertThrows(ToxiException.class, wrong).getMessage();
        assertTrue(message.contains(wanted), message);
    }

    /** An address of this machine at which nobody listens. */
    private static String freeAddress() throws IOException {
        try (ServerSocket listener = new ServerSocket(0, 1, InetAddress.getLoopbackAddress())) {
            return "127.0.0.1:" + listener.getLocalPort();
        }
    }

    @Test
    void aProxyListensAtAFixedAddress() throws IOException {
        String address = freeAddress();
        Toxi served = toxi.start(Toxi.builder().proxy(Proxy.of("shop", Service.ADDRESS).listeningAt(address)));
        assertEquals(address, served.address("shop"));
        assertEquals(SIZE, fetched(address));
    }

    @Test
    void aUrlHasTheAddress() {
        Toxi served = toxi.start(shop());
        assertEquals("http://" + served.address("shop"), served.url("shop"));
    }

    @Test
    void twoProxiesHaveLinksOfTheirOwn() throws IOException {
        Toxi served = toxi.start(shop().proxy("mail", Service.ADDRESS));
        for (String name : List.of("mail", "shop", "mail")) {
            fetched(served.address(name));
        }
        served.link("mail", 2);
        served.link("shop", 1);
        assertEquals(2, served.links("mail").size());
        assertEquals(1, served.links("shop").size());
    }

    @Test
    void aNameNeedsEscapes() throws IOException {
        String name = "a \"shop\" \\ of\u007f \u00e9\u202e";
        Toxi served = toxi.start(Toxi.builder().proxy(name, Service.ADDRESS).rule(Rule.of(name, Toxics.limitData().bytes(5))));
        fetched(served.address(name));
        assertEquals(5, served.link(name, 1).down());
    }

    @Test
    void aDisabledProxyHasNoAddress() {
        Toxi served = toxi.start(shop().proxy(Proxy.of("mail", Service.ADDRESS).disabled()));
        assertSays("\"mail\"", () -> served.address("mail"));
        assertEquals(List.of(), served.links("mail"));
    }

    @Test
    void aMisspeltAddressIsRefused() {
        Toxi served = toxi.start(shop());
        assertSays("no proxy \"shp\" listens or is known; there are \"shop\"", () -> served.address("shp"));
    }

    @Test
    void aMisspeltLinkIsRefused() {
        Toxi served = toxi.start(shop());
        assertSays("\"shop\"", () -> served.link("shp", 1));
        assertSays("\"shop\"", () -> served.links("shp"));
    }

    @Test
    void aRuleForNoProxyFailsTheStart() {
        Toxi.Builder wrong = shop().rule(Rule.of("shp", Toxics.latency().latency(1)));
        assertSays("rule 1 never applies: no proxy shp (shop?)", wrong::start);
    }

    @Test
    void aRuleWithoutEffectFailsTheStart() {
        Rule rule = Rule.of("shop", Toxics.latency().latency(1));
        assertSays("rule 2 never applies", shop().rule(rule).rule(rule)::start);
    }

    @Test
    void aWrongValueIsExplained() {
        ToxiFault fault = assertThrows(ToxiFault.class, shop(Toxics.latency().latency(3_600_001))::start);
        assertEquals("S5", fault.code());
        assertTrue(fault.getMessage().contains("latency = 3600001"), fault.getMessage());
        assertTrue(fault.getMessage().contains("3600000"), fault.getMessage());
    }
}
