package invalid.toxi;

import static org.junit.jupiter.api.Assertions.assertEquals;
import static org.junit.platform.engine.discovery.DiscoverySelectors.selectClass;

import java.io.IOException;
import org.junit.jupiter.api.Test;
import org.junit.jupiter.api.extension.RegisterExtension;
import org.junit.platform.launcher.core.LauncherDiscoveryRequestBuilder;
import org.junit.platform.launcher.core.LauncherFactory;

/** A red test and a green one, which are run by themselves. What they print goes to standard output. */
final class RedCase {
    @RegisterExtension
    final ToxiExtension toxi = new ToxiExtension();

    @Test
    void slowAnswer() throws IOException {
        Toxi served = toxi.start(Service.shop(Toxics.limitData().bytes(100)));
        int got = Service.fetched(served.address("shop"));
        served.link("shop", 1);
        assertEquals(Service.SIZE, got);
    }

    @Test
    void fastAnswer() {
        toxi.start(Service.shop());
    }

    public static void main(String[] arguments) {
        System.setErr(System.out);
        System.out.println("begins");
        LauncherFactory.create().execute(LauncherDiscoveryRequestBuilder.request().selectors(selectClass(RedCase.class)).build());
    }
}
