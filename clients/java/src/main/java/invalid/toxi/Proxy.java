package invalid.toxi;

import com.google.gson.JsonObject;

/**
 * A proxy listens before an upstream.
 *
 * @param name the proxy's name
 * @param upstream {@code host:port}
 * @param listen {@code host:port}; with the port 0 the system chooses one, which stays the proxy's own
 * @param enabled whether it listens
 */
public record Proxy(String name, String upstream, String listen, boolean enabled) {
    /** A proxy at a port of 127.0.0.1 that the system chooses. */
    public static Proxy of(String name, String upstream) {
        return new Proxy(name, upstream, "127.0.0.1:0", true);
    }

    /** The same proxy at this address. */
    public Proxy listeningAt(String address) {
        return new Proxy(name, upstream, address, enabled);
    }

    /** The same proxy, which doesn't listen. */
    public Proxy disabled() {
        return new Proxy(name, upstream, listen, false);
    }

    JsonObject entry() {
        JsonObject entry = new JsonObject();
        entry.addProperty("name", name);
        entry.addProperty("upstream", upstream);
        entry.addProperty("listen", listen);
        entry.addProperty("enabled", enabled);
        return entry;
    }
}
