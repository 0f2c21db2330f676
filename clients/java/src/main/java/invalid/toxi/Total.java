package invalid.toxi;

import com.google.gson.JsonObject;

/**
 * The links of a proxy that has ended, and the sums of their bytes.
 *
 * @param proxy the proxy's name
 * @param links how many connections it had
 * @param up how many bytes were written upstream
 * @param down how many bytes were written downstream
 */
public record Total(String proxy, int links, long up, long down) {
    static Total of(JsonObject event) {
        return new Total(event.get("proxy").getAsString(), event.get("links").getAsInt(), event.get("up").getAsLong(), event.get("down").getAsLong());
    }
}
