package invalid.toxi;

import com.google.gson.JsonObject;

/**
 * How a connection ended. An end is {@code closed}, {@code reset}, {@code open} or {@code broken}.
 *
 * @param proxy the proxy's name
 * @param number the connection's number, from 1
 * @param up how many bytes were written upstream
 * @param upEnd how that stream ended
 * @param down how many bytes were written downstream
 * @param downEnd how that stream ended
 */
public record Link(String proxy, int number, long up, String upEnd, long down, String downEnd) {
    static Link of(JsonObject event) {
        return new Link(
                event.get("proxy").getAsString(),
                event.get("link").getAsInt(),
                event.get("up").getAsLong(),
                event.get("up_end").getAsString(),
                event.get("down").getAsLong(),
                event.get("down_end").getAsString());
    }
}
