package invalid.toxi;

import com.google.gson.JsonObject;
import com.google.gson.JsonParser;
import java.util.LinkedHashMap;
import java.util.Map;
import java.util.Scanner;
import java.util.function.ToIntFunction;

/** Glue for {@code toxi-find --persistent}. */
public final class Runs {
    private Runs() {}

    /**
     * Runs a client for each line that {@code toxi-find --persistent} writes to standard input, with {@code host:port} of each proxy, and answers with its
     * status: 0 is right. It returns once standard input ends. What the client prints on standard output begins on a line of its own.
     */
    public static void answer(ToIntFunction<Map<String, String>> client) {
        Scanner lines = new Scanner(System.in, "UTF-8");
        while (lines.hasNextLine()) {
            JsonObject request = JsonParser.parseString(lines.nextLine()).getAsJsonObject();
            Map<String, String> proxies = new LinkedHashMap<>();
            request.getAsJsonObject("proxies").entrySet().forEach(each -> proxies.put(each.getKey(), each.getValue().getAsString()));
            System.out.println("toxi-answer " + request.get("run").getAsInt() + " " + client.applyAsInt(proxies));
        }
    }
}
