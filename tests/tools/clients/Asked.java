import java.net.URI;
import java.net.http.HttpClient;
import java.net.http.HttpRequest;
import java.net.http.HttpResponse.BodyHandlers;
import java.time.Duration;

/** Prints a page by HttpClient, with its time limit. */
public class Asked {
    public static void main(String[] arguments) throws Exception {
        HttpRequest request = HttpRequest.newBuilder(URI.create(arguments[0])).timeout(Duration.ofSeconds(1)).build();
        System.out.write(HttpClient.newHttpClient().send(request, BodyHandlers.ofByteArray()).body());
        System.out.flush();
    }
}
