import java.io.InputStream;
import java.net.HttpURLConnection;
import java.net.URL;

/** Prints a page by HttpURLConnection, with its time limits. */
public class Connected {
    public static void main(String[] arguments) throws Exception {
        HttpURLConnection connection = (HttpURLConnection) new URL(arguments[0]).openConnection();
        connection.setConnectTimeout(1000);
        connection.setReadTimeout(1000);
        try (InputStream body = connection.getInputStream()) {
            body.transferTo(System.out);
        }
        System.out.flush();
    }
}
