package invalid.toxi;

import java.io.IOException;
import java.io.InputStream;
import java.nio.charset.StandardCharsets;

/** All that a process prints on a stream, read by a thread of its own, so that the process never waits for it. */
final class WholeText {
    private final Thread thread;
    private volatile String text = "";

    WholeText(InputStream stream) {
        thread = new Thread(() -> text = read(stream), "toxi");
        thread.setDaemon(true);
        thread.start();
    }

    private static String read(InputStream stream) {
        try {
            return new String(stream.readAllBytes(), StandardCharsets.UTF_8);
        } catch (IOException ended) {
            // The process was killed.
            return "";
        }
    }

    /** The text, once the stream has ended. */
    String awaited() throws InterruptedException {
        thread.join();
        return text;
    }

    /** The text, or nothing while the stream goes on. */
    String soFar() {
        return text;
    }
}
