package invalid.toxi;

import com.google.gson.JsonObject;
import com.google.gson.JsonParser;
import java.io.BufferedReader;
import java.io.IOException;
import java.io.InputStreamReader;
import java.nio.charset.StandardCharsets;
import java.nio.file.Path;
import java.time.Duration;
import java.util.ArrayList;
import java.util.LinkedHashMap;
import java.util.List;
import java.util.Map;
import java.util.concurrent.TimeUnit;
import java.util.function.BooleanSupplier;

/** A running {@code serve}, which ends when its standard input does, and so with the process that started it. */
final class Serving {
    /** It ends within 2 seconds of the end of its input, or some more with thousands of links. A busy machine gets more. */
    static final Duration STOP_LIMIT = Duration.ofSeconds(10);

    final List<String> command;
    final String script;
    final Path log;
    private final Process process;
    private final Thread reader;
    private final WholeText said;
    private final List<String> lines = new ArrayList<>();
    private final Map<String, String> addresses = new LinkedHashMap<>();
    private final List<Link> links = new ArrayList<>();
    private final List<Total> totals = new ArrayList<>();
    private boolean isRead;

    Serving(List<String> command, String script, Path log) {
        this.command = command;
        this.script = script;
        this.log = log;
        process = Program.start(command);
        reader = new Thread(this::readLines, "toxi");
        reader.setDaemon(true);
        reader.start();
        said = new WholeText(process.getErrorStream());
    }

    private void readLines() {
        try (BufferedReader printed = new BufferedReader(new InputStreamReader(process.getInputStream(), StandardCharsets.UTF_8))) {
            for (String line = printed.readLine(); line != null; line = printed.readLine()) {
                note(line);
            }
        } catch (IOException ended) {
            // The process was killed.
        } finally {
            synchronized (this) {
                isRead = true;
                notifyAll();
            }
        }
    }

    private synchronized void note(String line) {
        lines.add(line);
        JsonObject event = JsonParser.parseString(line).getAsJsonObject();
        switch (event.get("event").getAsString()) {
            case "listening" -> addresses.put(event.get("proxy").getAsString(), event.get("address").getAsString());
            case "link" -> links.add(Link.of(event));
            case "total" -> totals.add(Total.of(event));
            default -> { }
        }
        notifyAll();
    }

    /** Waits for what the lines tell. False once they have ended or the time is up, and it doesn't hold. */
    synchronized boolean waitUntil(BooleanSupplier holds, Duration limit) {
        long end = System.nanoTime() + limit.toNanos();
        while (!holds.getAsBoolean()) {
            long left = end - System.nanoTime();
            if (isRead || left <= 0) {
                return holds.getAsBoolean();
            }
            try {
                TimeUnit.NANOSECONDS.timedWait(this, left);
            } catch (InterruptedException error) {
                Thread.currentThread().interrupt();
                throw new ToxiException("a wait for toxi was interrupted", error);
            }
        }
        return true;
    }

    synchronized List<String> lines() {
        return List.copyOf(lines);
    }

    synchronized Map<String, String> addresses() {
        return new LinkedHashMap<>(addresses);
    }

    synchronized List<Link> links() {
        return List.copyOf(links);
    }

    synchronized List<Total> totals() {
        return List.copyOf(totals);
    }

    synchronized boolean isRead() {
        return isRead;
    }

    boolean hasEnded() {
        return !process.isAlive();
    }

    boolean hasFailed() {
        return hasEnded() && process.exitValue() != 0;
    }

    void closeInput() {
        try {
            process.getOutputStream().close();
        } catch (IOException ended) {
            // It has ended already.
        }
    }

    /** Ends its input, and kills it if it goes on. What it printed has been read then. */
    void stop() {
        closeInput();
        try {
            if (!process.waitFor(STOP_LIMIT.toMillis(), TimeUnit.MILLISECONDS)) {
                process.destroyForcibly();
            }
            awaitEnd();
        } catch (InterruptedException error) {
            process.destroyForcibly();
            Thread.currentThread().interrupt();
        }
    }

    private void awaitEnd() throws InterruptedException {
        process.waitFor();
        reader.join();
        said.awaited();
    }

    /** What an ended program has said. */
    ToxiException fault() {
        stop();
        return ToxiFault.of(said.soFar(), process.exitValue());
    }

    /** The command, the script, the lines, and how the logs are judged. */
    List<String> report() {
        List<String> report = new ArrayList<>(List.of(Shell.command(command), script.stripTrailing()));
        report.addAll(lines());
        if (!said.soFar().isEmpty()) {
            report.add(said.soFar().stripTrailing());
        }
        if (log != null) {
            report.add("find " + Shell.word(log.toString()) + " -name '*.log' | " + Shell.word(command.get(0)) + " replay -");
        }
        return report;
    }
}
