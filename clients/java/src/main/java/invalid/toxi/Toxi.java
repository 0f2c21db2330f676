package invalid.toxi;

import com.google.gson.JsonArray;
import com.google.gson.JsonObject;
import java.io.IOException;
import java.nio.file.Files;
import java.nio.file.Path;
import java.time.Duration;
import java.util.ArrayList;
import java.util.Collection;
import java.util.LinkedHashMap;
import java.util.List;
import java.util.Map;
import java.util.Optional;
import java.util.OptionalLong;
import java.util.stream.Collectors;

/** A started program. Its methods may be called from several threads. */
public final class Toxi implements AutoCloseable {
    /** How long {@link #link} waits. */
    public static final Duration PATIENCE = Duration.ofSeconds(30);

    private final Builder given;
    private final String program;
    private final long seed;
    private final HeldPorts held = new HeldPorts();
    private final List<Serving> runs = new ArrayList<>();
    private List<Rule> rules;
    private volatile Serving serving;
    private volatile Map<String, String> addresses = Map.of();
    private boolean isDown;
    private boolean isClosed;

    private Toxi(Builder given) {
        this.given = given;
        seed = given.seed.orElseGet(() -> Seeds.ofEnvironment().orElse(1));
        program = Program.found(given.program, given.startTimeout);
    }

    /** What a Toxi is to serve, and how. */
    public static Builder builder() {
        return new Builder();
    }

    /** What a Toxi is to serve, and how. What isn't given is the program's default. */
    public static final class Builder {
        private final List<Proxy> proxies = new ArrayList<>();
        private final Map<String, Long> options = new LinkedHashMap<>();
        private List<Rule> rules = List.of();
        private Optional<Long> seed = Optional.empty();
        private String program;
        private Path directory;
        private Path log;
        private Duration startTimeout = Duration.ofSeconds(300);

        private Builder() {}

        /** Adds a proxy before {@code host:port}, at a port that the system chooses. */
        public Builder proxy(String name, String upstream) {
            return proxy(Proxy.of(name, upstream));
        }

        /** Adds a proxy. */
        public Builder proxy(Proxy proxy) {
            proxies.add(proxy);
            return this;
        }

        /** Adds a rule. */
        public Builder rule(Rule rule) {
            rules = new ArrayList<>(rules);
            rules.add(rule);
            return this;
        }

        /** What the draws are made from. Its bits are read as a number without a sign. Without it the seed is that of {@code TOXI_SEED}, else 1. */
        public Builder seed(long seed) {
            this.seed = Optional.of(seed);
            return this;
        }

        /** The path of the program. Without it, it is that of {@code TOXI}, else that of the jar for this machine, else {@code toxi} on the {@code PATH}. */
        public Builder program(String program) {
            this.program = program;
            return this;
        }

        /** Keeps the populate file and the script there. Without it they go away once the program has read them. */
        public Builder directory(Path directory) {
            this.directory = directory;
            return this;
        }

        /** A folder, new or empty, that gets a log of each stream of a link. Later runs have their number behind its name. */
        public Builder log(Path log) {
            this.log = log;
            return this;
        }

        /** After how many connections each proxy stops listening. */
        public Builder links(int links) {
            options.put("--links", (long) links);
            return this;
        }

        /** How many threads drive all links. Without it each link has four of its own. */
        public Builder workers(int workers) {
            options.put("--workers", (long) workers);
            return this;
        }

        /** How long a connect to an upstream may take, in whole milliseconds. */
        public Builder connectTimeout(Duration timeout) {
            options.put("--connect-timeout", timeout.toMillis());
            return this;
        }

        /** How long the program has until it listens: 300 seconds without it, since a clone's ./toxi compiles itself first. */
        public Builder startTimeout(Duration timeout) {
            startTimeout = timeout;
            return this;
        }

        Builder seedUnlessGiven(OptionalLong other) {
            if (seed.isEmpty() && other.isPresent()) {
                seed(other.getAsLong());
            }
            return this;
        }

        private Builder copy() {
            Builder copy = new Builder();
            copy.proxies.addAll(proxies);
            copy.options.putAll(options);
            copy.rules = rules;
            copy.seed = seed;
            copy.program = program;
            copy.directory = directory;
            copy.log = log;
            copy.startTimeout = startTimeout;
            return copy;
        }

        /**
         * Starts the program, and waits until every enabled proxy listens.
         *
         * @throws ToxiFault where the program refuses what it is given
         * @throws ToxiException where a rule is for no proxy, a rule or a toxic has no effect, or there is no such program
         */
        public Toxi start() {
            Toxi toxi = new Toxi(copy());
            try {
                toxi.serve(rules);
            } catch (RuntimeException error) {
                toxi.close();
                throw error;
            }
            return toxi;
        }
    }

    /** The seed of the draws. {@link Long#toUnsignedString(long)} prints it. */
    public long seed() {
        return seed;
    }

    /** {@code host:port} of a proxy. Throws for one that isn't there, or doesn't listen. */
    public String address(String proxy) {
        String address = addresses.get(proxy);
        if (address == null) {
            throw unknown(proxy, addresses.keySet());
        }
        return address;
    }

    /** {@code http://host:port} of a proxy. Throws as {@link #address}. */
    public String url(String proxy) {
        return "http://" + address(proxy);
    }

    /** The lines of the program so far. A restart begins anew. */
    public List<String> lines() {
        return serving.lines();
    }

    /** The links of a proxy that have ended so far, in the order of their ends. Throws for a proxy that isn't there. */
    public List<Link> links(String proxy) {
        requireKnown(proxy);
        return serving.links().stream().filter(link -> link.proxy().equals(proxy)).toList();
    }

    /** Waits for the end of the connection of this number, counted from 1, for 30 seconds. Throws as {@link #link(String, int, Duration)}. */
    public Link link(String proxy, int number) {
        return link(proxy, number, PATIENCE);
    }

    /**
     * Waits for the end of the connection of this number, counted from 1.
     *
     * @throws ToxiException.Timeout where it hasn't come within the limit
     * @throws ToxiException.Ended where it can't come
     */
    public Link link(String proxy, int number, Duration limit) {
        requireKnown(proxy);
        Serving run = serving;
        run.waitUntil(() -> found(run, proxy, number).isPresent(), limit);
        String what = "the end of link " + number + " of " + proxy;
        return found(run, proxy, number)
                .orElseThrow(() -> run.isRead()
                        ? new ToxiException.Ended("toxi has ended without " + what)
                        : new ToxiException.Timeout("not within " + limit + ": " + what));
    }

    private static Optional<Link> found(Serving run, String proxy, int number) {
        return run.links().stream().filter(link -> link.proxy().equals(proxy) && link.number() == number).findFirst();
    }

    /** Waits until the program ends by itself, which it does with {@link Builder#links}, and returns its totals. */
    public List<Total> await(Duration limit) {
        Serving run = serving;
        run.waitUntil(run::isRead, limit);
        if (!run.isRead()) {
            throw new ToxiException.Timeout("not within " + limit + ": the end of toxi");
        }
        run.stop();
        if (run.hasFailed()) {
            throw run.fault();
        }
        return run.totals();
    }

    /** The logs so far, one for each stream of a link. None without {@link Builder#log}. */
    public List<Path> logs() {
        Path log = serving.log;
        if (log == null) {
            return List.of();
        }
        try (var files = Files.list(log)) {
            return files.filter(file -> file.toString().endsWith(".log")).sorted().toList();
        } catch (IOException error) {
            throw new ToxiException("the folder of logs can't be read", error);
        }
    }

    /** What a person needs after a failed test, of each run: the seed, the command, the script, and the lines of the program. */
    public synchronized String report() {
        List<String> report = new ArrayList<>();
        for (Serving run : runs) {
            report.add("seed " + Long.toUnsignedString(seed));
            report.addAll(run.report());
        }
        return String.join("\n", report);
    }

    /**
     * Serves other rules at the same addresses. Links that live are broken, and the next is number 1. Rules that are wrong throw as at the start, and what
     * runs goes on.
     */
    public synchronized void restart(List<Rule> rules) {
        requireOpen();
        serve(rules);
    }

    /** Serves other rules, as {@link #restart(List)}. */
    public void restart(Rule... rules) {
        restart(List.of(rules));
    }

    /** Takes the service down: links that live are broken, and connects are refused. The ports stay its own. A second call does nothing. */
    public synchronized void down() {
        requireOpen();
        endRun();
    }

    /** Takes the service up again, at the same addresses under the same rules and seed. The next link is number 1. If it is up, nothing is done. */
    public synchronized void up() {
        requireOpen();
        if (serving.hasEnded()) {
            serve(rules);
        }
    }

    /** Ends the program, and gives its ports up. Links that live are broken, and have their lines. A second call does nothing. */
    @Override
    public synchronized void close() {
        isClosed = true;
        if (serving != null) {
            serving.stop();
        }
        held.release();
    }

    private void requireOpen() {
        if (isClosed) {
            throw new ToxiException("it was closed");
        }
    }

    /** Checks the rules, ends what runs, and starts the next run at the same addresses. Where the rules are wrong, what runs goes on. */
    private synchronized void serve(List<Rule> next) {
        try (RunFiles files = new RunFiles(given.directory, runs.isEmpty() ? "" : "-" + (runs.size() + 1))) {
            String script = Rule.script(next);
            List<String> named = files.written(populate(), script);
            String found = Program.answer(joined(List.of(program, "check"), named), given.startTimeout).strip();
            if (!found.isEmpty()) {
                throw new ToxiException(found);
            }
            endRun();
            held.lend();
            Path log = given.log == null ? null : given.log.resolveSibling(given.log.getFileName() + files.suffix());
            serving = new Serving(command(named, log), script, log);
            runs.add(serving);
            rules = List.copyOf(next);
            waitForListeners();
        } catch (IOException error) {
            throw new ToxiException("the files of the program can't be written: " + error.getMessage(), error);
        }
        isDown = false;
        held.release();
    }

    private String populate() {
        JsonArray entries = new JsonArray();
        for (Proxy proxy : given.proxies) {
            JsonObject entry = proxy.listeningAt(addresses.getOrDefault(proxy.name(), proxy.listen())).entry();
            entries.add(entry);
        }
        return entries.toString();
    }

    private List<String> command(List<String> files, Path log) {
        List<String> command = joined(List.of(program, "serve", "--json", "--until-eof", "--seed", Long.toUnsignedString(seed)), files);
        given.options.forEach((option, value) -> command.addAll(List.of(option, value.toString())));
        if (log != null) {
            command.addAll(List.of("--log", log.toString()));
        }
        return command;
    }

    private static List<String> joined(List<String> words, List<String> more) {
        List<String> joined = new ArrayList<>(words);
        joined.addAll(more);
        return joined;
    }

    private void waitForListeners() {
        long enabled = given.proxies.stream().filter(Proxy::enabled).count();
        if (serving.waitUntil(() -> serving.addresses().size() == enabled, given.startTimeout)) {
            addresses = serving.addresses();
        } else if (serving.isRead()) {
            throw serving.fault();
        } else {
            throw new ToxiException.Timeout("toxi doesn't listen within " + given.startTimeout);
        }
    }

    /** Ends the program, and takes its ports as soon as it stops listening. */
    private void endRun() {
        if (serving == null || isDown) {
            return;
        }
        if (serving.hasFailed()) {
            throw serving.fault();
        }
        serving.closeInput();
        held.hold(addresses.values());
        serving.stop();
        isDown = true;
    }

    private void requireKnown(String name) {
        List<String> names = given.proxies.stream().map(Proxy::name).toList();
        if (!names.contains(name)) {
            throw unknown(name, names);
        }
    }

    private static ToxiException unknown(String name, Collection<String> known) {
        String names = known.stream().map(Toml::quoted).collect(Collectors.joining(", "));
        return new ToxiException("no proxy " + Toml.quoted(name) + " listens or is known; there are " + (names.isEmpty() ? "none" : names));
    }
}
