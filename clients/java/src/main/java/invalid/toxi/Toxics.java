package invalid.toxi;

/** The types of toxics. Each is immutable: a setter returns another toxic. This file is made by tests/tables of the program's own table. */
public final class Toxics {
    private Toxics() {}

    /** Delays all data by latency plus or minus jitter. */
    public static Latency latency() {
        return new Latency(Settings.of("latency"));
    }

    /** Delays all data by latency plus or minus jitter. */
    public static final class Latency extends Toxic<Latency> {
        private Latency(Settings settings) {
            super(settings);
        }

        @Override
        Latency made(Settings settings) {
            return new Latency(settings);
        }

        /** how much later data leaves. In milliseconds, 0 to 3,600,000. */
        public Latency latency(long latency) {
            return made(settings().with("latency", latency));
        }

        /** each piece leaves up to so much earlier or later than that. In milliseconds, 0 to 3,600,000. */
        public Latency jitter(long jitter) {
            return made(settings().with("jitter", jitter));
        }

        /** stops at that time, and from then on all passes; 0: never. In milliseconds, 0 to 3,600,000. */
        public Latency until(long until) {
            return made(settings().with("until", until));
        }

        /** begins at that time, and until then all passes; 0: at once. In milliseconds, 0 to 3,600,000. */
        public Latency from(long from) {
            return made(settings().with("from", from));
        }
    }

    /**
     * Passes so many kilobytes (of 1000 bytes) a second. rate: how many pass each second. In kilobytes (of 1000 bytes) a second, 1 to 1,000,000; it
     * has to be given.
     */
    public static Bandwidth bandwidth(long rate) {
        return new Bandwidth(Settings.of("bandwidth").with("rate", rate));
    }

    /**
     * Passes so many kilobytes (of 1000 bytes) a second. rate: how many pass each second. In kilobytes (of 1000 bytes) a second, 1 to 1,000,000; it
     * has to be given.
     */
    public static final class Bandwidth extends Toxic<Bandwidth> {
        private Bandwidth(Settings settings) {
            super(settings);
        }

        @Override
        Bandwidth made(Settings settings) {
            return new Bandwidth(settings);
        }

        /** stops at that time, and from then on all passes; 0: never. In milliseconds, 0 to 3,600,000. */
        public Bandwidth until(long until) {
            return made(settings().with("until", until));
        }

        /** begins at that time, and until then all passes; 0: at once. In milliseconds, 0 to 3,600,000. */
        public Bandwidth from(long from) {
            return made(settings().with("from", from));
        }
    }

    /** Delays the closing. */
    public static SlowClose slowClose() {
        return new SlowClose(Settings.of("slow_close"));
    }

    /** Delays the closing. */
    public static final class SlowClose extends Toxic<SlowClose> {
        private SlowClose(Settings settings) {
            super(settings);
        }

        @Override
        SlowClose made(Settings settings) {
            return new SlowClose(settings);
        }

        /** how much later the link closes. In milliseconds, 0 to 3,600,000. */
        public SlowClose delay(long delay) {
            return made(settings().with("delay", delay));
        }
    }

    /** Drops all data, and closes after a time. */
    public static Timeout timeout() {
        return new Timeout(Settings.of("timeout"));
    }

    /** Drops all data, and closes after a time. */
    public static final class Timeout extends Toxic<Timeout> {
        private Timeout(Settings settings) {
            super(settings);
        }

        @Override
        Timeout made(Settings settings) {
            return new Timeout(settings);
        }

        /** when the link closes; 0: never. In milliseconds, 0 to 3,600,000. */
        public Timeout timeout(long timeout) {
            return made(settings().with("timeout", timeout));
        }

        /** begins at that time, and until then all passes; 0: at once. In milliseconds, 0 to 3,600,000. */
        public Timeout from(long from) {
            return made(settings().with("from", from));
        }

        /** begins behind so many bytes, if that is sooner; 0: not for their sake. In bytes, 0 to 1,099,511,627,776. */
        public Timeout after(long after) {
            return made(settings().with("after", after));
        }
    }

    /** Resets the connection after a time. */
    public static ResetPeer resetPeer() {
        return new ResetPeer(Settings.of("reset_peer"));
    }

    /** Resets the connection after a time. */
    public static final class ResetPeer extends Toxic<ResetPeer> {
        private ResetPeer(Settings settings) {
            super(settings);
        }

        @Override
        ResetPeer made(Settings settings) {
            return new ResetPeer(settings);
        }

        /** when the connection is reset. In milliseconds, 0 to 3,600,000. */
        public ResetPeer timeout(long timeout) {
            return made(settings().with("timeout", timeout));
        }

        /** resets behind so many bytes, and not before that time; 0: at that time. In bytes, 0 to 1,099,511,627,776. */
        public ResetPeer after(long after) {
            return made(settings().with("after", after));
        }
    }

    /** Cuts data into pieces, with a wait before each. averageSize: the size of a piece. In bytes, 1 to 1,000,000; it has to be given. */
    public static Slicer slicer(long averageSize) {
        return new Slicer(Settings.of("slicer").with("average_size", averageSize));
    }

    /** Cuts data into pieces, with a wait before each. averageSize: the size of a piece. In bytes, 1 to 1,000,000; it has to be given. */
    public static final class Slicer extends Toxic<Slicer> {
        private Slicer(Settings settings) {
            super(settings);
        }

        @Override
        Slicer made(Settings settings) {
            return new Slicer(settings);
        }

        /** a piece has up to so many bytes more or fewer; below average_size. In bytes. */
        public Slicer sizeVariation(long sizeVariation) {
            return made(settings().with("size_variation", sizeVariation));
        }

        /** the wait before each piece. In microseconds, 0 to 3,600,000,000. */
        public Slicer delay(long delay) {
            return made(settings().with("delay", delay));
        }

        /** stops at that time, and from then on all passes; 0: never. In milliseconds, 0 to 3,600,000. */
        public Slicer until(long until) {
            return made(settings().with("until", until));
        }

        /** begins at that time, and until then all passes; 0: at once. In milliseconds, 0 to 3,600,000. */
        public Slicer from(long from) {
            return made(settings().with("from", from));
        }
    }

    /** Closes the connection after so many bytes. */
    public static LimitData limitData() {
        return new LimitData(Settings.of("limit_data"));
    }

    /** Closes the connection after so many bytes. */
    public static final class LimitData extends Toxic<LimitData> {
        private LimitData(Settings settings) {
            super(settings);
        }

        @Override
        LimitData made(Settings settings) {
            return new LimitData(settings);
        }

        /** how many pass before it closes. In bytes, 0 to 1,099,511,627,776. */
        public LimitData bytes(long bytes) {
            return made(settings().with("bytes", bytes));
        }
    }
}
