//! The types of toxics. This file is made by tests/tables of the program's own table.
use crate::toxic::toxic_type;

toxic_type! {
    /// Delays all data by latency plus or minus jitter.
    Latency "latency" () {
        /// how much later data leaves. In milliseconds, 0 to 3,600,000.
        latency,
        /// each piece leaves up to so much earlier or later than that. In milliseconds, 0 to 3,600,000.
        jitter,
        /// stops at that time, and from then on all passes; 0: never. In milliseconds, 0 to 3,600,000.
        until,
        /// begins at that time, and until then all passes; 0: at once. In milliseconds, 0 to 3,600,000.
        from,
    }
}

toxic_type! {
    /// Passes so many kilobytes (of 1000 bytes) a second.
    Bandwidth "bandwidth" (
        /// `rate`: how many pass each second. In kilobytes (of 1000 bytes) a second, 1 to 1,000,000; it has to be given.
        rate,
    ) {
        /// stops at that time, and from then on all passes; 0: never. In milliseconds, 0 to 3,600,000.
        until,
        /// begins at that time, and until then all passes; 0: at once. In milliseconds, 0 to 3,600,000.
        from,
    }
}

toxic_type! {
    /// Delays the closing.
    SlowClose "slow_close" () {
        /// how much later the link closes. In milliseconds, 0 to 3,600,000.
        delay,
    }
}

toxic_type! {
    /// Drops all data, and closes after a time.
    Timeout "timeout" () {
        /// when the link closes; 0: never. In milliseconds, 0 to 3,600,000.
        timeout,
        /// begins at that time, and until then all passes; 0: at once. In milliseconds, 0 to 3,600,000.
        from,
        /// begins behind so many bytes, if that is sooner; 0: not for their sake. In bytes, 0 to 1,099,511,627,776.
        after,
    }
}

toxic_type! {
    /// Resets the connection after a time.
    ResetPeer "reset_peer" () {
        /// when the connection is reset. In milliseconds, 0 to 3,600,000.
        timeout,
        /// resets behind so many bytes, and not before that time; 0: at that time. In bytes, 0 to 1,099,511,627,776.
        after,
    }
}

toxic_type! {
    /// Cuts data into pieces, with a wait before each.
    Slicer "slicer" (
        /// `average_size`: the size of a piece. In bytes, 1 to 1,000,000; it has to be given.
        average_size,
    ) {
        /// a piece has up to so many bytes more or fewer; below average_size. In bytes.
        size_variation,
        /// the wait before each piece. In microseconds, 0 to 3,600,000,000.
        delay,
        /// stops at that time, and from then on all passes; 0: never. In milliseconds, 0 to 3,600,000.
        until,
        /// begins at that time, and until then all passes; 0: at once. In milliseconds, 0 to 3,600,000.
        from,
    }
}

toxic_type! {
    /// Closes the connection after so many bytes.
    LimitData "limit_data" () {
        /// how many pass before it closes. In bytes, 0 to 1,099,511,627,776.
        bytes,
    }
}
