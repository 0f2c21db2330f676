//! A plain Rust program that answers as `toxi dry` does on inputs without faults: the measure of Toxi's speed.
//!
//! It passes whole lists of items from stage to stage, as one would write it without a plan.
use std::error::Error;
use std::io::{self, BufWriter, Read, Write};

const HORIZON: u64 = 1_000_000_000_000_000;

#[derive(Clone, Copy)]
enum Item {
    Chunk(u64, u64, u64),
    Closed(u64),
    Reset(u64),
    Quiet,
}

#[derive(Clone, Copy)]
enum Toxic {
    Latency(u64, u64),
    Bandwidth(u64),
    SlowClose(u64),
    Timeout(u64),
    ResetPeer(u64),
    Slicer(u64, u64, u64),
    LimitData(u64),
}

struct Piece {
    start: u64,
    bytes: Vec<u8>,
}

fn later(instant: u64, wait: u64) -> u64 {
    instant.saturating_add(wait).min(HORIZON)
}

fn read_toxic(text: &str) -> Option<(Toxic, u64)> {
    let (kind, pairs) = text.split_once(':').unwrap_or((text, ""));
    let value = |key: &str| {
        let found = pairs.split(',').filter_map(|pair| pair.split_once('='));
        found.into_iter().find(|(name, _)| *name == key).and_then(|(_, value)| value.parse().ok())
    };
    let number = |key: &str| value(key).unwrap_or(0);
    let toxic = match kind {
        "latency" => Toxic::Latency(number("latency"), number("jitter")),
        "bandwidth" => Toxic::Bandwidth(number("rate")),
        "slow_close" => Toxic::SlowClose(number("delay")),
        "timeout" => Toxic::Timeout(number("timeout")),
        "reset_peer" => Toxic::ResetPeer(number("timeout")),
        "slicer" => Toxic::Slicer(number("average_size"), number("size_variation"), number("delay")),
        "limit_data" => Toxic::LimitData(number("bytes")),
        _ => return None,
    };
    Some((toxic, value("toxicity").unwrap_or(1000)))
}

/// One toxic at work on a whole list.
struct Stage<'w> {
    toxic: Toxic,
    lane: u64,
    words: &'w [u32],
    previous: u64,
    chunks: u64,
    pieces: u64,
    passed: u64,
    done: bool,
    given: Vec<Item>,
}

impl<'w> Stage<'w> {
    fn draw(&self, place: u64) -> u64 {
        u64::from(self.words[((self.lane + 16 * place) % self.words.len() as u64) as usize])
    }

    fn varied(&self, middle: u64, variation: u64, place: u64) -> u64 {
        (middle + self.draw(place) % (2 * variation + 1)).saturating_sub(variation)
    }

    fn give(&mut self, start: u64, stop: u64, instant: u64) {
        self.previous = instant;
        self.pieces += 1;
        self.passed += stop - start;
        self.given.push(Item::Chunk(start, stop, instant));
    }

    fn end(&mut self, item: Item) {
        self.done = true;
        self.given.push(item);
    }

    fn take(&mut self, item: Item) {
        if self.done {
            return;
        }
        match item {
            Item::Chunk(start, stop, instant) => {
                self.chunk(start, stop, instant);
                self.chunks += 1;
            }
            end => self.end_with(end),
        }
    }

    fn chunk(&mut self, start: u64, stop: u64, instant: u64) {
        match self.toxic {
            Toxic::Latency(latency, jitter) => {
                let wait = 1000 * self.varied(latency, jitter, 1 + self.chunks);
                self.give(start, stop, later(instant, wait).max(self.previous));
            }
            Toxic::Bandwidth(rate) => self.cut(start, stop, instant, |_| 100 * rate, |n| (1000 * n).div_ceil(rate)),
            Toxic::Slicer(average, variation, delay) => {
                self.cut(start, stop, instant, |stage| stage.varied(average, variation, 1 + stage.pieces), |_| delay);
            }
            Toxic::SlowClose(_) => self.give(start, stop, instant),
            Toxic::Timeout(_) => {}
            Toxic::ResetPeer(timeout) if instant < 1000 * timeout => self.give(start, stop, instant),
            Toxic::ResetPeer(timeout) => self.end(Item::Reset(1000 * timeout)),
            Toxic::LimitData(bytes) => {
                let room = bytes - self.passed;
                if stop - start < room {
                    self.give(start, stop, instant);
                } else {
                    if room > 0 {
                        self.give(start, start + room, instant);
                    }
                    self.end(Item::Closed(instant));
                }
            }
        }
    }

    fn cut(&mut self, start: u64, stop: u64, instant: u64, size: impl Fn(&Self) -> u64, wait: impl Fn(u64) -> u64) {
        let mut start = start;
        while start < stop {
            let end = stop.min(start + size(self));
            self.give(start, end, later(self.previous.max(instant), wait(end - start)));
            start = end;
        }
    }

    fn end_with(&mut self, item: Item) {
        let end = match (self.toxic, item) {
            (Toxic::SlowClose(delay), Item::Closed(instant)) => Item::Closed(later(instant, 1000 * delay)),
            (Toxic::Timeout(0), _) => Item::Quiet,
            (Toxic::Timeout(timeout), _) => Item::Closed(1000 * timeout),
            (Toxic::ResetPeer(timeout), Item::Closed(instant) | Item::Reset(instant)) if instant < 1000 * timeout => item,
            (Toxic::ResetPeer(timeout), _) => Item::Reset(1000 * timeout),
            (Toxic::SlowClose(_) | Toxic::LimitData(_), item) => item,
            (_, Item::Closed(instant)) => Item::Closed(instant.max(self.previous)),
            (_, Item::Reset(instant)) => Item::Reset(instant.max(self.previous)),
            (_, item) => item,
        };
        self.end(end);
    }
}

fn flow(toxic: Toxic, lane: u64, words: &[u32], items: &[Item]) -> Vec<Item> {
    let given = Vec::with_capacity(items.len());
    let mut stage = Stage { toxic, lane, words, previous: 0, chunks: 0, pieces: 0, passed: 0, done: false, given };
    for item in items {
        stage.take(*item);
    }
    stage.given
}

fn nibble(digit: u8) -> Option<u8> {
    (digit as char).to_digit(16).map(|value| value as u8)
}

fn decode(text: &[u8]) -> Option<Vec<u8>> {
    text.chunks_exact(2).map(|pair| Some(nibble(pair[0])? << 4 | nibble(pair[1])?)).collect()
}

fn read_arrivals(text: &[u8]) -> Option<(Vec<Piece>, Vec<Item>)> {
    let (mut pieces, mut items, mut start, mut closed) = (Vec::new(), Vec::new(), 0, false);
    for line in text.split(|byte| *byte == b'\n').filter(|line| !line.is_empty()) {
        let space = line.iter().position(|byte| *byte == b' ')?;
        let instant = std::str::from_utf8(&line[..space]).ok()?.parse().ok()?;
        let rest = &line[space + 1..];
        if rest == b"eof" {
            items.push(Item::Closed(instant));
            closed = true;
        } else {
            let bytes = decode(rest.strip_prefix(b"data ")?)?;
            let stop = start + bytes.len() as u64;
            items.push(Item::Chunk(start, stop, instant));
            pieces.push(Piece { start, bytes });
            start = stop;
        }
    }
    if !closed {
        items.push(Item::Quiet);
    }
    Some((pieces, items))
}

fn print_run(out: &mut impl Write, piece: &Piece, start: u64, stop: u64, instant: u64) -> io::Result<()> {
    const DIGITS: &[u8; 16] = b"0123456789abcdef";
    write!(out, "{instant} {start}..{stop} ")?;
    for byte in &piece.bytes[(start - piece.start) as usize..(stop - piece.start) as usize] {
        out.write_all(&[DIGITS[usize::from(byte >> 4)], DIGITS[usize::from(byte & 15)]])?;
    }
    out.write_all(b"\n")
}

fn print(out: &mut impl Write, pieces: &[Piece], items: &[Item]) -> io::Result<()> {
    let mut place = 0;
    let mut run: Option<(u64, u64, u64)> = None;
    for item in items {
        if let Item::Chunk(start, stop, instant) = *item {
            let end = |place: usize| pieces[place].start + pieces[place].bytes.len() as u64;
            match &mut run {
                Some((_, last, at)) if *at == instant && start < end(place) => *last = stop,
                _ => {
                    if let Some((first, last, at)) = run {
                        print_run(out, &pieces[place], first, last, at)?;
                    }
                    while start >= end(place) {
                        place += 1;
                    }
                    run = Some((start, stop, instant));
                }
            }
        }
    }
    if let Some((first, last, at)) = run {
        print_run(out, &pieces[place], first, last, at)?;
    }
    match items.last() {
        Some(Item::Closed(instant)) => writeln!(out, "closed {instant}"),
        Some(Item::Reset(instant)) => writeln!(out, "reset {instant}"),
        _ => writeln!(out, "open"),
    }
}

fn pass(toxics: &[String], words: &[u32], mut items: Vec<Item>) -> Option<Vec<Item>> {
    for (place, toxic) in toxics.iter().enumerate() {
        let (toxic, toxicity) = read_toxic(toxic)?;
        if u64::from(words[place % words.len()] % 1000) < toxicity {
            items = flow(toxic, place as u64, words, &items);
        }
    }
    Some(items)
}

/// So many arrivals of so many bytes, a microsecond apart, with no text: how many slices of one arrival and instant leave, and when the last.
fn deliver(words: &[String]) -> Option<()> {
    let (length, count): (u64, u64) = (words[0].parse().ok()?, words[1].parse().ok()?);
    let chunk = |place| Item::Chunk(place * length, (place + 1) * length, place);
    let mut items: Vec<Item> = (0..count).map(chunk).collect();
    items.push(Item::Quiet);
    let items = pass(&words[2..], &[7, 11, 250, 3, 1999, 4, 123_456_789], items)?;
    let mut slices: Vec<(u64, u64, u64)> = Vec::new();
    for item in &items {
        if let Item::Chunk(start, stop, instant) = *item {
            match slices.last_mut() {
                Some((first, last, at)) if *at == instant && *first / length == start / length => *last = stop,
                _ => slices.push((start, stop, instant)),
            }
        }
    }
    println!("{} slices, the last at {}", slices.len(), slices.last()?.2);
    Some(())
}

fn main() -> Result<(), Box<dyn Error>> {
    if std::env::args().nth(1).is_some_and(|first| first == "--deliver") {
        let words: Vec<String> = std::env::args().skip(2).collect();
        return Ok(deliver(&words).ok_or("a bad line")?);
    }
    let mut toxics: Vec<String> = std::env::args().skip(1).collect();
    let mut words = vec![0];
    if toxics.first().is_some_and(|first| first == "--words") {
        words = toxics[1].split(',').map(str::parse).collect::<Result<_, _>>()?;
        toxics.drain(..2);
    }
    let mut text = Vec::new();
    io::stdin().read_to_end(&mut text)?;
    let (pieces, items) = read_arrivals(&text).ok_or("a bad line")?;
    let items = pass(&toxics, &words, items).ok_or("a bad toxic")?;
    let mut out = BufWriter::new(io::stdout().lock());
    print(&mut out, &pieces, &items)?;
    Ok(out.flush()?)
}
