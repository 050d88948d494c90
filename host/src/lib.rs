//! Kakoludar's practice exchange for Rust programs: one commodity futures contract on one day, proved.
//!
//! [`Session`] owns all that a day needs (the session's numbers, both tables, the report room) and calls the proved library;
//! [`Desk`] takes session lines and gives report lines. [`raw`] has the library's functions over plain slices, for callers that
//! keep the numbers themselves. [`plain`] is the same exchange in ordinary Rust, to hold the library to.
//!
//! A day by values:
//!
//! ```
//! use kakoludar::*;
//!
//! let mut day = Session::open(&Settings {
//!     category: Category::Gems,
//!     base: 10_000, // paise: the middle of the band
//!     close: 10_000,
//!     settle: 10_000,
//!     tick: 5,
//!     length: 3_600_000, // milliseconds
//!     days: 0,
//!     under: 0,
//! })?;
//! let order = |side, price, lots| Act::Order { side, kind: Kind::Limit(price), life: Life::Day, lots };
//! day.apply(&Event { time: 0, act: order(Side::Sell, 10_150, 4) })?;
//! let reports: Vec<Report> = day.apply(&Event { time: 1_000, act: order(Side::Buy, 10_300, 1) })?.collect();
//! assert_eq!(reports[1], Report::Trade { time: 1_000, buy: 2, sell: 1, lots: 1, price: 10_150 });
//!
//! // the band ends at 10,300: a refused event changes nothing
//! let refused = day.apply(&Event { time: 2_000, act: order(Side::Buy, 10_305, 1) }).err();
//! assert_eq!(refused, Some(Refusal::Band));
//! # Ok::<(), Refusal>(())
//! ```
//!
//! The same day as text:
//!
//! ```
//! let mut out = Vec::new();
//! kakoludar::Desk::run(
//!     b"cat=gems base=10000 close=10000 settle=10000 tick=5 len=3600000 days=0 under=0
//! t=0 do=sell kind=limit life=day qty=4 price=10150
//! t=1000 do=buy kind=limit life=day qty=1 price=10300
//! ",
//!     &mut out,
//! );
//! assert!(out.ends_with(b"t=1000 say=trade buy=2 sell=1 qty=1 price=10150\n"));
//! ```
//!
//! An app that may be killed saves the day's lines, and comes back by [`Session::resume`]: docs/LINES.md, "Save and come back".
#![deny(missing_docs)]

pub mod plain;
pub mod raw;
mod saved;
pub mod terms;

pub use saved::{NoDay, Resumed, Scratch};
use std::fmt;
use terms::{at, COUNTS, EVENT, LINE, RECORD, ROOM, RUN, SESSION, SETTINGS, STANDING, TABLE, TEXT};
pub use terms::{Act, Category, Ends, Event, Kind, Life, Refusal, Report, Settings, Side, Standing, Traded, Why};

/// Takes an answer apart: the count, or the refusal and the count beside it. Only code 0 is a success.
fn answered(answer: u64) -> Result<usize, (Refusal, usize)> {
    let count = raw::count(answer) as usize;
    match Refusal::from_number(raw::code(answer)) {
        None => Ok(count),
        Some(refusal) => Err((refusal, count)),
    }
}

/// A resting order.
#[derive(Clone, Copy, PartialEq, Eq, Debug)]
pub struct Resting {
    /// Its number.
    pub id: u64,
    /// Its limit.
    pub price: u64,
    /// The lots that are left of it.
    pub lots: u64,
}

/// One day on the exchange, with the memory that the library is lent: some 37 KiB.
#[derive(Clone)]
pub struct Session {
    session: [u64; SESSION],
    buys: [u64; TABLE],
    sells: [u64; TABLE],
    room: [u64; ROOM],
}

impl Session {
    /// Memory to lend, before any day is in it.
    fn blank() -> Box<Session> {
        Box::new(Session { session: [0; SESSION], buys: [0; TABLE], sells: [0; TABLE], room: [0; ROOM] })
    }

    /// Opens a day. Refused by 12 or 13.
    pub fn open(settings: &Settings) -> Result<Box<Session>, Refusal> {
        let mut day = Session::blank();
        answered(raw::open(&settings.to_run(), &mut day.session)).map_err(|(refusal, _)| refusal)?;
        Ok(day)
    }

    /// Takes up a day that was kept as numbers ([`Session::numbers`], [`Session::tables`]): all three of one moment, or not at all.
    /// Whatever they are, the calls stay safe: numbers that are no sound session are refused by 2. But numbers of two moments can
    /// pass for sound, and then orders that have traded rest again. Where an app may be killed between two writes, the day's lines
    /// are what it saves, and [`Session::resume`] takes them: docs/LINES.md, "Save and come back".
    pub fn from_numbers(session: [u64; SESSION], buys: [u64; TABLE], sells: [u64; TABLE]) -> Box<Session> {
        Box::new(Session { session, buys, sells, room: [0; ROOM] })
    }

    /// Applies an event and gives its reports, in their order. Refused by 2 to 11, the first that applies; a refused event changes
    /// nothing: not the time, not the band, and no order number is used.
    pub fn apply(&mut self, event: &Event) -> Result<Reports<'_>, Refusal> {
        let records = self.apply_records(&event.to_run())?;
        Ok(Reports { records: records.iter() })
    }

    /// The same on an event's numbers, the reports as records.
    pub fn apply_records(&mut self, event: &[u64; EVENT]) -> Result<&[[u64; RECORD]], Refusal> {
        let answer = raw::apply(&mut self.session, event, &mut self.buys, &mut self.sells, &mut self.room);
        let count = answered(answer).map_err(|(refusal, _)| refusal)?;
        Ok(&self.room.as_chunks().0[..count])
    }

    /// The orders that rest on a side, best first.
    pub fn view(&self, side: Side) -> impl ExactSizeIterator<Item = Resting> + '_ {
        let (number, table) = match side {
            Side::Buy => (1, &self.buys),
            Side::Sell => (2, &self.sells),
        };
        let live = raw::view(number, &self.session, &self.buys, &self.sells) as usize;
        table[..live].as_chunks().0.iter().map(|&[id, price, lots]| Resting { id, price, lots })
    }

    /// Where the day stands: the band, the range and the rest of what an app shows. It is of the day as it is after its last accepted
    /// event; what the time of the next one brings is not in it. Refused by 2.
    ///
    /// ```
    /// use kakoludar::*;
    /// let (settings, _) = read_settings(b"cat=sensitive base=1003 close=1003 settle=1003 tick=1 len=3600000 days=0 under=0\n").unwrap();
    /// let stood = Session::open(&settings)?.standing()?;
    /// assert_eq!((stood.percent, stood.band), (3, Ends { low: 973, high: 1_033 }));
    /// assert_eq!((stood.reference, stood.range), (1_003, Ends { low: 988, high: 1_018 }));
    /// assert_eq!((stood.cooling, stood.last), (None, None));
    /// # Ok::<(), Refusal>(())
    /// ```
    pub fn standing(&self) -> Result<Standing, Refusal> {
        let mut numbers = [0; STANDING];
        answered(raw::standing(&self.session, &self.buys, &self.sells, &mut numbers)).map_err(|(refusal, _)| refusal)?;
        Ok(Standing::from_numbers(&numbers))
    }

    /// Whether the numbers are a sound session.
    pub fn is_sound(&self) -> bool {
        raw::sound(&self.session, &self.buys, &self.sells) == 1
    }

    /// The session's numbers, to be kept; `kakoludar.h` says what they are.
    pub fn numbers(&self) -> &[u64; SESSION] {
        &self.session
    }

    /// Both tables, to be kept.
    pub fn tables(&self) -> (&[u64; TABLE], &[u64; TABLE]) {
        (&self.buys, &self.sells)
    }

    /// Milliseconds from the open to the last accepted event.
    pub fn time(&self) -> u64 {
        self.session[at::TIME]
    }

    /// Whether the day is over.
    pub fn is_closed(&self) -> bool {
        self.session[at::CLOSED] == 1
    }

    /// The reference price, after the last accepted event.
    pub fn reference(&self) -> u64 {
        self.session[at::REFERENCE]
    }
}

/// The reports of an event that was applied, in their order.
#[derive(Clone, Debug)]
pub struct Reports<'a> {
    records: std::slice::Iter<'a, [u64; RECORD]>,
}

impl Iterator for Reports<'_> {
    type Item = Report;

    fn next(&mut self) -> Option<Report> {
        self.records.next().map(|record| Report::from_record(record).expect("the library wrote it"))
    }

    fn size_hint(&self) -> (usize, Option<usize>) {
        self.records.size_hint()
    }
}

impl ExactSizeIterator for Reports<'_> {}

/// Why bytes are no line.
#[derive(Clone, Copy, PartialEq, Eq, Debug)]
pub enum NoLine {
    /// 14: they begin a line and hold no whole one.
    Unfinished,
    /// 15: the longest start that begins a line has this length.
    Wrong(usize),
    /// Any other refusal; the library of this version has none for these bytes.
    Refused(Refusal),
}

impl NoLine {
    fn of((refusal, place): (Refusal, usize)) -> NoLine {
        match refusal {
            Refusal::Unfinished => NoLine::Unfinished,
            Refusal::WrongLine => NoLine::Wrong(place),
            other => NoLine::Refused(other),
        }
    }
}

impl fmt::Display for NoLine {
    fn fmt(&self, f: &mut fmt::Formatter<'_>) -> fmt::Result {
        match self {
            NoLine::Unfinished => Refusal::Unfinished.fmt(f),
            NoLine::Wrong(place) => write!(f, "{}, from byte {place} on", Refusal::WrongLine),
            NoLine::Refused(refusal) => refusal.fmt(f),
        }
    }
}

impl std::error::Error for NoLine {}

/// Reads a settings line from the start of the bytes, and how many it took.
pub fn read_settings(bytes: &[u8]) -> Result<(Settings, usize), NoLine> {
    let mut run = [0; SETTINGS];
    let taken = answered(raw::read_settings(bytes, &mut run)).map_err(NoLine::of)?;
    Ok((Settings::from_run(&run).expect("the library wrote it"), taken))
}

/// Reads an event line from the start of the bytes, and how many it took.
///
/// ```
/// use kakoludar::*;
/// let (event, taken) = read_event(b"t=5 do=clock\nt=6 do=clock\n")?;
/// assert_eq!((event, taken), (Event { time: 5, act: Act::Clock }, 13));
/// assert_eq!(read_event(b"t=5 do=clo"), Err(NoLine::Unfinished));
/// assert_eq!(read_event(b"t=00 do=clock\n"), Err(NoLine::Wrong(3)));
/// # Ok::<(), NoLine>(())
/// ```
pub fn read_event(bytes: &[u8]) -> Result<(Event, usize), NoLine> {
    let mut run = [0; EVENT];
    let taken = answered(raw::read_event(bytes, &mut run)).map_err(NoLine::of)?;
    Ok((Event::from_run(&run).expect("the library wrote it"), taken))
}

/// A line that a writer gave, its newline included: a slice of bytes.
#[derive(Clone, Debug)]
pub struct Line {
    bytes: [u8; LINE],
    length: usize,
}

impl Line {
    fn by(write: impl Fn(&mut [u8]) -> u64) -> Result<Line, Refusal> {
        let mut bytes = [0; LINE];
        let length = answered(write(&mut bytes)).map_err(|(refusal, _)| refusal)?;
        Ok(Line { bytes, length })
    }
}

impl std::ops::Deref for Line {
    type Target = [u8];

    fn deref(&self) -> &[u8] {
        &self.bytes[..self.length]
    }
}

/// Writes a settings line; 17 where a number is above 999,999,999.
pub fn write_settings(settings: &Settings) -> Result<Line, Refusal> {
    let run = settings.to_run();
    Line::by(|room| raw::write_settings(&run, room))
}

/// Writes an event line; 17 where a number is above 999,999,999.
pub fn write_event(event: &Event) -> Result<Line, Refusal> {
    let run = event.to_run();
    Line::by(|room| raw::write_event(&run, room))
}

/// Writes a report's line: an empty one where the numbers are no report's; 17 where one is above 999,999,999.
pub fn write_report(record: &[u64; RECORD]) -> Result<Line, Refusal> {
    Line::by(|room| raw::write_report(record, room))
}

/// Text in, text out: takes session lines in pieces, however they are cut, and adds report lines to `out`. It is the program
/// `session` without its input and output, with the memory that the library is lent.
///
/// ```
/// let mut desk = kakoludar::Desk::new();
/// let mut out = Vec::new();
/// desk.feed(b"cat=gems base=10000 close=10000 settle=10000 tick=5 len=3600000 days=0 under=0\nt=0 do=buy kind=limit li", &mut out);
/// assert!(out.is_empty());
/// desk.feed(b"fe=day qty=1 price=10000\n", &mut out);
/// assert_eq!(out, b"t=0 say=accept id=1\n");
/// ```
pub struct Desk {
    run: [u64; RUN],
    buys: [u64; TABLE],
    sells: [u64; TABLE],
    room: [u64; ROOM],
    /// What a feed prints, before it goes on to `out`; longer than a line of input needs, so that few calls are made.
    printed: [u8; TEXT + 16_384],
    /// The start of an unfinished line.
    kept: Vec<u8>,
}

impl Desk {
    /// A desk before its first line.
    pub fn new() -> Box<Desk> {
        let mut desk = Box::new(Desk {
            run: [0; RUN],
            buys: [0; TABLE],
            sells: [0; TABLE],
            room: [0; ROOM],
            printed: [0; TEXT + 16_384],
            kept: Vec::new(),
        });
        desk.restart();
        desk
    }

    /// As before the first line.
    pub fn restart(&mut self) {
        answered(raw::start(&mut self.run)).expect("the run has its length");
        self.kept.clear();
    }

    /// The next piece of the input. False where the run is over, by a bad line or refused settings: nothing more is printed.
    pub fn feed(&mut self, piece: &[u8], out: &mut Vec<u8>) -> bool {
        let mut kept = std::mem::take(&mut self.kept);
        let (used, on) = if kept.is_empty() {
            let (used, on) = self.take(raw::feed, piece, out);
            kept.extend_from_slice(&piece[used..]);
            (0, on)
        } else {
            kept.extend_from_slice(piece);
            self.take(raw::feed, &kept, out)
        };
        kept.drain(..used);
        if !on {
            kept.clear();
        }
        self.kept = kept;
        on
    }

    /// The end of the input: the run is over.
    pub fn end(&mut self, out: &mut Vec<u8>) {
        let kept = std::mem::take(&mut self.kept);
        self.take(raw::end, &kept, out);
    }

    /// Takes the whole lines of some bytes, and at the end tells it: how many bytes these are, and whether the run goes on.
    fn take(&mut self, by: raw::Feed, bytes: &[u8], out: &mut Vec<u8>) -> (usize, bool) {
        let Desk { run, buys, sells, room, printed, .. } = self;
        let mut counts = [0; COUNTS];
        let mut at = 0;
        loop {
            let answer = by(run, &bytes[at..], buys, sells, room, printed, &mut counts);
            let stop = answered(answer).expect("there is room");
            at += counts[0] as usize;
            out.extend_from_slice(&printed[..counts[1] as usize]);
            match stop {
                1 => {}
                stop => return (at, stop == 0),
            }
        }
    }

    /// The day as it stands, to go on by values: none before the settings are taken and after the run is over.
    pub fn session(&self) -> Option<Box<Session>> {
        let [stage, session @ ..] = self.run;
        (stage == 1).then(|| Session::from_numbers(session, self.buys, self.sells))
    }

    /// A whole day as text.
    pub fn run(input: &[u8], out: &mut Vec<u8>) {
        let mut desk = Desk::new();
        desk.feed(input, out);
        desk.end(out);
    }
}
