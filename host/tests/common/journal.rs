//! Journals: what an app saves of a day that is made up from a seed, and the harm that can come to the file.

use super::*;
use kakoludar::plain::lines;

/// A day that was played, and the lines that an app saved of it.
#[derive(Clone)]
pub struct Journal {
    pub settings: Settings,
    /// Every event that was tried, the refused ones too.
    pub tried: Vec<Event>,
    /// The settings line, then the line of each accepted event.
    pub bytes: Vec<u8>,
    /// Where each of these lines ends.
    pub ends: Vec<usize>,
    /// How many events were tried by the time that each of these lines was saved.
    pub after: Vec<usize>,
}

pub fn settings_line(settings: &Settings) -> Vec<u8> {
    let mut line = [0; LINE];
    let length = lines::write_settings(settings, &mut line).expect("a settings line");
    line[..length].to_vec()
}

pub fn event_line(event: &Event) -> Vec<u8> {
    let mut line = [0; LINE];
    let length = lines::write_event(event, &mut line).expect("an event line");
    line[..length].to_vec()
}

impl Journal {
    /// A day of so many events, played by the plain engine; the last of them closes it.
    pub fn of(seed: u64, style: Style, count: usize) -> Journal {
        let mut rng = Rng(seed);
        let mut day = Day::blank(&mut rng);
        let settings = settings(&mut rng);
        let bytes = settings_line(&settings);
        let mut journal = Journal { settings, tried: Vec::new(), ends: vec![bytes.len()], bytes, after: vec![0] };
        assert_eq!(plain::runs::open(&settings.to_run(), &mut day.session), 0);
        for left in (0..count).rev() {
            let event = if left == 0 { closing(&mut rng, &day) } else { event(&mut rng, style, &day) };
            let answer = plain::runs::apply(&mut day.session, &event.to_run(), &mut day.buys, &mut day.sells, &mut day.room);
            journal.tried.push(event);
            if kakoludar::raw::code(answer) == 0 {
                journal.save(&event);
            }
        }
        journal
    }

    fn save(&mut self, event: &Event) {
        self.bytes.extend_from_slice(&event_line(event));
        self.ends.push(self.bytes.len());
        self.after.push(self.tried.len());
    }

    /// How many event lines are whole in so many of the bytes; none where the settings line is not.
    pub fn whole(&self, cut: usize) -> Option<usize> {
        self.ends.iter().rposition(|&end| end <= cut)
    }

    /// Its lines, each with its newline.
    pub fn lines(&self) -> Vec<Vec<u8>> {
        self.bytes.split_inclusive(|&byte| byte == b'\n').map(<[u8]>::to_vec).collect()
    }
}

/// A journal of each style in turn.
pub fn journals(first: u64, count: u64, events: usize) -> impl Iterator<Item = Journal> {
    (first..first + count).map(move |seed| Journal::of(seed, STYLES[seed as usize % STYLES.len()], events))
}

/// A journal to which something has happened.
pub fn harmed(rng: &mut Rng, journal: &Journal) -> Vec<u8> {
    let mut bytes = if rng.chance(50) { harmed_line(rng, journal) } else { harmed_byte(rng, journal) };
    if rng.chance(30) {
        bytes.truncate(rng.within(0, bytes.len() as u64) as usize);
    }
    bytes
}

/// Bytes changed, added or taken, anywhere.
fn harmed_byte(rng: &mut Rng, journal: &Journal) -> Vec<u8> {
    let mut bytes = journal.bytes.clone();
    let at = rng.below(bytes.len() as u64) as usize;
    let byte = if rng.chance(60) { rng.pick(b"0123456789 =\n\r\tabcdeglmopstuy") } else { rng.next() as u8 };
    match rng.below(7) {
        0 => bytes[at] = byte,
        1 => bytes.insert(at, byte),
        2 => {
            bytes.remove(at);
        }
        // a stretch of a file that nobody has written: zeros, or whatever was there
        3 => {
            let garbage: Vec<u8> = (0..rng.within(1, 200)).map(|_| rng.next() as u8 * (at % 2) as u8).collect();
            bytes.splice(at..at, garbage);
        }
        4 => bytes.truncate(at),
        5 => {
            bytes.drain(..at);
        }
        // a torn line that the next one was appended to
        _ => {
            let start = journal.whole(at).map_or(0, |lines| journal.ends[lines]);
            bytes.splice(at..at, journal.bytes[start..].to_vec());
        }
    }
    bytes
}

/// Lines swapped, doubled, taken, put in or changed.
fn harmed_line(rng: &mut Rng, journal: &Journal) -> Vec<u8> {
    let mut lines = journal.lines();
    let at = rng.below(lines.len() as u64) as usize;
    let behind_first = 1 + rng.below(lines.len() as u64) as usize;
    match rng.below(8) {
        0 => {
            let other = rng.below(lines.len() as u64) as usize;
            lines.swap(at, other);
        }
        1 => lines.insert(behind_first, lines[at].clone()),
        2 => {
            lines.remove(at);
        }
        3 => lines.insert(behind_first, refused_line(rng, journal)),
        4 => lines.insert(behind_first, settings_line(&settings(rng))),
        5 => lines.push(event_line(&Event { time: rng.pick(&[0, 3_600_000, 86_400_000]), act: Act::Clock })),
        6 => lines[0] = refused_settings(rng, &journal.settings),
        _ => {
            let end = lines[at].len() - 1;
            lines[at].splice(end..end, rng.pick(&["\r", " ", "0", "\n", "\0"]).bytes());
        }
    }
    lines.concat()
}

/// A whole event line that the engine refuses, wherever it stands in the journal.
fn refused_line(rng: &mut Rng, journal: &Journal) -> Vec<u8> {
    let (time, tick) = (rng.below(86_400_000), journal.settings.tick);
    let act = match rng.below(5) {
        0 => Act::Cancel { id: rng.pick(&[0, 60_000, 60_001, 999_999_999]) },
        1 => Act::Close { settle: 0 },
        2 => Act::Under { price: 100_000_001 },
        3 => Act::Order { side: Side::Buy, kind: Kind::Market, life: Life::Day, lots: 0 },
        _ => Act::Order { side: Side::Sell, kind: Kind::Limit(100_000_000 / tick * tick), life: Life::Ioc, lots: 1 },
    };
    event_line(&Event { time, act })
}

/// A settings line with one number that an opening refuses.
fn refused_settings(rng: &mut Rng, settings: &Settings) -> Vec<u8> {
    let mut settings = *settings;
    match rng.below(6) {
        0 => settings.base = 0,
        1 => settings.tick = 10_001,
        2 => settings.length = 3_599_999,
        3 => settings.days = 367,
        4 => settings.under = 100_000_001,
        _ => settings.close = 100_000_001,
    }
    settings_line(&settings)
}
