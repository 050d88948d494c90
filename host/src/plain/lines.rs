//! Session lines read and written, report lines written.

use crate::terms::*;

/// Why bytes are no line: 14, or 15 with the length of the longest start that begins one.
#[derive(Clone, Copy, PartialEq, Eq, Debug)]
pub enum NoLine {
    /// 14.
    Unfinished,
    /// 15, and the place.
    Wrong(usize),
}

type Read<T> = Result<T, NoLine>;

struct Cursor<'a> {
    bytes: &'a [u8],
    at: usize,
}

impl<'a> Cursor<'a> {
    fn new(bytes: &'a [u8]) -> Self {
        Cursor { bytes, at: 0 }
    }

    fn literal(&mut self, word: &[u8]) -> Read<()> {
        if self.bytes[self.at..].starts_with(word) {
            self.at += word.len();
            Ok(())
        } else {
            Err(self.failure(&[word]))
        }
    }

    /// Which of the words comes next; none is the start of another.
    fn one_of(&mut self, words: &[&[u8]]) -> Read<usize> {
        let rest = &self.bytes[self.at..];
        match words.iter().position(|word| rest.starts_with(word)) {
            Some(which) => {
                self.at += words[which].len();
                Ok(which)
            }
            None => Err(self.failure(words)),
        }
    }

    #[cold]
    fn failure(&self, words: &[&[u8]]) -> NoLine {
        let rest = &self.bytes[self.at..];
        let common = |word: &&[u8]| word.iter().zip(rest).take_while(|(a, b)| a == b).count();
        let longest = words.iter().map(common).max().unwrap_or(0);
        if longest == rest.len() {
            NoLine::Unfinished
        } else {
            NoLine::Wrong(self.at + longest)
        }
    }

    /// 0, or one to nine digits that begin with no 0.
    fn number(&mut self) -> Read<u64> {
        let rest = &self.bytes[self.at..];
        match rest.first() {
            None => Err(NoLine::Unfinished),
            Some(b'0') => {
                self.at += 1;
                Ok(0)
            }
            Some(b'1'..=b'9') => {
                let mut value = 0;
                let mut count = 0;
                for &byte in rest.iter().take(9) {
                    let digit = byte.wrapping_sub(b'0');
                    if digit > 9 {
                        break;
                    }
                    value = 10 * value + u64::from(digit);
                    count += 1;
                }
                self.at += count;
                Ok(value)
            }
            Some(_) => Err(NoLine::Wrong(self.at)),
        }
    }

    fn field(&mut self, name: &[u8]) -> Read<u64> {
        self.literal(name)?;
        self.number()
    }
}

const CATEGORIES: [&[u8]; 8] = [b"broad", b"narrow", b"sensitive", b"energy", b"metals", b"precious", b"gems", b"other"];

/// Reads a settings line from the start of the bytes, and how many it took.
pub fn read_settings(bytes: &[u8]) -> Read<(Settings, usize)> {
    let mut line = Cursor::new(bytes);
    line.literal(b"cat=")?;
    let category = Category::ALL[line.one_of(&CATEGORIES)?];
    let base = line.field(b" base=")?;
    let close = line.field(b" close=")?;
    let settle = line.field(b" settle=")?;
    let tick = line.field(b" tick=")?;
    let length = line.field(b" len=")?;
    let days = line.field(b" days=")?;
    let under = line.field(b" under=")?;
    line.literal(b"\n")?;
    Ok((Settings { category, base, close, settle, tick, length, days, under }, line.at))
}

/// Reads an event line from the start of the bytes, and how many it took.
pub fn read_event(bytes: &[u8]) -> Read<(Event, usize)> {
    let mut line = Cursor::new(bytes);
    let time = line.field(b"t=")?;
    line.literal(b" do=")?;
    let act =
        match line.one_of(&[b"buy kind=", b"sell kind=", b"cancel id=", b"under price=", b"clock", b"close settle="])? {
            2 => Act::Cancel { id: line.number()? },
            3 => Act::Under { price: line.number()? },
            4 => Act::Clock,
            5 => Act::Close { settle: line.number()? },
            which => {
                let side = if which == 0 { Side::Buy } else { Side::Sell };
                let market = line.one_of(&[b"limit life=", b"market life="])? == 1;
                let life = [Life::Day, Life::Ioc][line.one_of(&[b"day qty=", b"ioc qty="])?];
                let lots = line.number()?;
                let kind = if market { Kind::Market } else { Kind::Limit(line.field(b" price=")?) };
                Act::Order { side, kind, life, lots }
            }
        };
    line.literal(b"\n")?;
    Ok((Event { time, act }, line.at))
}

/// Most a number may be that is written.
const NUMBER_MOST: u64 = 999_999_999;

/// A line under way in a room that is long enough.
struct Pen<'a> {
    room: &'a mut [u8; LINE],
    at: usize,
}

impl Pen<'_> {
    fn word(&mut self, word: &[u8]) {
        self.room[self.at..][..word.len()].copy_from_slice(word);
        self.at += word.len();
    }

    fn number(&mut self, number: u64) {
        let mut number = number as u32;
        let count = number.checked_ilog10().map_or(1, |log| log as usize + 1);
        for place in self.room[self.at..][..count].iter_mut().rev() {
            *place = b'0' + (number % 10) as u8;
            number /= 10;
        }
        self.at += count;
    }

    fn field(&mut self, name: &[u8], number: u64) {
        self.word(name);
        self.number(number);
    }

    fn end(mut self) -> usize {
        self.word(b"\n");
        self.at
    }
}

/// Refusals 16 and 17.
fn pen<'a>(room: &'a mut [u8], numbers: &[u64]) -> Result<Pen<'a>, Refusal> {
    let room = room.first_chunk_mut().ok_or(Refusal::ShortLine)?;
    if numbers.iter().any(|&number| number > NUMBER_MOST) {
        return Err(Refusal::LargeNumber);
    }
    Ok(Pen { room, at: 0 })
}

/// Writes a settings line and answers its length.
pub fn write_settings(settings: &Settings, room: &mut [u8]) -> Result<usize, Refusal> {
    let run = settings.to_run();
    let mut line = pen(room, &run)?;
    line.word(b"cat=");
    line.word(CATEGORIES[settings.category as usize]);
    let names: [&[u8]; 7] = [b" base=", b" close=", b" settle=", b" tick=", b" len=", b" days=", b" under="];
    for (name, &number) in names.iter().zip(&run[1..]) {
        line.field(name, number);
    }
    Ok(line.end())
}

/// Writes an event line and answers its length.
pub fn write_event(event: &Event, room: &mut [u8]) -> Result<usize, Refusal> {
    let mut line = pen(room, &event.to_run())?;
    line.field(b"t=", event.time);
    match event.act {
        Act::Order { side, kind, life, lots } => {
            line.word(match side {
                Side::Buy => b" do=buy kind=",
                Side::Sell => b" do=sell kind=",
            });
            line.word(match kind {
                Kind::Limit(_) => b"limit life=",
                Kind::Market => b"market life=",
            });
            line.word(match life {
                Life::Day => b"day",
                Life::Ioc => b"ioc",
            });
            line.field(b" qty=", lots);
            if let Kind::Limit(price) = kind {
                line.field(b" price=", price);
            }
        }
        Act::Cancel { id } => line.field(b" do=cancel id=", id),
        Act::Under { price } => line.field(b" do=under price=", price),
        Act::Clock => line.word(b" do=clock"),
        Act::Close { settle } => line.field(b" do=close settle=", settle),
    }
    Ok(line.end())
}

/// Writes the line of a report and answers its length: 0 where the six numbers are no report's, which has no line.
pub fn write_report(record: &[u64; RECORD], room: &mut [u8]) -> Result<usize, Refusal> {
    let names: &[&[u8]] = match record {
        [1, _, _, 0, 0, 0] => &[b" say=accept id="],
        [2, ..] => &[b" say=trade buy=", b" sell=", b" qty=", b" price="],
        [3, _, _, _, _, 0] => &[b" say=convert id=", b" qty=", b" price="],
        [4, _, _, _, 1..=5, 0] => &[b" say=cancel id=", b" qty=", b" why="],
        [5, _, _, _, 0, 0] => &[b" say=slab low=", b" high="],
        [6, _, _, 0, 0, 0] => &[b" say=ref price="],
        [7, _, _, _, 0, 0] => &[b" say=close price=", b" base="],
        _ => return pen(room, &[]).map(|_| 0),
    };
    let mut line = pen(room, &record[1..])?;
    line.field(b"t=", record[1]);
    for (name, &number) in names.iter().zip(&record[2..]) {
        line.field(name, number);
    }
    Ok(line.end())
}

/// Writes what is printed of a refused event.
pub fn write_refused(time: u64, refusal: Refusal, room: &mut [u8]) -> Result<usize, Refusal> {
    let mut line = pen(room, &[time])?;
    line.field(b"t=", time);
    line.field(b" say=refuse code=", refusal.number());
    Ok(line.end())
}

/// Writes what is printed of a bad line or of refused settings.
pub fn write_bad(refusal: Refusal, at: u64, room: &mut [u8]) -> Result<usize, Refusal> {
    let mut line = pen(room, &[at])?;
    line.field(b"say=bad code=", refusal.number());
    line.field(b" at=", at);
    Ok(line.end())
}
