//! Coming back after the system has killed an app: the day of its saved lines.

use crate::terms::{Refusal, PLACE, ROOM, TABLE};
use crate::{answered, raw, NoLine, Session};
use std::fmt;

impl Session {
    /// Comes back from what an app has saved of a day, its settings line and the line of each accepted event, cut after any byte: the
    /// day of all whole lines, as if it had never stopped. The start of a line behind them is dropped; [`Resumed::counted`] says how
    /// many bytes count, and the file is to be cut back to them before a line is appended. It gives no reports.
    ///
    /// Refused by the first bad line: 14 where there is no whole settings line yet, 15 for a line that is none, 22 for one that the
    /// engine refuses. It takes some 52 KiB of stack.
    ///
    /// ```
    /// use kakoludar::*;
    /// let saved = b"cat=gems base=10000 close=10000 settle=10000 tick=5 len=3600000 days=0 under=0
    /// t=0 do=sell kind=limit life=day qty=4 price=10150
    /// t=1000 do=buy kind=limit life=day qty=1 price=10300
    /// t=2000 do=buy kind=lim";
    /// let mut back = Session::resume(saved)?;
    /// assert_eq!(back.counted, saved.len() - b"t=2000 do=buy kind=lim".len());
    /// assert_eq!(back.day.view(Side::Sell).next(), Some(Resting { id: 1, price: 10_150, lots: 3 }));
    /// // and the day goes on
    /// back.day.apply(&Event { time: 2_000, act: Act::Cancel { id: 1 } })?;
    ///
    /// // a line that the engine never accepted: its start
    /// let wrong = [&saved[..back.counted], b"t=999 do=clock\n"].concat();
    /// let no_day = Session::resume(&wrong).err();
    /// assert_eq!(no_day, Some(NoDay { refusal: Refusal::SavedLine, place: back.counted }));
    /// assert_eq!(Session::resume(b"cat=ge").err(), Some(NoDay { refusal: Refusal::Unfinished, place: 0 }));
    /// # Ok::<(), Box<dyn std::error::Error>>(())
    /// ```
    pub fn resume(saved: &[u8]) -> Result<Resumed, NoDay> {
        Resumed::by(|day, place| raw::resume(saved, &mut day.session, &mut day.buys, &mut day.sells, place))
    }

    /// The same with memory lent to work in, for a thread with a small stack.
    ///
    /// ```
    /// # use kakoludar::*;
    /// let saved = b"cat=gems base=10000 close=10000 settle=10000 tick=5 len=3600000 days=0 under=0\nt=5 do=clock\n";
    /// let mut scratch = Scratch::new();
    /// let back = Session::resume_lent(saved, &mut scratch)?;
    /// assert_eq!((back.day.time(), back.counted), (5, saved.len()));
    /// # Ok::<(), NoDay>(())
    /// ```
    pub fn resume_lent(saved: &[u8], scratch: &mut Scratch) -> Result<Resumed, NoDay> {
        let Scratch { buys, sells, room } = scratch;
        Resumed::by(|day, place| {
            raw::resume_lent(saved, &mut day.session, &mut day.buys, &mut day.sells, place, buys, sells, room)
        })
    }
}

/// A day that came back from its saved lines.
#[derive(Clone)]
pub struct Resumed {
    /// The day, as it is after the last whole event.
    pub day: Box<Session>,
    /// How many of the saved bytes count: those of the settings line and of all whole event lines.
    pub counted: usize,
}

impl Resumed {
    fn by(resume: impl FnOnce(&mut Session, &mut [u64; PLACE]) -> u64) -> Result<Resumed, NoDay> {
        let mut day = Session::blank();
        let mut place = [0; PLACE];
        let answer = resume(&mut day, &mut place);
        let [place] = place.map(|place| place as usize);
        match answered(answer) {
            Ok(_) => Ok(Resumed { day, counted: place }),
            Err((refusal, _)) => Err(NoDay { refusal, place }),
        }
    }
}

/// Memory that [`Session::resume_lent`] works in: two spare tables and a report room, some 36 KiB. It may be lent again.
#[derive(Clone)]
pub struct Scratch {
    buys: [u64; TABLE],
    sells: [u64; TABLE],
    room: [u64; ROOM],
}

impl Scratch {
    /// Memory to lend.
    pub fn new() -> Box<Scratch> {
        Box::new(Scratch { buys: [0; TABLE], sells: [0; TABLE], room: [0; ROOM] })
    }
}

/// Why saved bytes bring no day back.
#[derive(Clone, Copy, PartialEq, Eq, Debug)]
pub struct NoDay {
    /// 14: no whole settings line yet. 15: a line that is none. 22: a line that the engine refuses.
    pub refusal: Refusal,
    /// Counted from the first saved byte: of 15 the place from which on the line is none, of 22 the start of the line, else 0.
    pub place: usize,
}

impl fmt::Display for NoDay {
    fn fmt(&self, f: &mut fmt::Formatter<'_>) -> fmt::Result {
        let NoDay { refusal, place } = self;
        match refusal {
            Refusal::WrongLine => NoLine::Wrong(*place).fmt(f),
            Refusal::SavedLine => write!(f, "{refusal}, the one at byte {place}"),
            other => other.fmt(f),
        }
    }
}

impl std::error::Error for NoDay {}
