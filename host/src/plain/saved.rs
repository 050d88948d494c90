//! Coming back after a kill, from document 02, item 4: the day that the whole lines of some saved bytes leave.

use super::lines::{self, NoLine};
use super::{apply, Session};
use crate::terms::*;

/// A day that came back: its session after the last whole event, and how many of the saved bytes count.
#[derive(Clone, PartialEq, Eq, Debug)]
pub struct Back {
    /// The session.
    pub session: Session,
    /// The bytes of the settings line and of all whole event lines.
    pub counted: usize,
}

/// Why no day comes back: 1, or what the first bad line is, 14, 15 or 22.
#[derive(Clone, Copy, PartialEq, Eq, Debug)]
pub struct NoDay {
    /// The refusal.
    pub refusal: Refusal,
    /// Counted from the first saved byte: of 15 where the line stops being one, of 22 the start of the line, else 0.
    pub place: usize,
}

impl NoDay {
    fn wrong(place: usize) -> NoDay {
        NoDay { refusal: Refusal::WrongLine, place }
    }

    fn refused(start: usize) -> NoDay {
        NoDay { refusal: Refusal::SavedLine, place: start }
    }

    /// 1 and 14 have no place.
    fn nowhere(refusal: Refusal) -> NoDay {
        NoDay { refusal, place: 0 }
    }
}

/// Comes back. The lent tables are written where there is an event among the lines and none of the lines is bad: like an opening, a
/// resume of the settings alone touches no table.
pub fn resume(saved: &[u8], buys: &mut [u64], sells: &mut [u64]) -> Result<Back, NoDay> {
    let (Some(buys), Some(sells)) = (buys.first_chunk_mut(), sells.first_chunk_mut()) else {
        return Err(NoDay::nowhere(Refusal::ShortTable));
    };
    let mut day = open(saved)?;
    let opening = day.counted;
    // on tables of its own: a bad line may still come, and then the lent ones are left as they are
    let mut spare = ([0; TABLE], [0; TABLE]);
    let mut room = [0; ROOM];
    while let Some((event, taken)) = next_event(saved, day.counted)? {
        apply(&mut day.session, &event, &mut spare.0, &mut spare.1, &mut room).map_err(|_| NoDay::refused(day.counted))?;
        day.counted += taken;
    }
    if day.counted > opening {
        (*buys, *sells) = spare;
    }
    Ok(day)
}

/// The day of the settings line.
fn open(saved: &[u8]) -> Result<Back, NoDay> {
    let (settings, counted) = lines::read_settings(saved).map_err(|error| match error {
        NoLine::Unfinished => NoDay::nowhere(Refusal::Unfinished),
        NoLine::Wrong(place) => NoDay::wrong(place),
    })?;
    let session = Session::open(settings).map_err(|_| NoDay::refused(0))?;
    Ok(Back { session, counted })
}

/// The event whose line begins at a place, and the bytes of that line: none at the end of the bytes, and none where a tail is left that
/// only begins a line.
fn next_event(saved: &[u8], start: usize) -> Result<Option<(Event, usize)>, NoDay> {
    match lines::read_event(&saved[start..]) {
        Ok(read) => Ok(Some(read)),
        Err(NoLine::Unfinished) => Ok(None),
        Err(NoLine::Wrong(place)) => Err(NoDay::wrong(start + place)),
    }
}
