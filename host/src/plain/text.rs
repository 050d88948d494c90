//! Text in, text out: what the program `session` prints for what it is given.

use super::lines::{self, NoLine};
use super::{apply, Session};
use crate::terms::*;

/// A day as text: a settings line, then event lines; report lines are added to `out`.
pub fn run(input: &[u8], out: &mut Vec<u8>) {
    let mut line = [0; LINE];
    let mut print = |out: &mut Vec<u8>, write: &dyn Fn(&mut [u8]) -> Result<usize, Refusal>| {
        // no line of ours is refused: room is there, and no number of a report passes nine digits
        let length = write(&mut line).unwrap_or(0);
        out.extend_from_slice(&line[..length]);
    };
    let bad = |error: NoLine, given: &[u8]| match error {
        NoLine::Unfinished => (Refusal::Unfinished, given.len() as u64),
        NoLine::Wrong(place) => (Refusal::WrongLine, place as u64),
    };

    let (settings, taken) = match lines::read_settings(input) {
        Ok(read) => read,
        Err(error) => {
            let (refusal, at) = bad(error, input);
            return print(out, &|room| lines::write_bad(refusal, at, room));
        }
    };
    let mut session = match Session::open(settings) {
        Ok(session) => session,
        Err(refusal) => return print(out, &|room| lines::write_bad(refusal, 0, room)),
    };
    let mut buys = [0; TABLE];
    let mut sells = [0; TABLE];
    let mut room = [0; ROOM];
    let mut rest = &input[taken..];
    while !rest.is_empty() {
        let (event, taken) = match lines::read_event(rest) {
            Ok(read) => read,
            Err(error) => {
                let (refusal, at) = bad(error, rest);
                return print(out, &|room| lines::write_bad(refusal, at, room));
            }
        };
        rest = &rest[taken..];
        match apply(&mut session, &event, &mut buys, &mut sells, &mut room) {
            Ok(count) => {
                for record in &room.as_chunks().0[..count] {
                    print(out, &|room| lines::write_report(record, room));
                }
            }
            Err(refusal) => print(out, &|room| lines::write_refused(event.time, refusal, room)),
        }
    }
}
