//! Coming back in every way that there is: both engines, with the scratch on the stack and lent, and the library's single calls.

use super::*;
use kakoludar::plain::runs;
use kakoludar::raw as desk;

/// What a resume is lent.
#[derive(Clone, PartialEq, Eq)]
pub struct Lent {
    pub session: Vec<u64>,
    pub buys: Vec<u64>,
    pub sells: Vec<u64>,
    pub place: Vec<u64>,
    pub spare_buys: Vec<u64>,
    pub spare_sells: Vec<u64>,
    pub room: Vec<u64>,
}

/// The least that is asked for of each.
pub const LEAST: [usize; 7] = [SESSION, TABLE, TABLE, PLACE, TABLE, TABLE, ROOM];

impl Lent {
    /// Memory of these lengths that nobody has written yet.
    pub fn of(rng: &mut Rng, lengths: [usize; 7]) -> Lent {
        let [session, buys, sells, place, spare_buys, spare_sells, room] = lengths.map(|length| rng.garbage(length));
        Lent { session, buys, sells, place, spare_buys, spare_sells, room }
    }

    /// The same, some of it longer than is asked for.
    pub fn blank(rng: &mut Rng) -> Lent {
        let lengths = LEAST.map(|least| least + rng.pick(&[0, 0, 1, 40]));
        Lent::of(rng, lengths)
    }

    fn parts(&self) -> [&[u64]; 7] {
        [&self.session, &self.buys, &self.sells, &self.place, &self.spare_buys, &self.spare_sells, &self.room]
    }

    /// The live orders of the tables, as numbers.
    pub fn live(&self) -> [&[u64]; 2] {
        let [buys, sells] = [at::BUYS, at::SELLS].map(|side| 3 * self.session[side] as usize);
        [&self.buys[..buys], &self.sells[..sells]]
    }

    /// Whether the session or the place is too short, so that nothing can be written.
    fn is_mute(&self) -> bool {
        self.session.len() < SESSION || self.place.len() < PLACE
    }

    /// Whether something else that the call is lent is too short.
    fn is_short(&self, scratch_too: bool) -> bool {
        let parts = self.parts();
        let asked = if scratch_too { 7 } else { 4 };
        (0..asked).any(|part| parts[part].len() < LEAST[part])
    }

    /// The session of a refused opening, and a place.
    fn refused(&mut self, place: usize) {
        self.session[..SESSION].fill(0);
        self.session[at::LAYOUT] = LAYOUT;
        self.place[0] = place as u64;
    }
}

/// How a call comes back with what it is lent.
type Way = fn(&[u8], &mut Lent) -> u64;

fn by_desk(saved: &[u8], l: &mut Lent) -> u64 {
    desk::resume(saved, &mut l.session, &mut l.buys, &mut l.sells, &mut l.place)
}

fn by_plain(saved: &[u8], l: &mut Lent) -> u64 {
    runs::resume(saved, &mut l.session, &mut l.buys, &mut l.sells, &mut l.place)
}

fn by_desk_lent(saved: &[u8], l: &mut Lent) -> u64 {
    let (spare_buys, spare_sells) = (&mut l.spare_buys, &mut l.spare_sells);
    desk::resume_lent(saved, &mut l.session, &mut l.buys, &mut l.sells, &mut l.place, spare_buys, spare_sells, &mut l.room)
}

fn by_plain_lent(saved: &[u8], l: &mut Lent) -> u64 {
    let (spare_buys, spare_sells) = (&mut l.spare_buys, &mut l.spare_sells);
    runs::resume_lent(saved, &mut l.session, &mut l.buys, &mut l.sells, &mut l.place, spare_buys, spare_sells, &mut l.room)
}

/// Comes back in every way: each must leave every number as the library's single calls say it is to be. Gives what was left.
#[track_caller]
pub fn resume(saved: &[u8], lent: &Lent) -> (u64, Lent) {
    let on_the_stack: [(&str, Way); 2] = [("the library", by_desk), ("the plain engine", by_plain)];
    let scratch_lent: [(&str, Way); 2] = [("the library, lent", by_desk_lent), ("the plain engine, lent", by_plain_lent)];
    let [left, _] = [(on_the_stack, false), (scratch_lent, true)].map(|(ways, scratch_too)| {
        let (code, expected) = one_by_one(saved, lent, scratch_too);
        for (name, way) in ways {
            let mut mine = lent.clone();
            let answer = way(saved, &mut mine);
            same(name, saved, (answer, &mine), (code, &expected));
        }
        (code, expected)
    });
    left
}

#[track_caller]
fn same(name: &str, saved: &[u8], (answer, mine): (u64, &Lent), (code, expected): (u64, &Lent)) {
    if answer == code && mine == expected {
        return;
    }
    let saved = String::from_utf8_lossy(&saved[saved.len().saturating_sub(4_000)..]);
    let places = [mine, expected].map(|lent| lent.place.first().copied());
    assert_eq!((answer, places[0]), (code, places[1]), "{name}: answer and place, from\n{saved}");
    let names = ["session", "buys", "sells", "place", "spare buys", "spare sells", "room"];
    for ((part, mine), expected) in names.into_iter().zip(mine.parts()).zip(expected.parts()) {
        for at in 0..mine.len() {
            assert_eq!(mine[at], expected[at], "{name}: number {at} of {part}, from\n{saved}");
        }
    }
}

/// What a resume is to answer and to leave, by the library's single calls: the settings line is read and opened, then each line read and
/// applied, on the lent tables themselves. The first line that is none or is refused decides; then the tables are as they were.
fn one_by_one(saved: &[u8], lent: &Lent, scratch_too: bool) -> (u64, Lent) {
    let mut left = lent.clone();
    if left.is_mute() {
        return (1, left);
    }
    left.refused(0);
    if left.is_short(scratch_too) {
        return (1, left);
    }
    if scratch_too {
        left.spare_buys[..TABLE].fill(0);
        left.spare_sells[..TABLE].fill(0);
        left.room[..ROOM].fill(0);
    }
    let Lent { buys, sells, .. } = lent;
    let mut day = Day { session: vec![0; SESSION], buys: buys.clone(), sells: sells.clone(), room: vec![0; ROOM] };
    match replay(saved, &mut day) {
        Ok(counted) => {
            left.session[..SESSION].copy_from_slice(&day.session);
            (left.buys, left.sells, left.place[0]) = (day.buys, day.sells, counted as u64);
            (0, left)
        }
        Err((code, place)) => {
            left.place[0] = place as u64;
            (code, left)
        }
    }
}

/// Reads and applies line by line; the bytes of the whole lines, or the code and place of the first bad one.
fn replay(saved: &[u8], day: &mut Day) -> Result<usize, (u64, usize)> {
    let mut settings = [0; SETTINGS];
    let read = desk::read_settings(saved, &mut settings);
    let mut at = desk::count(read) as usize;
    match desk::code(read) {
        0 => {}
        code => return Err((code, at)),
    }
    if desk::open(&settings, &mut day.session) != 0 {
        return Err((22, 0));
    }
    loop {
        let mut event = [0; EVENT];
        let read = desk::read_event(&saved[at..], &mut event);
        let taken = desk::count(read) as usize;
        match desk::code(read) {
            0 => {}
            // the start of a line, or nothing
            14 => return Ok(at),
            code => return Err((code, at + taken)),
        }
        let answer = desk::apply(&mut day.session, &event, &mut day.buys, &mut day.sells, &mut day.room);
        if desk::code(answer) != 0 {
            return Err((22, at));
        }
        at += taken;
    }
}
