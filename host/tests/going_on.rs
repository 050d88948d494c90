//! Going on from a day that came back is going on from a day that never stopped: the same answers, reports and numbers, by values and as
//! text. What came back is held to the day as it was after each of its events, and not to another resume.

mod common;

use common::back::{resume, Lent};
use common::journal::*;
use common::*;
use kakoludar::terms::*;
use kakoludar::{raw, Desk, Session};

/// An event's answer and its reports.
type Told = (u64, Vec<u64>);

/// Applies an event in the library.
fn apply(day: &mut Day, event: &Event) -> Told {
    let answer = raw::apply(&mut day.session, &event.to_run(), &mut day.buys, &mut day.sells, &mut day.room);
    let reports = if raw::code(answer) == 0 { RECORD * raw::count(answer) as usize } else { 0 };
    (answer, day.room[..reports].to_vec())
}

/// A day that never stops, on the memory that a resume is lent: what each event was told, and the day after each saved line.
fn never_stopped(journal: &Journal, lent: &Lent) -> (Vec<Told>, Vec<Day>) {
    let Lent { session, buys, sells, room, .. } = lent.clone();
    let mut day = Day { session, buys, sells, room };
    assert_eq!(raw::open(&journal.settings.to_run(), &mut day.session), 0);
    let mut saved = vec![day.clone()];
    let mut told = Vec::new();
    for event in &journal.tried {
        told.push(apply(&mut day, event));
        if raw::code(told.last().unwrap().0) == 0 {
            saved.push(day.clone());
        }
    }
    (told, saved)
}

/// Comes back from a cut and goes on with all that was tried behind it.
fn go_on(journal: &Journal, cut: usize, whole: usize, lent: &Lent, told: &[Told], saved: &[Day]) {
    let (code, left) = resume(&journal.bytes[..cut], lent);
    assert_eq!((code, left.place[0] as usize), (0, journal.ends[whole]), "cut after {cut} bytes");
    let Lent { session, buys, sells, .. } = left;
    let then = &saved[whole];
    assert!(session == then.session && buys == then.buys && sells == then.sells, "cut after {cut} bytes");
    let mut day = Day { session, buys, sells, room: vec![9; ROOM] };
    for (event, told) in journal.tried.iter().zip(told).skip(journal.after[whole]) {
        assert_eq!(&apply(&mut day, event), told, "cut after {cut} bytes, {event:?}");
    }
    let end = &saved[saved.len() - 1];
    assert!(day.session == end.session && day.buys == end.buys && day.sells == end.sells, "cut after {cut} bytes");
}

#[test]
fn going_on_is_never_having_stopped() {
    let mut rng = Rng(31);
    let (mut cuts, mut events) = (0, 0);
    for journal in journals(500, 36, 30) {
        let lent = Lent::blank(&mut rng);
        let (told, saved) = never_stopped(&journal, &lent);
        assert_eq!(saved.len(), journal.ends.len());
        for cut in 0..=journal.bytes.len() {
            if let Some(whole) = journal.whole(cut) {
                go_on(&journal, cut, whole, &lent, &told, &saved);
                cuts += 1;
                events += told.len() - journal.after[whole];
            }
        }
    }
    println!("{cuts} cuts, {events} events after them");
}

#[test]
fn going_on_with_a_full_book() {
    let mut rng = Rng(32);
    for seed in 600..606 {
        let journal = Journal::of(seed, [Style::Deep, Style::Busy][seed as usize % 2], 1_200);
        let lent = Lent::blank(&mut rng);
        let (told, saved) = never_stopped(&journal, &lent);
        for _ in 0..12 {
            let cut = rng.within(journal.ends[0] as u64, journal.bytes.len() as u64) as usize;
            go_on(&journal, cut, journal.whole(cut).unwrap(), &lent, &told, &saved);
        }
    }
}

/// What the library prints for a day's whole lines.
fn printed(lines: &[u8]) -> Vec<u8> {
    let mut out = Vec::new();
    assert!(Desk::new().feed(lines, &mut out));
    out
}

/// What a run that goes on from a session prints for the lines behind it.
fn printed_behind(left: &Lent, lines: &[u8]) -> Vec<u8> {
    let Lent { session, mut buys, mut sells, mut room, .. } = left.clone();
    let mut run = [&[1], &session[..SESSION]].concat();
    let (mut out, mut counts, mut at, mut printed) = (vec![0; TEXT], [0; COUNTS], 0, Vec::new());
    loop {
        let answer = raw::feed(&mut run, &lines[at..], &mut buys, &mut sells, &mut room, &mut out, &mut counts);
        at += counts[0] as usize;
        printed.extend_from_slice(&out[..counts[1] as usize]);
        match raw::count(answer) {
            1 => {}
            stop => {
                assert_eq!((raw::code(answer), stop, at), (0, 0, lines.len()));
                return printed;
            }
        }
    }
}

/// A stage and a session that came back are a run of text that goes on.
#[test]
fn going_on_as_text() {
    let mut rng = Rng(33);
    for journal in journals(700, 12, 40) {
        let all = printed(&journal.bytes);
        for &end in &journal.ends {
            let (_, left) = resume(&journal.bytes[..end], &Lent::blank(&mut rng));
            let (head, tail) = journal.bytes.split_at(end);
            assert!([printed(head), printed_behind(&left, tail)].concat() == all, "cut after {end} bytes");
        }
    }
}

/// A day that comes back, goes on, is saved, and comes back again, and again: by the wrapper, its scratch on the stack and lent in turn.
#[test]
fn killed_between_any_two_events() {
    let mut scratch = kakoludar::Scratch::new();
    for journal in journals(800, 12, 40) {
        let mut file = settings_line(&journal.settings);
        let mut shown = Vec::new();
        for (turn, &event) in journal.tried.iter().enumerate() {
            let back = match turn % 2 {
                0 => Session::resume(&file),
                _ => Session::resume_lent(&file, &mut scratch),
            };
            let mut back = back.expect("a day's lines");
            assert_eq!(back.counted, file.len());
            if let Ok(records) = back.day.apply_records(&event.to_run()) {
                records.iter().for_each(|record| shown.extend_from_slice(&kakoludar::write_report(record).unwrap()));
                file.extend_from_slice(&event_line(&event));
            }
        }
        assert!(file == journal.bytes && shown == printed(&journal.bytes));
    }
}
