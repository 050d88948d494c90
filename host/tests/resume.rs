//! Coming back from saved lines: answers that are known, journals cut after every byte, and whatever harm can come to them. Each time
//! both engines, with the scratch on the stack and lent, are held to the library's single calls, in every number.

mod common;

use common::back::{resume, Lent, LEAST};
use common::journal::*;
use common::*;
use kakoludar::terms::*;
use std::{fs, path::PathBuf};

/// Code and place of what comes back from some bytes.
#[track_caller]
fn answered(saved: &[u8], rng: &mut Rng) -> (u64, usize) {
    let (code, left) = resume(saved, &Lent::blank(rng));
    (code, left.place[0] as usize)
}

/// Where the resumes with known answers are, if they are on this machine.
fn folder() -> Option<PathBuf> {
    let here = PathBuf::from(env!("CARGO_MANIFEST_DIR"));
    let places = ["../crates/cases_resume/data", "../../shared/vectors/02/resume"];
    places.iter().map(|place| here.join(place)).find(|place| place.is_dir())
}

#[test]
fn known_answers() {
    let Some(folder) = folder() else {
        println!("no known resumes on this machine: skipped");
        return;
    };
    let paths = fs::read_dir(&folder).unwrap().map(|entry| entry.unwrap().path());
    let mut cases: Vec<PathBuf> = paths.filter(|path| path.extension().is_some_and(|e| e == "saved")).collect();
    cases.sort();
    println!("{} known resumes of {}", cases.len(), folder.display());
    assert!(cases.len() >= 100);
    let mut rng = Rng(22);
    for path in cases {
        let (code, left) = resume(&fs::read(&path).unwrap(), &Lent::blank(&mut rng));
        let mut told = format!("code={code} at={}\n", left.place[0]);
        if code == 0 {
            let words = left.live().map(|side| side.iter().map(u64::to_string).collect::<Vec<_>>().join(" "));
            told += &format!("buys: {}\nsells: {}\n", words[0], words[1]);
        }
        let name = path.file_stem().unwrap().to_str().unwrap();
        let known = fs::read_to_string(path.with_extension("answer"));
        // answers that were falsified, or left out, are there to be told as such
        if name.starts_with("wrong-") {
            assert_ne!(told, known.unwrap(), "{name}");
        } else if !name.starts_with("unread-") {
            assert_eq!(told, known.unwrap(), "{name}");
        }
    }
}

const OPEN: &str = "cat=gems base=10000 close=10000 settle=10000 tick=5 len=3600000 days=0 under=0\n";
const SELL: &str = "t=5 do=sell kind=limit life=day qty=4 price=10150\n";
const CLOSE: &str = "t=3600000 do=close settle=10000\n";
const EARLY: &str = "t=4 do=clock\n";

/// Some bytes, and the code and place that document 02 gives for them, reckoned by hand.
#[track_caller]
fn comes_to(parts: &[&str], code: u64, place: usize) {
    let bytes = parts.concat();
    let tail = &bytes[bytes.len().saturating_sub(200)..];
    assert_eq!(answered(bytes.as_bytes(), &mut Rng(place as u64)), (code, place), "from bytes that end in {tail:?}");
}

#[test]
fn without_whole_settings_no_day_comes_back() {
    for cut in 0..OPEN.len() {
        comes_to(&[&OPEN[..cut]], 14, 0);
    }
    comes_to(&["x"], 15, 0);
    comes_to(&["cat=gold base=1"], 15, 5);
    comes_to(&["t=5 do=clock\n"], 15, 0);
    comes_to(&[&OPEN[..OPEN.len() - 1], "\r\n"], 15, OPEN.len() - 1);
    // refused settings, whatever follows
    for base in ["base=0", "base=10001", "base=50000005"] {
        for behind in ["", SELL, "t=5 do=cl", "nothing"] {
            comes_to(&[&OPEN.replace("base=10000", base), behind], 22, 0);
        }
    }
}

#[test]
fn whole_lines_count() {
    let sold = OPEN.len() + SELL.len();
    comes_to(&[OPEN], 0, OPEN.len());
    comes_to(&[OPEN, SELL], 0, sold);
    // the start of a line does not, whatever the engine would say of it
    for tail in ["t", "t=9 do=clock", "t=4 do=clock", "t=999999999 do=clock", "t=9 do=cancel id=2"] {
        comes_to(&[OPEN, tail], 0, OPEN.len());
        comes_to(&[OPEN, SELL, tail], 0, sold);
    }
    // a closed day comes back closed
    comes_to(&[OPEN, CLOSE], 0, OPEN.len() + CLOSE.len());
    comes_to(&[OPEN, CLOSE, "t=3600000 do=cl"], 0, OPEN.len() + CLOSE.len());
}

#[test]
fn the_first_bad_line_decides() {
    let sold = OPEN.len() + SELL.len();
    // a tail that begins no line, and a line that is none: where it stops being one
    comes_to(&[OPEN, SELL, "t=9 do=clocks"], 15, sold + 12);
    comes_to(&[OPEN, SELL, "t=9 do=clock\r\n"], 15, sold + 12);
    comes_to(&[OPEN, SELL, "t=9 do=clo\n"], 15, sold + 10);
    comes_to(&[OPEN, SELL, "t=09"], 15, sold + 3);
    comes_to(&[OPEN, SELL, OPEN], 15, sold);
    comes_to(&[OPEN, SELL, "\0\0\0"], 15, sold);
    comes_to(&[OPEN, "\n", SELL], 15, OPEN.len());
    // a line that the engine refuses: its start
    for line in [EARLY, "t=999999999 do=clock\n", "t=9 do=cancel id=2\n", "t=9 do=close settle=10000\n"] {
        comes_to(&[OPEN, SELL, line], 22, sold);
        comes_to(&[OPEN, SELL, line, "nothing\n"], 22, sold);
        comes_to(&[OPEN, SELL, "nothing\n", line], 15, sold);
    }
    // a closed day takes no line
    comes_to(&[OPEN, CLOSE, CLOSE], 22, OPEN.len() + CLOSE.len());
    comes_to(&[OPEN, CLOSE, "t=3600000 do=clock\n"], 22, OPEN.len() + CLOSE.len());
}

/// Without an event the tables are as lent, with one they are its own up to 768, and past that nobody's.
#[test]
fn tables_are_written_from_the_first_event_on() {
    let mut rng = Rng(2);
    let lent = Lent::of(&mut rng, LEAST.map(|least| least + 7));
    let (_, left) = resume(OPEN.as_bytes(), &lent);
    assert!(left.buys == lent.buys && left.sells == lent.sells);
    let (_, left) = resume([OPEN, SELL].concat().as_bytes(), &lent);
    assert_eq!(left.live(), [&[][..], &[1, 10_150, 4]]);
    assert!(left.sells[3..TABLE].iter().chain(&left.buys[..TABLE]).all(|&number| number == 0));
    assert!(left.sells[TABLE..] == lent.sells[TABLE..] && left.buys[TABLE..] == lent.buys[TABLE..]);
    assert_eq!((left.session[at::TIME], left.session[at::GIVEN], left.session[at::SELLS]), (5, 1, 1));
    // a refusal: the session of a refused opening, and the tables as lent
    let (code, left) = resume([OPEN, SELL, SELL, EARLY].concat().as_bytes(), &lent);
    assert_eq!(code, 22);
    assert!(left.buys == lent.buys && left.sells == lent.sells);
    assert!(left.session[..SESSION].iter().enumerate().all(|(i, &number)| number == if i == 0 { LAYOUT } else { 0 }));
    assert!(left.session[SESSION..] == lent.session[SESSION..] && left.place[PLACE..] == lent.place[PLACE..]);
}

#[test]
fn journals_cut_after_every_byte() {
    let mut rng = Rng(3);
    let (mut cuts, mut lines) = (0, 0);
    for journal in journals(100, 36, 24) {
        let lent = Lent::blank(&mut rng);
        for cut in 0..=journal.bytes.len() {
            let (code, left) = resume(&journal.bytes[..cut], &lent);
            match journal.whole(cut) {
                None => assert_eq!((code, left.place[0]), (14, 0)),
                Some(whole) => assert_eq!((code, left.place[0] as usize), (0, journal.ends[whole])),
            }
            cuts += 1;
        }
        lines += journal.ends.len();
    }
    println!("{cuts} cuts of journals with {lines} lines");
}

#[test]
fn long_journals_cut_here_and_there() {
    let mut rng = Rng(4);
    let mut deepest = 0;
    let long = [(Style::Deep, 1_300), (Style::Busy, 3_000), (Style::Market, 1_500), (Style::Pushing, 1_000)];
    for (seed, (style, count)) in (200..).zip(long.into_iter().chain(long)) {
        let journal = Journal::of(seed, style, count);
        for turn in 0..25 {
            // the end, its last line torn, and anywhere
            let length = journal.bytes.len();
            let cut = [length, length - 1].get(turn).copied().unwrap_or_else(|| rng.below(length as u64) as usize);
            let (code, left) = resume(&journal.bytes[..cut], &Lent::blank(&mut rng));
            let expected = journal.whole(cut).map_or((14, 0), |whole| (0, journal.ends[whole]));
            assert_eq!((code, left.place[0] as usize), expected, "seed {seed}, cut after {cut} bytes");
            deepest = deepest.max(left.session[at::BUYS].max(left.session[at::SELLS]));
        }
    }
    assert_eq!(deepest, 256, "no side was full");
}

#[test]
fn harmed_journals() {
    let mut rng = Rng(5);
    let mut codes = [0; 23];
    for journal in journals(300, 60, 30) {
        for _ in 0..150 {
            let (code, _) = answered(&harmed(&mut rng, &journal), &mut rng);
            codes[code as usize] += 1;
        }
    }
    // nothing that was ever a journal
    for _ in 0..500 {
        let length = rng.below(300);
        let bytes: Vec<u8> = (0..length).map(|_| rng.next() as u8).collect();
        let (code, _) = answered(&bytes, &mut rng);
        assert!(code == 15 || bytes.is_empty() || b"cat=".starts_with(&bytes));
        codes[code as usize] += 1;
    }
    println!("harmed journals, 0: {}", codes[0]);
    print_counts("refused", &codes);
    for code in [0, 14, 15, 22] {
        assert!(codes[code] > 100, "code {code} was met {} times", codes[code]);
    }
}

/// All the orders that a day takes: the bytes that count are millions, and one more order is a line that the engine refuses.
#[test]
fn a_day_of_sixty_thousand_orders() {
    let mut saved = OPEN.to_string();
    for time in 0..30_000 {
        for side in ["sell", "buy"] {
            saved += &format!("t={time} do={side} kind=limit life=day qty=1 price=10000\n");
        }
    }
    let whole = saved.len();
    let (code, left) = resume(saved.as_bytes(), &Lent::blank(&mut Rng(8)));
    assert_eq!((code, left.place[0] as usize), (0, whole));
    assert_eq!((left.session[at::GIVEN], left.session[at::TRADES], left.session[at::TIME]), (60_000, 30_000, 29_999));
    comes_to(&[&saved, "t=30000 do=buy kind=market life=ioc qty=1\n", CLOSE], 22, whole);
    comes_to(&[&saved, CLOSE], 0, whole + CLOSE.len());
    comes_to(&[&saved, CLOSE, "t=3600000 do=close\n"], 15, whole + CLOSE.len() + "t=3600000 do=close".len());
}
