//! Text in, text out: sessions with known outputs, and the two engines on generated days, whole and damaged.

mod common;

use common::*;
use kakoludar::plain::{self, lines};
use kakoludar::terms::*;
use kakoludar::{raw, Desk};
use std::{fs, path::PathBuf};

fn folder() -> Option<PathBuf> {
    let here = PathBuf::from(env!("CARGO_MANIFEST_DIR"));
    ["../crates/days/data", "../../shared/vectors"].iter().map(|place| here.join(place)).find(|place| place.is_dir())
}

fn vectors() -> Vec<(PathBuf, Vec<u8>, Vec<u8>)> {
    let Some(folder) = folder() else {
        println!("no vectors on this machine: skipped");
        return Vec::new();
    };
    let mut inputs: Vec<PathBuf> = fs::read_dir(&folder)
        .unwrap()
        .map(|entry| entry.unwrap().path())
        .filter(|path| path.extension().is_some_and(|e| e == "in"))
        // some days are there to be told as wrong
        .filter(|path| !path.file_name().is_some_and(|name| name.to_string_lossy().starts_with("wrong-")))
        .collect();
    inputs.sort();
    println!("{} vectors of {}", inputs.len(), folder.display());
    assert!(!inputs.is_empty());
    inputs
        .into_iter()
        .map(|path| (path.clone(), fs::read(&path).unwrap(), fs::read(path.with_extension("out")).unwrap()))
        .collect()
}

fn printed_by_plain(input: &[u8]) -> Vec<u8> {
    let mut out = Vec::new();
    plain::text::run(input, &mut out);
    out
}

fn printed_by_desk(input: &[u8]) -> Vec<u8> {
    let mut out = Vec::new();
    Desk::run(input, &mut out);
    out
}

#[test]
fn plain_prints_what_the_vectors_expect() {
    for (path, input, expected) in vectors() {
        assert!(printed_by_plain(&input) == expected, "{}", path.display());
    }
}

#[test]
fn the_library_prints_what_the_vectors_expect() {
    for (path, input, expected) in vectors() {
        assert!(printed_by_desk(&input) == expected, "{}", path.display());
    }
}

/// A run that has no session: its stage, the layout and zeros.
fn unopened(stage: u64) -> Vec<u64> {
    let mut run = vec![0; RUN];
    run[0] = stage;
    run[1 + at::LAYOUT] = LAYOUT;
    run
}

/// What the library prints for pieces of an input, with an output room of some length. Every call is held to its promises:
/// counts within what was handed in, the room untouched past what was printed, a line's start kept at most.
fn fed_in_pieces(pieces: &mut dyn Iterator<Item = &[u8]>, room_length: usize, rng: &mut Rng) -> Vec<u8> {
    const BLANK: u8 = 0xa5;
    let mut run = rng.garbage(RUN + rng.0 as usize % 2);
    let [mut buys, mut sells, mut room] = [TABLE, TABLE, ROOM].map(|length| rng.garbage(length));
    let mut out = vec![BLANK; room_length];
    let mut counts = [0; COUNTS];
    let (mut kept, mut printed) = (Vec::new(), Vec::new());
    let mut over = false;
    assert_eq!(raw::start(&mut run), 0);
    assert_eq!(run[..RUN], unopened(0));
    for piece in pieces {
        kept.extend_from_slice(piece);
        loop {
            let answer = raw::feed(&mut run, &kept, &mut buys, &mut sells, &mut room, &mut out, &mut counts);
            let [used, wrote] = counts.map(|count| count as usize);
            assert!(raw::code(answer) == 0 && used <= kept.len() && wrote <= out.len());
            assert!(out[wrote..].iter().take(200).all(|&byte| byte == BLANK));
            assert!(!over || (used, wrote) == (0, 0));
            printed.extend_from_slice(&out[..wrote]);
            out[..wrote].fill(BLANK);
            kept.drain(..used);
            match raw::count(answer) {
                0 => assert!(run[0] < 2 && kept.len() <= LINE),
                1 => {
                    assert!(wrote > 0 && !kept.is_empty());
                    continue;
                }
                2 => {
                    assert_eq!(run[0], 2);
                    over = true;
                }
                stop => panic!("stop {stop}"),
            }
            break;
        }
    }
    loop {
        let answer = raw::end(&mut run, &kept, &mut buys, &mut sells, &mut room, &mut out, &mut counts);
        let [used, wrote] = counts.map(|count| count as usize);
        assert!(raw::code(answer) == 0 && out[wrote..].iter().take(200).all(|&byte| byte == BLANK));
        printed.extend_from_slice(&out[..wrote]);
        out[..wrote].fill(BLANK);
        kept.drain(..used);
        match raw::count(answer) {
            1 => assert!(used > 0),
            stop => {
                assert_eq!((stop, run[0]), (2, 2));
                return printed;
            }
        }
    }
}

/// Pieces of random lengths, short and long.
fn random_pieces<'a>(input: &'a [u8], rng: &mut Rng) -> Vec<&'a [u8]> {
    let most = rng.pick(&[3, 40, 200, 5_000]);
    let mut rest = input;
    let mut pieces = Vec::new();
    while !rest.is_empty() {
        let (piece, after) = rest.split_at((rng.below(most + 1) as usize).min(rest.len()));
        pieces.push(piece);
        rest = after;
    }
    pieces
}

const ROOMS: [usize; 4] = [TEXT, TEXT + 1, TEXT + 500, 3 * TEXT];

#[test]
fn vectors_in_pieces() {
    let mut rng = Rng(77);
    for (path, input, expected) in vectors() {
        assert!(printed_by_plain(&input) == expected, "{}", path.display());
        for room in ROOMS {
            let mut feed = |pieces: &mut dyn Iterator<Item = &[u8]>, how: &str| {
                assert!(fed_in_pieces(pieces, room, &mut rng) == expected, "{} {how}, a room of {room}", path.display());
            };
            feed(&mut std::iter::once(&input[..]), "whole");
            feed(&mut input.chunks(1), "byte by byte");
            for seed in 0..3 {
                let pieces = random_pieces(&input, &mut Rng(seed + room as u64));
                feed(&mut pieces.iter().copied(), "in pieces");
            }
        }
    }
}

#[test]
fn a_desk_is_fed_in_pieces() {
    let mut rng = Rng(78);
    let mut desk = Desk::new();
    for (path, input, expected) in vectors() {
        let mut out = Vec::new();
        desk.restart();
        for piece in random_pieces(&input, &mut rng) {
            desk.feed(piece, &mut out);
        }
        desk.end(&mut out);
        assert!(out == expected, "{}", path.display());
    }
}

#[test]
fn a_refused_feed_writes_nothing() {
    let mut rng = Rng(79);
    let least = [RUN, TABLE, TABLE, ROOM, COUNTS];
    let input = day(3, Style::Busy);
    for (which, short, call) in
        (0..=least.len()).flat_map(|i| [(i, 1, raw::feed as raw::Feed), (i, 2, raw::feed), (i, 1, raw::end)])
    {
        let lengths = std::array::from_fn::<_, 5, _>(|i| least[i] - if i == which { short } else { 0 });
        let mut numbers = lengths.map(|length| rng.garbage(length));
        if lengths[0] == RUN {
            raw::start(&mut numbers[0]);
        }
        let mut out = vec![7; TEXT];
        let before = numbers.clone();
        let [run, buys, sells, room, counts] = &mut numbers;
        let answer = call(run, &input, buys, sells, room, &mut out, counts);
        if which == least.len() {
            assert!(raw::code(answer) == 0 && before != numbers);
        } else {
            assert_eq!(answer, 1);
            assert!(before == numbers && out.iter().all(|&byte| byte == 7));
        }
    }
    assert_eq!(raw::start(&mut [5; RUN - 1]), 1);
}

/// One call on a run that has taken a day's settings, or not: the answer's code and count, both counts, and what was printed.
fn called(call: raw::Feed, started: &[u8], bytes: &[u8], room_length: usize) -> (u64, [usize; COUNTS], Vec<u8>) {
    let mut rng = Rng(81);
    let mut run = vec![0; RUN];
    let [mut buys, mut sells, mut room] = [TABLE, TABLE, ROOM].map(|length| rng.garbage(length));
    let (mut counts, mut large) = ([0; COUNTS], vec![0; 2 * TEXT]);
    raw::start(&mut run);
    raw::feed(&mut run, started, &mut buys, &mut sells, &mut room, &mut large, &mut counts);
    let mut out = vec![7; room_length];
    let answer = call(&mut run, bytes, &mut buys, &mut sells, &mut room, &mut out, &mut counts);
    let counts = counts.map(|count| count as usize);
    assert!(out[counts[1]..].iter().all(|&byte| byte == 7));
    out.truncate(counts[1]);
    assert_eq!(raw::code(answer), 0);
    (raw::count(answer), counts, out)
}

const SETTINGS_LINE: &[u8] = b"cat=gems base=10000 close=10000 settle=10000 tick=5 len=3600000 days=0 under=0\n";

/// However short the output room, a call is never refused: it is full and takes nothing, or has room enough.
#[test]
fn a_short_room_is_full() {
    let clock = b"t=5 do=clock\n";
    for length in [0, 1, 80, 81, LINE - 1] {
        assert_eq!(called(raw::feed, b"", SETTINGS_LINE, length), (1, [0, 0], vec![]));
        assert_eq!(called(raw::end, b"", b"", length), (1, [0, 0], vec![]));
    }
    for length in [0, LINE, TEXT - 1] {
        assert_eq!(called(raw::feed, SETTINGS_LINE, clock, length), (1, [0, 0], vec![]));
        assert_eq!(called(raw::end, SETTINGS_LINE, clock, length), (1, [0, 0], vec![]));
        assert_eq!(called(raw::feed, SETTINGS_LINE, b"", length), (0, [0, 0], vec![]));
    }
    // settings print a line at most, and a run that is over nothing
    assert_eq!(called(raw::feed, b"", SETTINGS_LINE, LINE), (0, [SETTINGS_LINE.len(), 0], vec![]));
    assert_eq!(called(raw::feed, b"x", clock, 0), (2, [0, 0], vec![]));
    // refused settings end the run, and that is what is answered, whatever follows and however much room is left
    let refused = [b"cat=gems base=0 close=10000 settle=10000 tick=5 len=3600000 days=0 under=0\n", &clock[..]].concat();
    for length in [LINE, TEXT, TEXT + 10, TEXT + 20, TEXT + 30] {
        let (stop, [used, _], printed) = called(raw::feed, b"", &refused, length);
        assert_eq!((stop, used, &printed[..]), (2, refused.len() - clock.len(), &b"say=bad code=12 at=0\n"[..]));
    }
}

/// What the end alone prints for a whole input.
fn ended(input: &[u8]) -> Vec<u8> {
    let mut rng = Rng(82);
    let mut run = vec![0; RUN];
    let [mut buys, mut sells, mut room] = [TABLE, TABLE, ROOM].map(|length| rng.garbage(length));
    let (mut counts, mut out, mut at, mut printed) = ([0; COUNTS], vec![0; TEXT], 0, Vec::new());
    raw::start(&mut run);
    loop {
        let answer = raw::end(&mut run, &input[at..], &mut buys, &mut sells, &mut room, &mut out, &mut counts);
        at += counts[0] as usize;
        printed.extend_from_slice(&out[..counts[1] as usize]);
        if raw::count(answer) == 2 {
            return printed;
        }
    }
}

/// The end takes whatever bytes it is handed, with no call before it: whole lines, the start of one, or none.
#[test]
fn the_end_answers_any_bytes() {
    let ends = |started: &[u8], bytes: &[u8], text: &[u8]| {
        let (stop, _, printed) = called(raw::end, started, bytes, 2 * TEXT);
        assert_eq!((stop, String::from_utf8_lossy(&printed)), (2, String::from_utf8_lossy(text)));
    };
    ends(b"", b"", b"say=bad code=14 at=0\n");
    ends(b"", b"cat=ge", b"say=bad code=14 at=6\n");
    ends(b"", b"t=5 do=clock\n", b"say=bad code=15 at=0\n");
    ends(SETTINGS_LINE, b"", b"");
    ends(SETTINGS_LINE, b"t=5 do=clock", b"say=bad code=14 at=12\n");
    ends(SETTINGS_LINE, b"t=5 do=clocks", b"say=bad code=15 at=12\n");
    ends(SETTINGS_LINE, b"nothing", b"say=bad code=15 at=0\n");
    ends(SETTINGS_LINE, b"t=9 do=clock\nt=5 do=clock\nt=", b"t=5 say=refuse code=5\nsay=bad code=14 at=2\n");
    ends(b"x", b"t=5 do=clock\n", b"");
    for seed in 0..60 {
        let input = day(20_000 + seed, STYLES[seed as usize % STYLES.len()]);
        let at = Rng(seed).below(input.len() as u64) as usize;
        for cut in [&input[..], &input[..at]] {
            assert!(ended(cut) == printed_by_plain(cut), "seed {seed}");
        }
    }
}

/// Numbers that are no run's take no byte and print none.
#[test]
fn no_run_is_over() {
    let mut rng = Rng(80);
    let input = day(4, Style::Busy);
    let layouts = [0, 6, LAYOUT - 1, LAYOUT + 1].map(|layout| (1 + at::LAYOUT, layout));
    for (place, number) in [(0, 3), (0, u64::MAX), (1 + at::SETTINGS, 8), (1 + at::CLOSED, 2)].into_iter().chain(layouts) {
        let mut run = unopened(1);
        run[place] = number;
        let [mut buys, mut sells, mut room] = [TABLE, TABLE, ROOM].map(|length| rng.garbage(length));
        let mut counts = [9; COUNTS];
        let mut out = vec![7; TEXT];
        let answer = raw::feed(&mut run.clone(), &input, &mut buys, &mut sells, &mut room, &mut out, &mut counts);
        assert_eq!((answer, counts), (512, [0, 0]));
        counts = [9; COUNTS];
        let end = raw::end(&mut run, &input, &mut buys, &mut sells, &mut room, &mut out, &mut counts);
        assert_eq!((end, counts), (512, [0, 0]));
        assert!(run == unopened(2) && out.iter().all(|&byte| byte == 7));
    }
}

/// A day as text, its events made while the plain engine plays them.
fn day(seed: u64, style: Style) -> Vec<u8> {
    let mut rng = Rng(seed);
    let mut line = [0; LINE];
    let mut text = Vec::new();
    let mut day = Day::blank(&mut rng);
    let settings = settings(&mut rng);
    let length = lines::write_settings(&settings, &mut line).unwrap();
    text.extend_from_slice(&line[..length]);
    assert_eq!(plain::runs::open(&settings.to_run(), &mut day.session), 0);
    let count = rng.within(1, 200);
    for at in 0..count {
        let event = if at + 1 == count { closing(&mut rng, &day) } else { event(&mut rng, style, &day) };
        plain::runs::apply(&mut day.session, &event.to_run(), &mut day.buys, &mut day.sells, &mut day.room);
        if let Ok(length) = lines::write_event(&event, &mut line) {
            text.extend_from_slice(&line[..length]);
        }
    }
    text
}

#[test]
fn the_two_print_the_same() {
    let mut rng = Rng(5);
    let (mut lines, mut bad) = (0, 0);
    for seed in 0..1_200 {
        let mut input = day(10_000 + seed, STYLES[seed as usize % STYLES.len()]);
        if seed % 3 == 0 {
            let at = rng.below(input.len() as u64) as usize;
            match rng.below(5) {
                0 => input.truncate(at),
                1 => input[at] = rng.pick(b"0123456789 =\nabcdeglmopstuy\xff"),
                2 => input.insert(at, rng.pick(b"0123456789 =\nabcdeglmopstuy\xff")),
                3 => {
                    input.remove(at);
                }
                _ => {
                    let copy = input.clone();
                    input.extend_from_slice(&copy);
                }
            }
        }
        let expected = printed_by_plain(&input);
        let printed = printed_by_desk(&input);
        assert!(
            printed == expected,
            "seed {seed}\n{}\n--- the library\n{}\n--- the plain engine\n{}",
            String::from_utf8_lossy(&input),
            String::from_utf8_lossy(&printed),
            String::from_utf8_lossy(&expected),
        );
        let pieces = random_pieces(&input, &mut rng);
        let in_pieces = fed_in_pieces(&mut pieces.iter().copied(), ROOMS[seed as usize % ROOMS.len()], &mut Rng(seed));
        assert!(in_pieces == expected, "seed {seed} in pieces");
        lines += expected.iter().filter(|&&byte| byte == b'\n').count();
        bad += usize::from(expected.windows(7).any(|word| word == b"say=bad"));
    }
    println!("{lines} lines printed by both, {bad} runs ended by a bad line");
    assert!(bad > 100);
}
