//! The proved library and the plain engine on the same lines: what is read, what is written, every byte and number afterwards.

mod common;

use common::*;
use kakoludar::plain::runs as plain;
use kakoludar::raw as desk;
use kakoludar::terms::*;

#[derive(Default)]
struct Tally {
    settings_read: u64,
    events_read: u64,
    written: u64,
    refusals: [u64; 18],
    /// The places where lines were wrong.
    places: std::collections::BTreeSet<u64>,
}

type Reader = fn(&[u8], &mut [u64]) -> u64;
type Writer = fn(&[u64], &mut [u8]) -> u64;

fn read(desk: Reader, plain: Reader, line: &[u8], run: &[u64], tally: &mut Tally) -> u64 {
    let mut mine = run.to_vec();
    let mut other = run.to_vec();
    let answer = desk(line, &mut mine);
    let expected = plain(line, &mut other);
    assert_eq!(answer, expected, "reading {:?} into {} numbers", String::from_utf8_lossy(line), run.len());
    assert_eq!(mine, other, "reading {:?}", String::from_utf8_lossy(line));
    tally.refusals[desk::code(answer) as usize] += 1;
    if desk::code(answer) == 15 {
        tally.places.insert(desk::count(answer));
    }
    answer
}

fn write(desk: Writer, plain: Writer, run: &[u64], room: &[u8], tally: &mut Tally) -> u64 {
    let mut mine = room.to_vec();
    let mut other = room.to_vec();
    let answer = desk(run, &mut mine);
    let expected = plain(run, &mut other);
    assert_eq!(answer, expected, "writing {run:?} into {} bytes", room.len());
    assert_eq!(mine, other, "writing {run:?}");
    tally.written += 1;
    tally.refusals[desk::code(answer) as usize] += 1;
    answer
}

/// A number with any count of digits.
fn number(rng: &mut Rng) -> u64 {
    match rng.below(6) {
        0 => rng.below(10),
        1 => rng.pick(&[999_999_999, 1_000_000_000, 100_000_000, 99_999_999, 4_294_967_296, u64::MAX]),
        2 => rng.next() >> rng.below(64),
        _ => {
            let digits = rng.within(1, 9) as u32;
            rng.within(10u64.pow(digits - 1), 10u64.pow(digits) - 1)
        }
    }
}

fn any_settings(rng: &mut Rng) -> Vec<u64> {
    let mut run: Vec<u64> = (0..8).map(|_| number(rng)).collect();
    run[0] = if rng.chance(95) { rng.below(8) } else { rng.pick(&[8, 9, u64::MAX]) };
    if rng.chance(70) {
        run.iter_mut().for_each(|number| *number %= 1_000_000_000);
    }
    run.resize(rng.pick(&[8, 8, 8, 8, 8, 8, 8, 9, 7, 0]), 4);
    run
}

fn any_event(rng: &mut Rng) -> Vec<u64> {
    let (time, amount, price) = (number(rng), number(rng), number(rng));
    let mut run = match rng.below(8) {
        what @ (0 | 1) => vec![time, what + 1, 1, rng.within(1, 2), amount, price],
        what @ (2 | 3) => vec![time, what - 1, 2, rng.within(1, 2), amount, 0],
        4 => vec![time, 3, 0, 0, amount, 0],
        5 => vec![time, 4, 0, 0, 0, price],
        6 => vec![time, 5, 0, 0, 0, 0],
        _ => vec![time, 6, 0, 0, 0, price],
    };
    if rng.chance(70) {
        run.iter_mut().for_each(|number| *number %= 1_000_000_000);
    }
    if rng.chance(10) {
        let at = rng.below(6) as usize;
        run[at] = rng.pick(&[0, 1, 2, 3, 7, u64::MAX]);
    }
    run.resize(rng.pick(&[6, 6, 6, 6, 6, 6, 6, 6, 7, 5, 0]), 4);
    run
}

fn any_record(rng: &mut Rng) -> Vec<u64> {
    let kind = rng.within(1, 7);
    let fields = [1, 4, 3, 3, 2, 1, 2][kind as usize - 1];
    let mut run = vec![kind, number(rng)];
    for _ in 0..fields {
        run.push(number(rng));
    }
    if kind == 4 {
        run[4] = rng.within(1, 5);
    }
    run.resize(6, 0);
    if rng.chance(70) {
        run.iter_mut().for_each(|number| *number %= 1_000_000_000);
    }
    if rng.chance(15) {
        let at = rng.below(6) as usize;
        run[at] = rng.pick(&[0, 1, 4, 5, 6, 7, 8, u64::MAX]);
    }
    run.resize(rng.pick(&[6, 6, 6, 6, 6, 6, 6, 6, 7, 5, 0]), 4);
    run
}

fn room(rng: &mut Rng) -> Vec<u8> {
    let length = rng.pick(&[128, 128, 128, 128, 129, 200, 127, 0]);
    (0..length).map(|_| rng.next() as u8).collect()
}

/// A line hurt in one of many ways.
fn hurt(rng: &mut Rng, line: &[u8], other: &[u8]) -> Vec<u8> {
    let mut line = line.to_vec();
    let at = rng.below(line.len() as u64) as usize;
    let byte = if rng.chance(60) { rng.pick(b"0123456789 =\n\r\tabcdeglmopstuy") } else { rng.next() as u8 };
    match rng.below(10) {
        0 | 1 => line.truncate(at),
        2 | 3 => line[at] = byte,
        4 | 5 => line.insert(at, byte),
        6 => {
            line.remove(at);
        }
        7 => line.extend_from_slice(other),
        8 => {
            // digits piled up, or a zero in front
            if let Some(digit) = line.iter().position(u8::is_ascii_digit) {
                let more = rng.pick(&["0", "1", "123456789", "000"]);
                line.splice(digit..digit, more.bytes());
            }
        }
        _ => {
            // the head of one line and the tail of another
            line.truncate(at);
            let from = rng.below(other.len() as u64) as usize;
            line.extend_from_slice(&other[from..]);
        }
    }
    line
}

#[test]
fn the_two_engines_agree_on_lines() {
    let mut tally = Tally::default();
    let mut rng = Rng(4_242);
    let mut lines: Vec<Vec<u8>> = Vec::new();
    let mut untold = 0;
    for _ in 0..60_000 {
        let (run, writers): (Vec<u64>, (Writer, Writer)) = match rng.below(3) {
            0 => (any_settings(&mut rng), (desk::write_settings, plain::write_settings)),
            1 => (any_event(&mut rng), (desk::write_event, plain::write_event)),
            _ => (any_record(&mut rng), (desk::write_report, plain::write_report)),
        };
        let room = room(&mut rng);
        let answer = write(writers.0, writers.1, &run, &room, &mut tally);
        if desk::code(answer) == 0 {
            let mut line = room;
            writers.0(&run, &mut line);
            line.truncate(desk::count(answer) as usize);
            // six numbers that are no report's have no line
            if line.is_empty() {
                untold += 1;
                continue;
            }
            assert!(line.ends_with(b"\n") && line.len() <= 122);
            lines.push(line);
        }
    }
    assert!(lines.len() > 20_000 && untold > 100);
    for at in 0..lines.len() {
        let other = lines[rng.below(lines.len() as u64) as usize].clone();
        let line = lines[at].clone();
        for way in 0..5 {
            let mut bytes = line.clone();
            for _ in 0..way {
                if !bytes.is_empty() {
                    bytes = hurt(&mut rng, &bytes, &other);
                }
            }
            let longer = rng.pick(&[0, 0, 0, 0, 0, 3]);
            let cut = if rng.chance(4) { 1 } else { 0 };
            let run = rng.garbage(SETTINGS + longer - cut);
            let answer = read(desk::read_settings, plain::read_settings, &bytes, &run, &mut tally);
            tally.settings_read += u64::from(desk::code(answer) == 0);
            let run = rng.garbage(EVENT + longer - cut);
            let answer = read(desk::read_event, plain::read_event, &bytes, &run, &mut tally);
            tally.events_read += u64::from(desk::code(answer) == 0);
        }
    }
    // every cut of whole lines, and no bytes at all
    for line in lines.iter().take(2_000) {
        for end in 0..=line.len() {
            read(desk::read_settings, plain::read_settings, &line[..end], &[7; SETTINGS], &mut tally);
            read(desk::read_event, plain::read_event, &line[..end], &[7; EVENT], &mut tally);
        }
    }
    println!(
        "{} lines written or refused; {} settings lines and {} event lines read; wrong at {} places",
        tally.written,
        tally.settings_read,
        tally.events_read,
        tally.places.len()
    );
    print_counts("refusals of lines", &tally.refusals);
    for refusal in [1, 4, 12, 14, 15, 16, 17] {
        assert!(tally.refusals[refusal] > 0, "refusal {refusal} was not met");
    }
}

/// Every byte in every place of a line of each form.
#[test]
fn the_two_engines_agree_on_every_byte() {
    let mut tally = Tally::default();
    let lines: [&[u8]; 10] = [
        b"t=0 do=sell kind=limit life=day qty=4 price=10150\n",
        b"t=123456789 do=buy kind=limit life=ioc qty=10 price=7\n",
        b"t=1000 do=buy kind=market life=day qty=6\n",
        b"t=1000 do=sell kind=market life=ioc qty=60\n",
        b"t=961000 do=cancel id=4\n",
        b"t=5 do=under price=900\n",
        b"t=5 do=clock\n",
        b"t=3600000 do=close settle=10200\n",
        b"cat=gems base=10000 close=10000 settle=10000 tick=5 len=3600000 days=0 under=0\n",
        b"cat=sensitive base=1 close=2 settle=30 tick=1 len=86400000 days=366 under=100000000\n",
    ];
    for line in lines {
        for at in 0..line.len() {
            for byte in 0..=255 {
                let mut changed = line.to_vec();
                changed[at] = byte;
                let mut longer = line.to_vec();
                longer.insert(at, byte);
                let mut cut = line[..at].to_vec();
                cut.push(byte);
                for bytes in [changed, longer, cut] {
                    read(desk::read_settings, plain::read_settings, &bytes, &[7; SETTINGS], &mut tally);
                    read(desk::read_event, plain::read_event, &bytes, &[7; EVENT], &mut tally);
                }
            }
        }
    }
    println!("{} lines read twice", tally.refusals.iter().sum::<u64>());
}
