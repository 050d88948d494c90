//! How fast the proved library is beside the plain engine: same inputs, one run, turn about. Medians of many rounds, in
//! nanoseconds a call; the ratio is plain/desk, so 1.00 is as fast and more is faster. Then, in the same way, the library's resume
//! beside the library's own calls that read and apply the same lines one by one.
//!
//! `bench WORD` runs the races that have the word in their name. `bench desk NAME CALLS` or `bench plain NAME CALLS` runs one engine
//! on one race, for a profiler to watch.

use kakoludar::plain::{self, lines};
use kakoludar::terms::*;
use kakoludar::{raw, Desk};
use std::hint::black_box;
use std::time::{Duration, Instant};

/// SplitMix64.
struct Rng(u64);

impl Rng {
    fn below(&mut self, n: u64) -> u64 {
        self.0 = self.0.wrapping_add(0x9e37_79b9_7f4a_7c15);
        let mut z = self.0;
        z = (z ^ (z >> 30)).wrapping_mul(0xbf58_476d_1ce4_e5b9);
        z = (z ^ (z >> 27)).wrapping_mul(0x94d0_49bb_1331_11eb);
        (z ^ (z >> 31)) % n
    }
}

/// A day in the plain engine's form.
#[derive(Clone)]
struct Day {
    session: plain::Session,
    buys: [u64; TABLE],
    sells: [u64; TABLE],
}

impl Day {
    fn apply(&mut self, room: &mut [u64], event: &Event) -> usize {
        plain::apply(&mut self.session, event, &mut self.buys, &mut self.sells, room).expect("accepted")
    }
}

fn settings() -> Settings {
    Settings {
        category: Category::Energy,
        base: 10_000,
        close: 10_000,
        settle: 10_000,
        tick: 5,
        length: 21_600_000,
        days: 30,
        under: 9_900,
    }
}

fn limit(time: u64, side: Side, life: Life, lots: u64, price: u64) -> Event {
    Event { time, act: Act::Order { side, kind: Kind::Limit(price), life, lots } }
}

/// Some trades, so that the last ten are there.
fn trades() -> Vec<Event> {
    let trade = |i| [limit(i, Side::Sell, Life::Day, 2, 10_000), limit(i, Side::Buy, Life::Ioc, 2, 10_000)];
    (0..12).flat_map(trade).collect()
}

/// So many orders a side that rest.
fn resting(depth: u64) -> Vec<Event> {
    let mut rng = Rng(depth);
    let mut pair = |i| {
        let away = if i == 0 { 0 } else { rng.below(119) };
        let buy = limit(1_000 + i, Side::Buy, Life::Day, 5_000, 9_995 - 5 * away);
        [buy, limit(1_000 + i, Side::Sell, Life::Day, 5_000, 10_005 + 5 * away)]
    };
    (0..depth).flat_map(&mut pair).collect()
}

/// A book with so many orders a side, after `given` orders in all.
fn book(depth: u64, given: u64) -> Day {
    let mut room = [0; ROOM];
    let mut day =
        Day { session: plain::Session::open(settings()).expect("good settings"), buys: [0; TABLE], sells: [0; TABLE] };
    for event in trades() {
        day.apply(&mut room, &event);
    }
    day.session.given = given.max(day.session.given);
    for event in resting(depth) {
        day.apply(&mut room, &event);
    }
    day
}

/// Sixty-four events that leave the book as deep as it was: two orders rest and are cancelled again, two trade, time goes on.
fn mix(day: &Day) -> Vec<Event> {
    let mut day = day.clone();
    let mut rng = Rng(9);
    let mut room = [0; ROOM];
    let mut events = Vec::new();
    let mut time = day.session.time;
    for turn in 0..8 {
        time += 500;
        let mut say = |event: Event, day: &mut Day| {
            day.apply(&mut room, &event);
            events.push(event);
            day.session.given
        };
        let buy = say(limit(time, Side::Buy, Life::Day, 7, 9_990 - 5 * rng.below(100)), &mut day);
        let sell = say(limit(time, Side::Sell, Life::Day, 7, 10_010 + 5 * rng.below(100)), &mut day);
        say(limit(time, Side::Buy, Life::Ioc, 3, 10_005), &mut day);
        say(Event { time, act: Act::Cancel { id: buy } }, &mut day);
        time += 300;
        let market = Act::Order { side: Side::Sell, kind: Kind::Market, life: Life::Ioc, lots: 3 };
        say(Event { time, act: market }, &mut day);
        say(Event { time, act: Act::Cancel { id: sell } }, &mut day);
        if turn % 4 == 3 {
            time += 60_000;
        }
        say(Event { time, act: Act::Clock }, &mut day);
        say(Event { time, act: Act::Under { price: 9_900 + turn } }, &mut day);
    }
    events
}

/// A day's text: two hundred events, some sixty orders a side in the end. It is short so that a round ends before another program
/// gets the processor.
fn text() -> Vec<u8> {
    let mut rng = Rng(4);
    let mut line = [0; LINE];
    let mut out = Vec::new();
    let length = lines::write_settings(&settings(), &mut line).expect("written");
    out.extend_from_slice(&line[..length]);
    for i in 0..200u64 {
        let side = if rng.below(2) == 0 { Side::Buy } else { Side::Sell };
        let price = match side {
            Side::Buy => 10_010 - 5 * rng.below(60),
            Side::Sell => 9_990 + 5 * rng.below(60),
        };
        let event = match rng.below(10) {
            0 => Event { time: 900 * i, act: Act::Cancel { id: 1 + rng.below(i + 1) } },
            1 => Event { time: 900 * i, act: Act::Order { side, kind: Kind::Market, life: Life::Ioc, lots: 3 } },
            _ => limit(900 * i, side, Life::Day, 1 + rng.below(9), price),
        };
        let length = lines::write_event(&event, &mut line).expect("written");
        out.extend_from_slice(&line[..length]);
    }
    let end = Event { time: 21_600_000, act: Act::Close { settle: 10_000 } };
    let length = lines::write_event(&end, &mut line).expect("written");
    out.extend_from_slice(&line[..length]);
    out
}

/// The saved lines of a day: so many orders a side come to rest, then it goes on for long with the book as deep.
fn saved(depth: u64) -> Vec<u8> {
    let mut day = book(depth, 0);
    let mut room = [0; ROOM];
    let mut events = [trades(), resting(depth)].concat();
    for _ in 0..20 {
        let more = mix(&day);
        for event in &more {
            day.apply(&mut room, event);
        }
        events.extend(more);
    }
    let mut lines = written(|line| lines::write_settings(&settings(), line).expect("written"));
    for event in &events {
        lines.extend(written(|line| lines::write_event(event, line).expect("written")));
    }
    lines
}

/// One thing that the library does, and what it is raced with, most often the plain engine; a call of either does it `per` times.
struct Race {
    name: &'static str,
    per: usize,
    desk: Box<dyn FnMut()>,
    beside: Box<dyn FnMut()>,
}

fn apply_race(name: &'static str, depth: u64, given: u64) -> Race {
    let day = book(depth, given);
    let events = mix(&day);
    let runs: Vec<[u64; EVENT]> = events.iter().map(Event::to_run).collect();
    let start = (day.session.to_run(), day.buys, day.sells);
    let mut room = [0; ROOM];
    let per = events.len();
    let desk = Box::new(move || {
        let (mut session, mut buys, mut sells) = start;
        for run in &runs {
            let answer = raw::apply(&mut session, black_box(run), &mut buys, &mut sells, &mut room);
            assert!(raw::code(answer) == 0);
        }
        black_box((&session, &buys, &sells));
    });
    let mut room = [0; ROOM];
    let plain = Box::new(move || {
        let mut now = day.clone();
        for event in &events {
            let answer = plain::apply(&mut now.session, black_box(event), &mut now.buys, &mut now.sells, &mut room);
            assert!(answer.is_ok());
        }
        black_box(&now);
    });
    Race { name, per, desk, beside: plain }
}

fn sound_race(name: &'static str, depth: u64, given: u64) -> Race {
    let day = book(depth, given);
    let session = day.session.to_run();
    let (buys, sells) = (day.buys, day.sells);
    let desk = Box::new(move || {
        for _ in 0..64 {
            assert!(raw::sound(black_box(&session), black_box(&buys), black_box(&sells)) == 1);
        }
    });
    let plain = Box::new(move || {
        for _ in 0..64 {
            assert!(black_box(&day.session).sound(black_box(&day.buys), black_box(&day.sells)));
        }
    });
    Race { name, per: 64, desk, beside: plain }
}

fn written(mut write: impl FnMut(&mut [u8]) -> usize) -> Vec<u8> {
    let mut line = [0; LINE];
    let length = write(&mut line);
    line[..length].to_vec()
}

fn reading_race() -> Race {
    let texts: Vec<Vec<u8>> =
        mix(&book(150, 0)).iter().map(|event| written(|line| lines::write_event(event, line).expect("written"))).collect();
    let per = texts.len();
    let again = texts.clone();
    let mut run = [0; EVENT];
    let desk = Box::new(move || {
        for text in &texts {
            let answer = raw::read_event(black_box(text), &mut run);
            assert!(raw::code(answer) == 0);
            black_box(&run);
        }
    });
    let plain = Box::new(move || {
        for text in &again {
            let answer = lines::read_event(black_box(text));
            assert!(answer.is_ok());
            let _ = black_box(answer);
        }
    });
    Race { name: "read an event line", per, desk, beside: plain }
}

fn settings_reading_race() -> Race {
    let text = written(|line| lines::write_settings(&settings(), line).expect("written"));
    let again = text.clone();
    let mut run = [0; SETTINGS];
    let desk = Box::new(move || {
        for _ in 0..64 {
            assert!(raw::code(raw::read_settings(black_box(&text), &mut run)) == 0);
            black_box(&run);
        }
    });
    let plain = Box::new(move || {
        for _ in 0..64 {
            let answer = lines::read_settings(black_box(&again));
            assert!(answer.is_ok());
            let _ = black_box(answer);
        }
    });
    Race { name: "read a settings line", per: 64, desk, beside: plain }
}

fn report_writing_race() -> Race {
    // the reports of a mix
    let mut day = book(150, 0);
    let mut room = [0; ROOM];
    let mut records: Vec<[u64; RECORD]> = Vec::new();
    for event in mix(&day.clone()) {
        let count = day.apply(&mut room, &event);
        records.extend_from_slice(&room.as_chunks().0[..count]);
    }
    let per = records.len();
    let again = records.clone();
    let mut line = [0; LINE];
    let desk = Box::new(move || {
        for record in &records {
            assert!(raw::code(raw::write_report(black_box(record), &mut line)) == 0);
            black_box(&line);
        }
    });
    let plain = Box::new(move || {
        for record in &again {
            assert!(lines::write_report(black_box(record), &mut line).is_ok());
            black_box(&line);
        }
    });
    Race { name: "write a report line", per, desk, beside: plain }
}

fn event_writing_race() -> Race {
    let events = mix(&book(150, 0));
    let runs: Vec<[u64; EVENT]> = events.iter().map(Event::to_run).collect();
    let per = events.len();
    let mut line = [0; LINE];
    let desk = Box::new(move || {
        for run in &runs {
            assert!(raw::code(raw::write_event(black_box(run), &mut line)) == 0);
            black_box(&line);
        }
    });
    let plain = Box::new(move || {
        for event in &events {
            assert!(lines::write_event(black_box(event), &mut line).is_ok());
            black_box(&line);
        }
    });
    Race { name: "write an event line", per, desk, beside: plain }
}

/// Text in and text out, a day at once, by `kakoludar_feed`.
fn text_race() -> Race {
    let input = text();
    let per = lines_of(&input);
    let again = input.clone();
    let mut out = Vec::with_capacity(1 << 20);
    let mut day = Desk::new();
    let desk = Box::new(move || {
        out.clear();
        day.restart();
        day.feed(black_box(&input), &mut out);
        day.end(&mut out);
        black_box(&out);
    });
    let mut out = Vec::with_capacity(1 << 20);
    let plain = Box::new(move || {
        out.clear();
        plain::text::run(black_box(&again), &mut out);
        black_box(&out);
    });
    Race { name: "text in, text out, a line", per, desk, beside: plain }
}

/// How many lines some text has.
fn lines_of(text: &[u8]) -> usize {
    text.iter().filter(|&&byte| byte == b'\n').count()
}

/// The library comes back from saved lines.
fn come_back(saved: &[u8], day: &mut Memory) {
    let mut place = [0; PLACE];
    let answer = raw::resume(black_box(saved), &mut day.session, &mut day.buys, &mut day.sells, &mut place);
    assert!((answer, place[0] as usize) == (0, saved.len()));
    black_box(day);
}

/// What the library is lent for a day.
struct Memory {
    session: [u64; SESSION],
    buys: [u64; TABLE],
    sells: [u64; TABLE],
    room: [u64; ROOM],
}

impl Memory {
    fn new() -> Box<Memory> {
        Box::new(Memory { session: [0; SESSION], buys: [0; TABLE], sells: [0; TABLE], room: [0; ROOM] })
    }
}

/// Coming back, in both engines.
fn resume_race(name: &'static str, depth: u64) -> Race {
    let lines = saved(depth);
    let again = lines.clone();
    let mut day = Memory::new();
    let per = lines_of(&lines);
    let desk = Box::new(move || come_back(&lines, &mut day));
    let mut day = Memory::new();
    let plain = Box::new(move || {
        let back = plain::saved::resume(black_box(&again), &mut day.buys, &mut day.sells).expect("a day's lines");
        assert!(back.counted == again.len());
        black_box((&back, &day));
    });
    Race { name, per, desk, beside: plain }
}

/// Coming back beside reading and applying each line by a call of its own, both in the library.
fn replay_race(name: &'static str, depth: u64) -> Race {
    let lines = saved(depth);
    let again = lines.clone();
    let mut day = Memory::new();
    let per = lines_of(&lines);
    let desk = Box::new(move || come_back(&lines, &mut day));
    let mut day = Memory::new();
    let calls = Box::new(move || {
        let (mut settings, mut event) = ([0; SETTINGS], [0; EVENT]);
        let mut at = raw::count(raw::read_settings(black_box(&again), &mut settings)) as usize;
        assert!(raw::open(&settings, &mut day.session) == 0);
        while at < again.len() {
            let read = raw::read_event(black_box(&again[at..]), &mut event);
            at += raw::count(read) as usize;
            let answer = raw::apply(&mut day.session, &event, &mut day.buys, &mut day.sells, &mut day.room);
            assert!((raw::code(read), raw::code(answer)) == (0, 0));
        }
        black_box(&day);
    });
    Race { name, per, desk, beside: calls }
}

fn median(times: &mut [f64]) -> f64 {
    times.sort_by(f64::total_cmp);
    times[times.len() / 2]
}

fn run(race: &mut Race, rounds: usize) {
    let time = |work: &mut dyn FnMut(), per: usize| {
        // enough calls for a round of some 100 microseconds
        let start = Instant::now();
        let mut calls = 0;
        while calls == 0 || start.elapsed() < Duration::from_micros(100) {
            work();
            calls += 1;
        }
        start.elapsed().as_nanos() as f64 / (calls * per) as f64
    };
    let mut desk = Vec::with_capacity(rounds);
    let mut beside = Vec::with_capacity(rounds);
    for _ in 0..rounds {
        desk.push(time(&mut *race.desk, race.per));
        beside.push(time(&mut *race.beside, race.per));
    }
    let (desk, beside) = (median(&mut desk), median(&mut beside));
    println!("{:34} {:>9.1} {:>9.1} {:>7.2}", race.name, desk, beside, beside / desk);
}

/// The races that have a word in their name, below a line that says what is raced.
fn run_all(races: &mut [Race], word: &str, heading: [&str; 2]) {
    println!("{:34} {:>9} {:>9} {:>7}", "", heading[0], heading[1], "ratio");
    for race in races.iter_mut().filter(|race| race.name.contains(word)) {
        run(race, 401);
    }
}

fn main() {
    let mut races = [
        apply_race("apply, 150 orders a side", 150, 0),
        apply_race("apply, 150 a side, 50,000 given", 150, 50_000),
        apply_race("apply, 3 orders a side", 3, 0),
        sound_race("sound, 150 orders a side", 150, 0),
        sound_race("sound, 150 a side, 50,000 given", 150, 50_000),
        sound_race("sound, 3 orders a side", 3, 0),
        settings_reading_race(),
        reading_race(),
        event_writing_race(),
        report_writing_race(),
        text_race(),
        resume_race("resume, 150 orders a side, a line", 150),
        resume_race("resume, 3 orders a side, a line", 3),
    ];
    let mut replays = [replay_race("resume and calls, 150 a side", 150), replay_race("resume and calls, 3 a side", 3)];
    let words: Vec<String> = std::env::args().skip(1).collect();
    if let [engine, name, calls] = &words[..] {
        let race = races.iter_mut().chain(&mut replays).find(|race| race.name == name).expect("a race of that name");
        let work = if engine == "desk" { &mut race.desk } else { &mut race.beside };
        for _ in 0..calls.parse::<usize>().expect("a number") / race.per {
            work();
        }
        return;
    }
    let word = words.first().map_or("", String::as_str);
    run_all(&mut races, word, ["desk ns", "plain ns"]);
    run_all(&mut replays, word, ["desk ns", "calls ns"]);
}
