//! The proved library and the plain engine on the same sessions, events, tables and rooms: every number afterwards must agree.

mod common;

use common::*;
use kakoludar::plain::runs as plain;
use kakoludar::raw as desk;
use kakoludar::terms::*;

/// What was met.
#[derive(Default)]
struct Tally {
    events: u64,
    accepted: u64,
    soundness: u64,
    unsound: u64,
    openings: u64,
    views: u64,
    /// Standings by their answer.
    standings: [u64; 3],
    refusals: [u64; 18],
    kinds: [u64; 8],
    whys: [u64; 6],
    /// How often the close price came from the half hour, the last ten, the last trade, the previous close.
    closes: [u64; 4],
    deepest: u64,
}

#[track_caller]
fn same(what: &str, desk: &[u64], plain: &[u64], given: &Day, event: &[u64]) {
    if let Some(at) = (0..desk.len()).find(|&i| desk[i] != plain[i]) {
        panic!(
            "{what}: number {at} is {} in the library, {} in the plain engine\nevent {event:?}\nsession {:?}\nbuys {:?}\nsells {:?}\nlengths {} {} {} {}",
            desk[at],
            plain[at],
            given.session,
            given.orders().0,
            given.orders().1,
            given.session.len(),
            given.buys.len(),
            given.sells.len(),
            given.room.len(),
        );
    }
}

/// Applies an event in both engines, compares everything, and leaves the day as it is afterwards.
fn apply(day: &mut Day, event: &[u64], tally: &mut Tally) -> u64 {
    let given = day.clone();
    let mut other = day.clone();
    let answer = desk::apply(&mut day.session, event, &mut day.buys, &mut day.sells, &mut day.room);
    let expected = plain::apply(&mut other.session, event, &mut other.buys, &mut other.sells, &mut other.room);
    same("answer", &[answer], &[expected], &given, event);
    same("session", &day.session, &other.session, &given, event);
    same("buys", &day.buys, &other.buys, &given, event);
    same("sells", &day.sells, &other.sells, &given, event);
    same("room", &day.room, &other.room, &given, event);
    tally.events += 1;
    let (code, count) = (desk::code(answer), desk::count(answer));
    tally.refusals[code as usize] += 1;
    if code == 0 {
        tally.accepted += 1;
        tally.deepest = tally.deepest.max(day.session[at::BUYS].max(day.session[at::SELLS]));
        for record in &day.room.as_chunks::<RECORD>().0[..count as usize] {
            tally.kinds[record[0] as usize] += 1;
            if record[0] == 4 {
                tally.whys[record[4] as usize] += 1;
            }
            if record[0] == 7 {
                let case = match (day.session[at::HALF_COUNT], day.session[at::TRADES]) {
                    (10.., _) => 0,
                    (_, 10..) => 1,
                    (_, 1..) => 2,
                    _ => 3,
                };
                tally.closes[case] += 1;
            }
        }
    }
    answer
}

/// Where the day stands in both engines: every number of a standing of some length.
fn stand(day: &Day, length: usize, tally: &mut Tally) {
    let mut stood = vec![BLANK; length];
    let mut other = stood.clone();
    let answer = desk::standing(&day.session, &day.buys, &day.sells, &mut stood);
    let expected = plain::standing(&day.session, &day.buys, &day.sells, &mut other);
    assert_eq!((answer, &stood), (expected, &other), "session {:?}", day.session);
    // it is refused just where the session is not sound, and then writes nothing
    let short = day.session.len() < SESSION || day.buys.len() < TABLE || day.sells.len() < TABLE || length < STANDING;
    let sound = desk::sound(&day.session, &day.buys, &day.sells) == 1;
    assert_eq!(answer, if short { 1 } else { 2 * u64::from(!sound) });
    let written = if answer == 0 { STANDING } else { 0 };
    assert!(stood[written..].iter().all(|&number| number == BLANK));
    tally.standings[answer as usize] += 1;
}

/// What no call writes.
const BLANK: u64 = 0xa5a5_a5a5_a5a5_a5a5;

/// Soundness, both views and the standing in both engines.
fn look(day: &Day, tally: &mut Tally) {
    stand(day, STANDING + tally.standings[0] as usize % 3, tally);
    if tally.standings[0].is_multiple_of(50) {
        for length in [0, 1, STANDING - 1] {
            stand(day, length, tally);
        }
    }
    let sound = desk::sound(&day.session, &day.buys, &day.sells);
    same("sound", &[sound], &[plain::sound(&day.session, &day.buys, &day.sells)], day, &[]);
    tally.soundness += 1;
    tally.unsound += u64::from(sound == 0);
    for side in [0, 1, 2, 3, u64::MAX] {
        let view = desk::view(side, &day.session, &day.buys, &day.sells);
        same("view", &[view], &[plain::view(side, &day.session, &day.buys, &day.sells)], day, &[side]);
        tally.views += 1;
    }
}

fn open(settings: &[u64], session: &mut [u64], tally: &mut Tally) -> u64 {
    let mut other = session.to_vec();
    let answer = desk::open(settings, session);
    let expected = plain::open(settings, &mut other);
    assert_eq!(answer, expected, "opening {settings:?}");
    assert_eq!(session, other, "opening {settings:?}");
    tally.openings += 1;
    tally.refusals[desk::code(answer) as usize] += 1;
    answer
}

/// One day from opening to after its close, with damaged copies tried on the way.
fn play(seed: u64, style: Style, length: usize, trials: u64, tally: &mut Tally) {
    let mut rng = Rng(seed);
    let mut day = Day::blank(&mut rng);
    let settings = settings(&mut rng);
    assert_eq!(open(&settings.to_run(), &mut day.session, tally), 0, "{settings:?}");
    if rng.chance(12) {
        // late in a long day: many orders given, many trades made
        let trades = rng.pick(&[9_000, 59_700, 59_744, 59_745, 60_000]);
        day.session[at::GIVEN] = rng.pick(&[1_000, 8_190, 30_000, 59_990, 60_000]);
        day.session[at::TRADES] = trades;
        let band = day.plain().band();
        for i in 0..10 {
            day.session[at::PRICES + i] = rng.pick(&[band.0, band.1, settings.base, settings.tick]);
            day.session[at::SIZES + i] = rng.within(1, 10_000);
        }
    }
    let mut style = style;
    for _ in 0..length {
        if rng.below(1_000) < 4 {
            style = rng.pick(&STYLES);
        }
        let event = event(&mut rng, style, &day).to_run();
        for _ in 0..trials {
            trial(&mut rng, style, &day, &event, tally);
        }
        if rng.chance(3) {
            spill(&mut rng, &mut day);
        }
        apply(&mut day, &event, tally);
        if rng.chance(10) {
            look(&day, tally);
        }
    }
    if rng.chance(95) {
        let last = closing(&mut rng, &day).to_run();
        let already = day.session[at::CLOSED];
        assert_eq!(desk::code(apply(&mut day, &last, tally)), 3 * already);
        look(&day, tally);
        for _ in 0..3 {
            let event = event(&mut rng, style, &day).to_run();
            apply(&mut day, &event, tally);
            trial(&mut rng, style, &day, &event, tally);
        }
    }
}

/// Garbage behind the live parts and in the room.
fn spill(rng: &mut Rng, day: &mut Day) {
    let (buys, sells) = (3 * day.session[at::BUYS] as usize, 3 * day.session[at::SELLS] as usize);
    for number in day.buys[buys..].iter_mut().chain(&mut day.sells[sells..]).chain(&mut day.room) {
        *number = rng.next();
    }
}

/// Something wrong with a copy of the day or with the event, in both engines.
fn trial(rng: &mut Rng, style: Style, day: &Day, event: &[u64], tally: &mut Tally) {
    let mut copy = day.clone();
    let mut event = event.to_vec();
    if rng.chance(15) {
        event = closing(rng, day).to_run().to_vec();
    }
    match rng.below(20) {
        0..=7 => damage_session(rng, &mut copy),
        8..=13 => damage_tables(rng, &mut copy),
        14 => {
            damage_tables(rng, &mut copy);
            damage_session(rng, &mut copy);
        }
        15 => damage_lengths(rng, &mut copy),
        16 => {
            damage_session(rng, &mut copy);
            damage_lengths(rng, &mut copy);
        }
        17 => event = any_event_run(rng),
        18 => event = common::event(rng, Style::Wrong, day).to_run().to_vec(),
        _ => {
            event = closing(rng, day).to_run().to_vec();
            if style == Style::Wrong {
                spill(rng, &mut copy);
            }
        }
    }
    look(&copy, tally);
    apply(&mut copy, &event, tally);
}

#[test]
fn the_two_engines_agree_on_sessions() {
    let mut tally = Tally::default();
    for seed in 0..600 {
        let style = STYLES[seed as usize % STYLES.len()];
        let length = match seed % 7 {
            0 => 12,
            1 => 30,
            2 => 400,
            _ => 120,
        };
        play(seed, style, length, 3, &mut tally);
    }
    // full books
    for seed in 1_000..1_030 {
        play(seed, Style::Deep, 1_200, 1, &mut tally);
    }
    // long days
    for seed in 2_000..2_006 {
        play(seed, [Style::Busy, Style::Market][seed as usize % 2], 12_000, 0, &mut tally);
    }
    // nothing but garbage
    let mut rng = Rng(3_000);
    for _ in 0..2_000 {
        let mut day = Day::blank(&mut rng);
        if rng.chance(50) {
            damage_lengths(&mut rng, &mut day);
        }
        let event = any_event_run(&mut rng);
        look_anyhow(&day, &mut tally);
        apply(&mut day, &event, &mut tally);
    }
    println!(
        "{} events, {} accepted; {} soundness checks, {} not sound; {} views",
        tally.events, tally.accepted, tally.soundness, tally.unsound, tally.views
    );
    print_counts("refusals", &tally.refusals);
    print_counts("reports by kind", &tally.kinds);
    print_counts("cancels by why", &tally.whys);
    println!("closes by half hour, last ten, last trade, previous close: {:?}", tally.closes);
    println!("standings given, refused by 1, refused by 2: {:?}", tally.standings);
    assert!(tally.standings.iter().all(|&count| count > 500), "standings of a kind were not met");
    let [events, standings] = [tally.events, tally.standings.iter().sum()].map(grouped);
    let said = format!("{events} events and {standings} standings");
    assert!(include_str!("../../README.md").contains(&said), "README.md does not say: {said}");
    for refusal in 1..=11 {
        assert!(tally.refusals[refusal] > 0, "refusal {refusal} was not met");
    }
    for kind in 1..=7 {
        assert!(tally.kinds[kind] > 0, "report kind {kind} was not met");
    }
    for why in 1..=5 {
        assert!(tally.whys[why] > 0, "why {why} was not met");
    }
    assert!(tally.closes.iter().all(|&count| count > 0), "a case of the close was not met");
    assert!(tally.events >= 100_000);
    assert_eq!(tally.deepest, 256);
}

/// A number with a comma before each three digits.
fn grouped(number: u64) -> String {
    match number {
        0..1_000 => number.to_string(),
        _ => format!("{},{:03}", grouped(number / 1_000), number % 1_000),
    }
}

/// As `look`, for days whose session may be shorter than a session.
fn look_anyhow(day: &Day, tally: &mut Tally) {
    let sound = desk::sound(&day.session, &day.buys, &day.sells);
    assert_eq!(sound, plain::sound(&day.session, &day.buys, &day.sells));
    stand(day, STANDING, tally);
    tally.soundness += 1;
    tally.unsound += u64::from(sound == 0);
}

#[test]
fn the_two_engines_agree_on_openings() {
    let mut tally = Tally::default();
    let mut rng = Rng(77);
    for _ in 0..60_000 {
        let mut run = settings(&mut rng).to_run().to_vec();
        for _ in 0..rng.below(3) {
            let at = rng.below(8) as usize;
            let tick = run[4];
            run[at] = match rng.below(6) {
                0 => run[at].wrapping_add(1),
                1 => run[at].wrapping_sub(1),
                2 => tick.wrapping_mul(rng.below(10)),
                3 => rng.next() >> rng.below(64),
                _ => rng.pick(&[
                    0,
                    1,
                    7,
                    8,
                    366,
                    367,
                    10_000,
                    10_001,
                    3_599_999,
                    3_600_000,
                    50_000_000,
                    50_000_001,
                    86_400_000,
                    86_400_001,
                    100_000_000,
                    100_000_001,
                    u64::MAX,
                ]),
            };
        }
        run.resize(if rng.chance(90) { SETTINGS } else { rng.pick(&[9, 7, 0]) }, 3);
        let length = if rng.chance(90) { SESSION } else { rng.pick(&[SESSION + 1, SESSION - 1, 0]) };
        let mut session = rng.garbage(length);
        open(&run, &mut session, &mut tally);
    }
    println!("{} openings", tally.openings);
    print_counts("refusals of openings", &tally.refusals);
    for refusal in [1, 12, 13] {
        assert!(tally.refusals[refusal] > 0, "refusal {refusal} was not met");
    }
}
