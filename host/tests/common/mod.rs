//! Days, events and damage for the comparisons, from fixed seeds.
#![allow(dead_code)]

pub mod back;
pub mod journal;

use kakoludar::plain;
use kakoludar::terms::*;

/// Prints how often each number was met, from 1 on.
pub fn print_counts(what: &str, counts: &[u64]) {
    let words: Vec<String> = (1..counts.len()).filter(|&i| counts[i] > 0).map(|i| format!("{i}: {}", counts[i])).collect();
    println!("{what}: {}", words.join(", "));
}

/// SplitMix64.
pub struct Rng(pub u64);

impl Rng {
    pub fn next(&mut self) -> u64 {
        self.0 = self.0.wrapping_add(0x9e37_79b9_7f4a_7c15);
        let mut z = self.0;
        z = (z ^ (z >> 30)).wrapping_mul(0xbf58_476d_1ce4_e5b9);
        z = (z ^ (z >> 27)).wrapping_mul(0x94d0_49bb_1331_11eb);
        z ^ (z >> 31)
    }

    /// A number below n.
    pub fn below(&mut self, n: u64) -> u64 {
        ((u128::from(self.next()) * u128::from(n)) >> 64) as u64
    }

    /// A number from low to high, both included.
    pub fn within(&mut self, low: u64, high: u64) -> u64 {
        if low >= high {
            low
        } else {
            low + self.below(high - low + 1)
        }
    }

    pub fn chance(&mut self, in_hundred: u64) -> bool {
        self.below(100) < in_hundred
    }

    pub fn pick<T: Copy>(&mut self, of: &[T]) -> T {
        of[self.below(of.len() as u64) as usize]
    }

    pub fn garbage(&mut self, length: usize) -> Vec<u64> {
        let dull = self.chance(50);
        (0..length).map(|_| if dull { self.below(70_000) } else { self.next() }).collect()
    }
}

/// What traders of a day are like.
#[derive(Clone, Copy, PartialEq, Eq, Debug)]
pub enum Style {
    /// Prices around the reference, many trades.
    Busy,
    /// Orders that rest, both sides up to 256.
    Deep,
    /// Trades that push the price to the ends of the band.
    Pushing,
    /// A few events a minute or less.
    Quiet,
    /// Market orders.
    Market,
    /// Everything wrong that can be.
    Wrong,
}

pub const STYLES: [Style; 6] = [Style::Busy, Style::Deep, Style::Pushing, Style::Quiet, Style::Market, Style::Wrong];

pub fn settings(rng: &mut Rng) -> Settings {
    let category = rng.pick(&Category::ALL);
    let tick = match rng.below(6) {
        0 => 1,
        1 | 3 => rng.pick(&[5, 10, 15, 25, 50]),
        2 => rng.pick(&[100, 1_000, 10_000]),
        _ => rng.within(1, 100),
    };
    let most = 50_000_000 / tick;
    let steps = match rng.below(8) {
        0 => rng.within(1, 60.min(most)),
        1 => most,
        2 => rng.within(1, most),
        _ => rng.within(200.min(most), 20_000.min(most)),
    };
    let base = steps * tick;
    let near = |rng: &mut Rng| match rng.below(12) {
        0 => tick,
        1 => 100_000_000 / tick * tick,
        2 => base + base / 10 / tick * tick,
        _ => (base * rng.within(960, 1040) / 1000 / tick * tick).max(tick),
    };
    let close = near(rng);
    let settle = near(rng);
    let length = match rng.below(6) {
        0 => 86_400_000,
        1 => rng.within(3_600_000, 86_400_000),
        2 => 5_400_000,
        _ => 3_600_000,
    };
    let days = rng.pick(&[0, 0, 1, 73, 365, 366, 17]);
    let under = match rng.below(10) {
        0..=4 => 0,
        5..=7 => fair(rng, base, days),
        8 => (base * rng.within(930, 1050) / 1000).max(1),
        _ => rng.pick(&[1, 100_000_000, 50_000_000, 7]),
    };
    Settings { category, base, close, settle, tick, length, days, under }
}

/// An underlying whose theoretical price is about the base.
fn fair(rng: &mut Rng, base: u64, days: u64) -> u64 {
    (base * rng.within(980, 1020) / 1000 * 3650 / (3650 + days)).max(1)
}

/// A day under way, with its memory as the border has it.
#[derive(Clone)]
pub struct Day {
    pub session: Vec<u64>,
    pub buys: Vec<u64>,
    pub sells: Vec<u64>,
    pub room: Vec<u64>,
}

impl Day {
    /// Memory that nobody has written yet.
    pub fn blank(rng: &mut Rng) -> Day {
        let longer = |rng: &mut Rng, least: usize| least + rng.pick(&[0, 0, 0, 1, 40]);
        let lengths = [SESSION, TABLE, TABLE, ROOM].map(|least| longer(rng, least));
        let [session, buys, sells, room] = lengths.map(|length| rng.garbage(length));
        Day { session, buys, sells, room }
    }

    pub fn plain(&self) -> plain::Session {
        plain::Session::from_run(self.session.first_chunk().unwrap())
    }

    fn live(&self, table: &[u64], count: u64) -> Vec<[u64; 3]> {
        let count = (count.min(256) as usize).min(table.len() / 3);
        table[..3 * count].as_chunks().0.to_vec()
    }

    pub fn orders(&self) -> (Vec<[u64; 3]>, Vec<[u64; 3]>) {
        (self.live(&self.buys, self.session[at::BUYS]), self.live(&self.sells, self.session[at::SELLS]))
    }
}

/// A tick multiple at or below a price, at least one tick.
fn down(price: u64, tick: u64) -> u64 {
    (price / tick * tick).max(tick)
}

fn price(rng: &mut Rng, style: Style, side: Side, s: &plain::Session, day: &Day) -> u64 {
    let tick = s.settings.tick;
    let (low, high) = s.band();
    let reach = [4, 4, 3, 6, 6, 6, 3, 6][s.settings.category as usize] * s.reference / 200;
    let (bottom, top) = (down(s.reference - reach, tick), down(s.reference + reach, tick));
    let (buys, sells) = day.orders();
    let (own, counter) = match side {
        Side::Buy => (&buys, &sells),
        Side::Sell => (&sells, &buys),
    };
    let way = match style {
        Style::Busy => rng.pick(&[0, 0, 1, 4, 4, 4, 5]),
        Style::Deep => rng.pick(&[6, 6, 6, 6, 6, 6, 6, 6, 1]),
        Style::Pushing => rng.pick(&[0, 0, 2, 2, 2, 3, 7, 7]),
        Style::Quiet => rng.pick(&[0, 0, 0, 2, 4, 5]),
        Style::Market => rng.pick(&[2, 3, 5, 6, 9, 9, 9, 10, 10, 10]),
        Style::Wrong => rng.below(11),
    };
    match way {
        // at a counter order's price, the best or another
        0 if !counter.is_empty() => counter[rng.below((counter.len() as u64).min(4)) as usize][1],
        // at an own order's price
        1 if !own.is_empty() => own[rng.below(own.len() as u64) as usize][1],
        // the ends of the range, and a step past them
        2 => rng.pick(&[bottom, top, top + tick, bottom + tick, bottom.saturating_sub(tick).max(tick)]),
        // the ends of the band, and a step past them
        3 => {
            let beyond = if style == Style::Wrong { [high + tick, low.saturating_sub(tick)] } else { [high, low] };
            rng.pick(&[low, high, high, beyond[0], beyond[1]])
        }
        // near the reference, inside the band
        4 => {
            let near = s.reference * rng.within(990, 1_010) / 1_000;
            down(near, tick).clamp(low, high)
        }
        // anywhere in the band
        5 => low + rng.within(0, (high - low) / tick) * tick,
        // on its own side of the base, so that it rests
        6 => {
            let middle = s.settings.base;
            match side {
                Side::Buy => low + rng.within(0, (middle - low) / tick) * tick,
                Side::Sell => middle + tick * rng.within(1, ((high - middle) / tick).max(1)),
            }
        }
        // as far as both range and band let it go
        7 => {
            if side == Side::Buy || rng.chance(50) {
                top.min(high)
            } else {
                bottom.max(low)
            }
        }
        8 => rng.pick(&[0, 1, low + 1, high - 1, high + 1, 100_000_000, 100_000_001, u64::MAX, down(100_000_000, tick)]),
        // where a market order that trades with the side's best first meets its mark
        9 if !own.is_empty() => {
            let best = own[0][1];
            let mark = match side {
                Side::Sell => down(best * 102 / 100, tick),
                Side::Buy => (best * 98).div_ceil(100 * tick) * tick,
            };
            rng.pick(&[mark, mark, mark, mark + tick, mark.saturating_sub(tick).max(tick)])
        }
        // near the reference, a price whose fiftieth is whole ticks, so that a mark can be met exactly
        10 => {
            let near = s.reference * rng.within(985, 1_015) / 1_000;
            down(near, 50 * tick).clamp(low, high)
        }
        _ => down(s.reference, tick).clamp(low, high),
    }
}

fn time(rng: &mut Rng, style: Style, s: &plain::Session) -> u64 {
    let t = s.time;
    let minute = (t / 60_000 + 1) * 60_000;
    let step = match style {
        Style::Busy | Style::Market => rng.pick(&[0, 0, 0, 1, 20, 500, 3_000, 20_000, 61_000]),
        Style::Deep => rng.pick(&[0, 0, 0, 0, 0, 0, 1, 10, 50]),
        Style::Pushing => rng.pick(&[0, 0, 0, 5, 10_000, 30_000, 60_000]),
        Style::Quiet => rng.pick(&[100, 30_000, 59_999, 60_000, 60_001, 200_000, 450_000]),
        Style::Wrong => rng.pick(&[0, 0, 1, 1_000, 60_000]),
    };
    match rng.below(40) {
        0 => minute,
        1 => minute - 1,
        2 if s.cooling > t => s.cooling,
        3 if s.cooling > t => s.cooling - 1,
        4 if s.settings.length < 10_000_000 => (s.settings.length - 1_800_000 - rng.below(2)).max(t),
        5 if style == Style::Wrong => {
            rng.pick(&[t.saturating_sub(1), 0, 86_400_000, 86_400_001, u64::MAX, s.settings.length])
        }
        _ if t + step >= s.settings.length && rng.chance(95) => t,
        _ => t + step,
    }
}

/// An event that may well be accepted, or, in a day of the wrong style, may well not.
pub fn event(rng: &mut Rng, style: Style, day: &Day) -> Event {
    let s = day.plain();
    let time = time(rng, style, &s);
    let side = rng.pick(&[Side::Buy, Side::Sell]);
    let lots = match rng.below(20) {
        0 => 10_000,
        1 => rng.within(1, 10_000),
        2 if style == Style::Wrong => rng.pick(&[0, 10_001, u64::MAX]),
        3..=8 => 1,
        _ => rng.within(1, 30),
    };
    let what = match style {
        Style::Busy => rng.pick(&[0, 0, 0, 0, 0, 0, 0, 0, 1, 1, 2, 3, 4]),
        Style::Deep => {
            if rng.chance(99) {
                0
            } else {
                rng.pick(&[1, 2, 4])
            }
        }
        Style::Pushing => rng.pick(&[0, 0, 0, 0, 0, 0, 1, 4]),
        Style::Quiet => rng.pick(&[0, 0, 0, 1, 2, 3, 4]),
        Style::Market => rng.pick(&[0, 0, 0, 0, 0, 1, 1, 1, 2]),
        Style::Wrong => {
            if rng.chance(97) {
                rng.pick(&[0, 0, 0, 0, 1, 2, 3, 4])
            } else {
                5
            }
        }
    };
    let life = if style == Style::Deep && rng.chance(95) { Life::Day } else { rng.pick(&[Life::Day, Life::Day, Life::Ioc]) };
    let act = match what {
        0 => Act::Order { side, kind: Kind::Limit(price(rng, style, side, &s, day)), life, lots },
        1 => Act::Order { side, kind: Kind::Market, life, lots: if rng.chance(30) { rng.within(1, 10_000) } else { lots } },
        2 => {
            let (buys, sells) = day.orders();
            let resting: Vec<u64> = buys.iter().chain(&sells).map(|order| order[0]).collect();
            let id = if resting.is_empty() || rng.chance(15) {
                if style == Style::Wrong {
                    rng.pick(&[0, 1, 2, 60_000, 60_001, u64::MAX])
                } else {
                    rng.within(1, 60_000)
                }
            } else {
                rng.pick(&resting)
            };
            Act::Cancel { id }
        }
        3 => {
            let price = match rng.below(6) {
                0 => rng.within(1, 100_000_000),
                1 if style == Style::Wrong => rng.pick(&[0, 100_000_001]),
                2 => (s.settings.base * rng.within(930, 1050) / 1000).max(1),
                _ => fair(rng, s.settings.base, s.settings.days),
            };
            Act::Under { price }
        }
        4 => Act::Clock,
        _ => Act::Close { settle: rng.pick(&[s.settings.settle, s.settings.tick, 0, s.settings.tick + 1, 100_000_001]) },
    };
    Event { time, act }
}

pub fn closing(rng: &mut Rng, day: &Day) -> Event {
    let s = day.plain();
    let later = rng.within(s.settings.length, 86_400_000);
    let time = rng.pick(&[s.settings.length, 86_400_000, later]);
    Event { time, act: Act::Close { settle: rng.within(1, 100_000_000 / s.settings.tick) * s.settings.tick } }
}

/// Numbers at the edges of everything.
const EDGES: [u64; 46] = [
    0,
    1,
    2,
    3,
    7,
    8,
    10,
    11,
    255,
    256,
    257,
    366,
    367,
    9_999,
    10_000,
    10_001,
    59_744,
    59_745,
    59_999,
    60_000,
    60_001,
    65_535,
    65_536,
    900_000,
    900_001,
    3_599_999,
    3_600_000,
    50_000_000,
    50_000_001,
    86_399_999,
    86_400_000,
    86_400_001,
    99_999_999,
    100_000_000,
    100_000_001,
    110_600_000,
    110_600_001,
    999_999_999,
    1_000_000_000,
    4_294_967_295,
    4_294_967_296,
    6_000_000_000_000,
    60_000_000_000_000_000,
    9_223_372_036_854_775_807,
    9_223_372_036_854_775_808,
    18_446_744_073_709_551_615,
];

fn near(rng: &mut Rng, value: u64, related: &[u64]) -> u64 {
    match rng.below(8) {
        0 => value.wrapping_add(1),
        1 => value.wrapping_sub(1),
        2 => rng.pick(related),
        3 => rng.pick(related).wrapping_add(1),
        4 => rng.pick(related).wrapping_sub(1),
        5 => rng.next(),
        6 => rng.next() >> rng.below(64),
        _ => rng.pick(&EDGES),
    }
}

/// Changes one number of the session, to something near what it may be.
pub fn damage_session(rng: &mut Rng, day: &mut Day) {
    let s = day.plain();
    let tick = s.settings.tick;
    let related = [
        s.settings.length,
        s.time,
        s.time.wrapping_add(900_000),
        tick,
        s.settings.base,
        s.trades,
        s.trades + 1,
        s.given,
        s.minute_count,
        s.minute_count.wrapping_mul(100_000_000),
        s.half_count,
        s.half_count.wrapping_mul(10_000),
        s.half_lots,
        s.half_lots.wrapping_mul(tick),
        s.half_lots.wrapping_mul(100_000_000),
    ];
    let single = [
        at::TIME,
        at::CLOSED,
        at::BUYS,
        at::SELLS,
        at::WIDENED,
        at::COOLING,
        at::REFERENCE,
        at::MINUTE_COUNT,
        at::MINUTE_SUM,
        at::UNDER,
        at::GIVEN,
        at::TRADES,
    ];
    let edges = [
        at::MINUTE_COUNT,
        at::MINUTE_SUM,
        at::HALF_COUNT,
        at::HALF_LOTS,
        at::HALF_VALUE,
        at::WIDENED,
        at::COOLING,
        at::REFERENCE,
        at::PRICES,
        at::PRICES + 9,
        at::SIZES,
        at::SIZES + 9,
    ];
    let place = match rng.below(3) {
        0 => rng.pick(&single),
        1 => rng.pick(&edges),
        _ => rng.below(SESSION as u64) as usize,
    };
    // what was stored before the layout was marked, or by another version
    if place == at::LAYOUT {
        day.session[place] = rng.pick(&[0, 6, 7, 8, LAYOUT - 1, LAYOUT + 1, u64::MAX]);
        return;
    }
    // what goes with the number is filled in at times, so that one condition alone is broken
    if place == at::TRADES && rng.chance(70) {
        for i in 0..10 {
            if day.session[at::PRICES + i] == 0 {
                day.session[at::PRICES + i] = tick;
                day.session[at::SIZES + i] = 1;
            }
        }
    }
    day.session[place] = near(rng, day.session[place], &related);
    if place == at::HALF_COUNT && rng.chance(50) {
        let count = day.session[at::HALF_COUNT];
        day.session[at::HALF_LOTS] = rng.pick(&[count, count.wrapping_mul(10_000)]);
        let lots = day.session[at::HALF_LOTS];
        day.session[at::HALF_VALUE] = rng.pick(&[lots.wrapping_mul(tick), lots.wrapping_mul(100_000_000)]);
        if rng.chance(50) {
            let place = rng.pick(&[at::HALF_LOTS, at::HALF_VALUE]);
            day.session[place] = day.session[place].wrapping_add(rng.pick(&[1, u64::MAX]));
        }
    }
    if place == at::MINUTE_COUNT && rng.chance(50) {
        let count = day.session[at::MINUTE_COUNT];
        let sum = rng.pick(&[count, count.wrapping_mul(100_000_000)]).wrapping_add(rng.pick(&[0, 1, u64::MAX]));
        day.session[at::MINUTE_SUM] = sum;
    }
}

/// Changes the live orders of a table: a number, two neighbours, a number twice, a crossed book.
pub fn damage_tables(rng: &mut Rng, day: &mut Day) {
    let s = day.plain();
    let (buys, sells) = day.orders();
    let (low, high) = s.band();
    let tick = s.settings.tick;
    let all: Vec<[u64; 3]> = buys.iter().chain(&sells).copied().collect();
    if all.is_empty() {
        return;
    }
    let other = rng.pick(&all);
    let on_buys = !buys.is_empty() && (sells.is_empty() || rng.chance(50));
    let count = if on_buys { buys.len() } else { sells.len() };
    let best_counter = if on_buys { sells.first() } else { buys.first() }.copied();
    let table = if on_buys { &mut day.buys } else { &mut day.sells };
    let at = rng.below(count as u64) as usize;
    match rng.below(9) {
        0 => table[3 * at] = near(rng, other[0], &[s.given, 0, 60_000]),
        1 => table[3 * at] = other[0],
        2 => table[3 * at + 1] = near(rng, table[3 * at + 1], &[low, high, low + tick, high + tick, low - tick, other[1]]),
        3 => {
            table[3 * at + 1] =
                rng.pick(&[low, high, other[1], table[3 * at + 1].wrapping_add(tick), table[3 * at + 1].wrapping_sub(tick)])
        }
        4 => table[3 * at + 2] = near(rng, table[3 * at + 2], &[0, 1, 10_000]),
        5 if at + 1 < count => {
            let order: [u64; 3] = table[3 * at..3 * at + 3].try_into().unwrap();
            table.copy_within(3 * at + 3..3 * at + 6, 3 * at);
            table[3 * at + 3..3 * at + 6].copy_from_slice(&order);
        }
        6 if at + 1 < count => table.swap(3 * at, 3 * at + 3),
        7 if at + 1 < count => table[3 * at + 4] = table[3 * at + 1],
        8 => {
            if let Some(best) = best_counter {
                table[1] = rng.pick(&[best[1], best[1] + tick, best[1] - tick]);
            }
        }
        _ => {}
    }
}

/// Cuts a run, a table or the room short; or lengthens it.
pub fn damage_lengths(rng: &mut Rng, day: &mut Day) {
    let which = rng.below(4);
    let (run, least) = match which {
        0 => (&mut day.session, SESSION),
        1 => (&mut day.buys, TABLE),
        2 => (&mut day.sells, TABLE),
        _ => (&mut day.room, ROOM),
    };
    let length = rng.pick(&[0, 1, least - 1, least - 1, least / 2, least, least + 1]);
    run.resize(length, 5);
}

/// Numbers that may be an event's or not.
pub fn any_event_run(rng: &mut Rng) -> Vec<u64> {
    let length = rng.pick(&[6, 6, 6, 6, 6, 6, 7, 5, 0, 30]);
    let mut run: Vec<u64> = (0..length).map(|_| rng.below(4)).collect();
    if length > 1 {
        run[1] = rng.below(8);
        if rng.chance(20) {
            let at = rng.below(length as u64) as usize;
            run[at] = near(rng, 1, &[1, 5]);
        }
    }
    run
}
