//! The practice exchange in ordinary Rust, written from the documents alone: the yardstick for the proved library, in what it
//! answers and in how fast it answers. It does the same work: it judges the session on every call, keeps the two tables of 768
//! numbers best first, clears their tails and writes records of six.

mod book;
mod growth;
pub mod lines;
pub mod runs;
pub mod saved;
pub mod text;

use crate::terms::*;
use book::{Order, Side as BookSide};
use growth::GROWTH;

const PRICE_MOST: u64 = 100_000_000;
const BASE_MOST: u64 = 50_000_000;
const LOTS_MOST: u64 = 10_000;
const TIME_MOST: u64 = 86_400_000;
const NUMBERS: u64 = 60_000;
const TRADES_LAST: u64 = 59_744;
const TICK_MOST: u64 = 10_000;
const LENGTH_LEAST: u64 = 3_600_000;
const DAYS_MOST: u64 = 366;
const REFERENCE_MOST: u64 = 110_600_000;
const SIDE_MOST: u64 = 256;
const COOLING: u64 = 900_000;
const MINUTE: u64 = 60_000;
const HALF_HOUR: u64 = 1_800_000;

/// Initial and enhanced percent by category.
const SLABS: [(u64, u64); 8] = [(4, 2), (4, 2), (3, 1), (6, 3), (6, 3), (6, 3), (3, 3), (6, 3)];

/// Everything a day remembers beside its two tables.
#[derive(Clone, PartialEq, Eq, Debug)]
pub struct Session {
    /// What the day was opened with.
    pub settings: Settings,
    /// The time of the last accepted event.
    pub time: u64,
    /// Whether the day is over.
    pub closed: bool,
    /// Live orders of the buy table.
    pub buys: u64,
    /// Live orders of the sell table.
    pub sells: u64,
    /// How often the band was widened: 0 or 1.
    pub widened: u64,
    /// When the cooling-off ends; 0 where none runs.
    pub cooling: u64,
    /// The reference price.
    pub reference: u64,
    /// The running minute's trades.
    pub minute_count: u64,
    /// The sum of their prices.
    pub minute_sum: u64,
    /// The underlying now; 0 where none is known.
    pub under: u64,
    /// Order numbers given.
    pub given: u64,
    /// Trades made.
    pub trades: u64,
    /// Prices of the last ten trades, oldest first.
    pub prices: [u64; 10],
    /// Their lots.
    pub sizes: [u64; 10],
    /// Trades of the closing half hour.
    pub half_count: u64,
    /// Their lots.
    pub half_lots: u64,
    /// The sum of price times lots.
    pub half_value: u64,
}

/// Divides by one tick many times: `multiple` is a product and a comparison, exact for prices below 2^32.
#[derive(Clone, Copy)]
struct Tick {
    inverse: u64,
}

impl Tick {
    fn new(tick: u64) -> Tick {
        Tick { inverse: (u64::MAX / tick).wrapping_add(1) }
    }

    fn multiple(self, price: u64) -> bool {
        price.wrapping_mul(self.inverse) <= self.inverse.wrapping_sub(1)
    }
}

#[derive(Clone, Copy)]
struct Band {
    low: u64,
    high: u64,
}

impl Band {
    fn holds(self, price: u64) -> bool {
        self.low <= price && price <= self.high
    }

    fn touches(self, price: u64) -> bool {
        price == self.low || price == self.high
    }
}

/// The prices in range of the reference.
#[derive(Clone, Copy)]
struct Range {
    low: u64,
    high: u64,
}

impl Range {
    fn holds(self, price: u64) -> bool {
        self.low <= price && price <= self.high
    }
}

impl Settings {
    /// Refusals 12 and 13.
    fn check(&self) -> Result<Tick, Refusal> {
        let price = |x: u64| (1..=PRICE_MOST).contains(&x);
        let ranges = (1..=BASE_MOST).contains(&self.base)
            && price(self.close)
            && price(self.settle)
            && (1..=TICK_MOST).contains(&self.tick)
            && (LENGTH_LEAST..=TIME_MOST).contains(&self.length)
            && self.days <= DAYS_MOST
            && self.under <= PRICE_MOST;
        if !ranges {
            return Err(Refusal::SettingsRange);
        }
        let tick = Tick::new(self.tick);
        if tick.multiple(self.base) && tick.multiple(self.close) && tick.multiple(self.settle) {
            Ok(tick)
        } else {
            Err(Refusal::SettingsTick)
        }
    }

    fn band(&self, widened: bool) -> Band {
        let (initial, enhanced) = SLABS[self.category as usize];
        let percent = if widened { initial + enhanced } else { initial };
        let step = 100 * self.tick;
        Band {
            low: (self.base * (100 - percent)).div_ceil(step) * self.tick,
            high: self.base * (100 + percent) / step * self.tick,
        }
    }

    fn theoretical(&self, under: u64) -> u64 {
        under * GROWTH[self.days as usize] / 1_000_000_000
    }
}

/// What a sound session gives to work with.
struct Ground {
    tick: Tick,
    band: Band,
}

impl Session {
    /// The session that a refused opening gives: broad, open, every number zero.
    pub fn fixed() -> Session {
        let settings =
            Settings { category: Category::Broad, base: 0, close: 0, settle: 0, tick: 0, length: 0, days: 0, under: 0 };
        Session::fresh(settings, 0)
    }

    fn fresh(settings: Settings, reference: u64) -> Session {
        Session {
            settings,
            time: 0,
            closed: false,
            buys: 0,
            sells: 0,
            widened: 0,
            cooling: 0,
            reference,
            minute_count: 0,
            minute_sum: 0,
            under: settings.under,
            given: 0,
            trades: 0,
            prices: [0; 10],
            sizes: [0; 10],
            half_count: 0,
            half_lots: 0,
            half_value: 0,
        }
    }

    /// Opens a day. Refused by 12 or 13.
    pub fn open(settings: Settings) -> Result<Session, Refusal> {
        settings.check()?;
        let reference = if settings.under == 0 { settings.base } else { settings.theoretical(settings.under) };
        Ok(Session::fresh(settings, reference))
    }

    /// Whether the session and the live parts of the two tables are sound; a short table is not.
    pub fn sound(&self, buys: &[u64], sells: &[u64]) -> bool {
        let (Some(buys), Some(sells)) = (buys.first_chunk::<TABLE>(), sells.first_chunk::<TABLE>()) else {
            return false;
        };
        self.ground(buys.as_chunks().0, sells.as_chunks().0).is_some()
    }

    /// The live part of the named side's table.
    pub fn view<'a>(&self, side: Side, buys: &'a [u64], sells: &'a [u64]) -> &'a [u64] {
        if !self.sound(buys, sells) {
            return &[];
        }
        match side {
            Side::Buy => &buys[..3 * self.buys as usize],
            Side::Sell => &sells[..3 * self.sells as usize],
        }
    }

    /// Where the day stands as it is: no clock step is taken. Refused by 1 or 2.
    pub fn standing(&self, buys: &[u64], sells: &[u64]) -> Result<Standing, Refusal> {
        if buys.len() < TABLE || sells.len() < TABLE {
            return Err(Refusal::ShortTable);
        }
        if !self.sound(buys, sells) {
            return Err(Refusal::Unsound);
        }
        let (initial, enhanced) = SLABS[self.settings.category as usize];
        let (band, range) = (self.settings.band(self.widened == 1), self.range());
        let newest = self.trades.min(10) as usize;
        Ok(Standing {
            percent: if self.widened == 1 { initial + enhanced } else { initial },
            band: Ends { low: band.low, high: band.high },
            range: Ends { low: range.low, high: range.high },
            reference: self.reference,
            cooling: (self.cooling != 0).then_some(self.cooling),
            last: (newest > 0).then(|| Traded { price: self.prices[newest - 1], lots: self.sizes[newest - 1] }),
            buys: self.buys,
            sells: self.sells,
            given: self.given,
            trades: self.trades,
        })
    }

    fn ground(&self, buys: &[Order], sells: &[Order]) -> Option<Ground> {
        let tick = self.settings.check().ok()?;
        let remembered = self.trades.min(10) as usize;
        let numbers = self.time <= TIME_MOST
            && (self.closed || self.time < self.settings.length)
            && self.buys <= SIDE_MOST
            && self.sells <= SIDE_MOST
            && self.widened <= 1
            && (self.cooling == 0 || (self.widened == 0 && self.cooling <= self.time + COOLING))
            && (1..=REFERENCE_MOST).contains(&self.reference)
            && self.under <= PRICE_MOST
            && self.given <= NUMBERS
            && self.trades <= NUMBERS
            && self.minute_count <= self.trades
            && self.minute_sum >= self.minute_count
            && self.minute_sum <= PRICE_MOST * self.minute_count
            && self.half_count <= self.trades
            && self.half_lots >= self.half_count
            && self.half_lots <= LOTS_MOST * self.half_count
            && self.half_value >= self.half_lots * self.settings.tick
            && self.half_value <= self.half_lots * PRICE_MOST;
        if !numbers {
            return None;
        }
        let good = |(&price, &lots): (&u64, &u64)| {
            (1..=PRICE_MOST).contains(&price) && tick.multiple(price) && (1..=LOTS_MOST).contains(&lots)
        };
        if !self.prices[..remembered].iter().zip(&self.sizes[..remembered]).all(good) {
            return None;
        }
        let band = self.settings.band(self.widened == 1);
        let (buys, sells) = (&buys[..self.buys as usize], &sells[..self.sells as usize]);
        book::sound(buys, sells, tick, band, self.given).then_some(Ground { tick, band })
    }

    /// Low and high end of the band in force; for a session whose settings are good.
    pub fn band(&self) -> (u64, u64) {
        let band = self.settings.band(self.widened == 1);
        (band.low, band.high)
    }

    /// The range goes by the initial percent, whatever the band.
    fn range(&self) -> Range {
        let (initial, _) = SLABS[self.settings.category as usize];
        let reach = initial * self.reference / 200;
        Range { low: self.reference - reach, high: self.reference + reach }
    }

    /// Whether the band widens at an event of time t.
    fn widens(&self, t: u64) -> bool {
        self.cooling != 0 && t >= self.cooling
    }

    /// The slab and reference steps up to time t, with their reports.
    fn step(&mut self, t: u64, band: Band, reports: &mut Reports) {
        if self.widens(t) {
            self.widened = 1;
            self.cooling = 0;
            reports.say([5, t, band.low, band.high, 0, 0]);
        }
        let boundaries = t / MINUTE - self.time / MINUTE;
        if boundaries > 0 {
            let before = self.reference;
            let quiet = match self.minute_sum.checked_div(self.minute_count) {
                Some(average) => {
                    self.reference = average;
                    self.minute_count = 0;
                    self.minute_sum = 0;
                    boundaries - 1
                }
                None => boundaries,
            };
            if quiet > 0 && self.under != 0 {
                self.reference = self.settings.theoretical(self.under);
            }
            if self.reference != before {
                reports.say([6, t, self.reference, 0, 0, 0]);
            }
        }
        self.time = t;
    }

    fn last_trade(&self) -> Option<u64> {
        match self.trades {
            0 => None,
            n => Some(self.prices[n.min(10) as usize - 1]),
        }
    }

    /// Takes a trade into what the day remembers.
    fn remember(&mut self, price: u64, lots: u64, band: Band) {
        if self.trades < 10 {
            self.prices[self.trades as usize] = price;
            self.sizes[self.trades as usize] = lots;
        } else {
            self.prices.copy_within(1.., 0);
            self.sizes.copy_within(1.., 0);
            self.prices[9] = price;
            self.sizes[9] = lots;
        }
        self.trades += 1;
        self.minute_count += 1;
        self.minute_sum += price;
        if self.time >= self.settings.length - HALF_HOUR {
            self.half_count += 1;
            self.half_lots += lots;
            self.half_value += price * lots;
        }
        if self.widened == 0 && self.cooling == 0 && band.touches(price) {
            self.cooling = self.time + COOLING;
        }
    }

    /// Close price and next base.
    fn close(&self, settle: u64) -> (u64, u64) {
        let tick = self.settings.tick;
        let nearest = |value: u64, lots: u64| (2 * value + lots * tick) / (2 * lots * tick) * tick;
        if self.half_count >= 10 {
            let price = nearest(self.half_value, self.half_lots);
            (price, price)
        } else if self.trades >= 10 {
            let lots = self.sizes.iter().sum();
            let value = self.prices.iter().zip(&self.sizes).map(|(p, q)| p * q).sum();
            let price = nearest(value, lots);
            (price, price)
        } else {
            (self.last_trade().unwrap_or(self.settings.close), settle)
        }
    }

    /// Refusals 3 to 8.
    fn refuse(&self, event: &Event, ground: &Ground, band: impl Fn() -> Band) -> Result<(), Refusal> {
        if self.closed {
            return Err(Refusal::Closed);
        }
        let t = event.time;
        let (good, tick_price) = match event.act {
            Act::Order { kind: Kind::Limit(price), lots, .. } => {
                ((1..=LOTS_MOST).contains(&lots) && (1..=PRICE_MOST).contains(&price), Some(price))
            }
            Act::Order { kind: Kind::Market, lots, .. } => ((1..=LOTS_MOST).contains(&lots), None),
            Act::Cancel { id } => ((1..=NUMBERS).contains(&id), None),
            Act::Under { price } => ((1..=PRICE_MOST).contains(&price), None),
            Act::Clock => (true, None),
            Act::Close { settle } => ((1..=PRICE_MOST).contains(&settle), Some(settle)),
        };
        if !good || t > TIME_MOST {
            return Err(Refusal::EventRange);
        }
        if t < self.time {
            return Err(Refusal::Early);
        }
        let closing = matches!(event.act, Act::Close { .. });
        if closing != (t >= self.settings.length) {
            return Err(Refusal::Length);
        }
        if let Some(price) = tick_price {
            if !ground.tick.multiple(price) {
                return Err(Refusal::EventTick);
            }
            if !closing && !band().holds(price) {
                return Err(Refusal::Band);
            }
        }
        Ok(())
    }
}

/// The report room and how much of it is written.
struct Reports<'a> {
    room: &'a mut [[u64; RECORD]],
    count: usize,
}

impl Reports<'_> {
    fn say(&mut self, record: [u64; RECORD]) {
        self.room[self.count] = record;
        self.count += 1;
    }
}

/// Applies one event and answers the count of reports. A refused one changes nothing.
pub fn apply(
    session: &mut Session,
    event: &Event,
    buys: &mut [u64],
    sells: &mut [u64],
    room: &mut [u64],
) -> Result<usize, Refusal> {
    let (Some(buys), Some(sells), Some(room)) =
        (buys.first_chunk_mut::<TABLE>(), sells.first_chunk_mut::<TABLE>(), room.first_chunk_mut::<ROOM>())
    else {
        return Err(Refusal::ShortTable);
    };
    let buys: &mut [Order] = buys.as_chunks_mut().0;
    let sells: &mut [Order] = sells.as_chunks_mut().0;
    let ground = session.ground(buys, sells).ok_or(Refusal::Unsound)?;
    let t = event.time;
    let band = if session.widens(t) { session.settings.band(true) } else { ground.band };
    session.refuse(event, &ground, || band)?;

    let mut reports = Reports { room: room.as_chunks_mut().0, count: 0 };
    let mut buy_side = BookSide { orders: buys, live: session.buys as usize };
    let mut sell_side = BookSide { orders: sells, live: session.sells as usize };
    match event.act {
        Act::Clock => session.step(t, band, &mut reports),
        Act::Under { price } => {
            session.step(t, band, &mut reports);
            session.under = price;
        }
        Act::Cancel { id } => {
            let (side, at) = if let Some(at) = buy_side.find(id) {
                (&mut buy_side, at)
            } else if let Some(at) = sell_side.find(id) {
                (&mut sell_side, at)
            } else {
                return Err(Refusal::NoSuchOrder);
            };
            session.step(t, band, &mut reports);
            let [id, _, lots] = side.remove(at);
            reports.say([4, t, id, lots, 1, 0]);
        }
        Act::Order { side, kind, life, lots } => {
            let own = match side {
                Side::Buy => session.buys,
                Side::Sell => session.sells,
            };
            if life == Life::Day && own == SIDE_MOST {
                return Err(Refusal::SideFull);
            }
            if session.given == NUMBERS || session.trades > TRADES_LAST {
                return Err(Refusal::DayFull);
            }
            session.step(t, band, &mut reports);
            match side {
                Side::Buy => order::<true>(session, &mut buy_side, &mut sell_side, kind, life, lots, band, &mut reports),
                Side::Sell => order::<false>(session, &mut sell_side, &mut buy_side, kind, life, lots, band, &mut reports),
            }
        }
        Act::Close { settle } => {
            for side in [&mut buy_side, &mut sell_side] {
                for &[id, _, lots] in &side.orders[..side.live] {
                    reports.say([4, t, id, lots, 5, 0]);
                }
                side.live = 0;
            }
            let (price, base) = session.close(settle);
            reports.say([7, t, price, base, 0, 0]);
            session.time = t;
            session.closed = true;
        }
    }
    session.buys = buy_side.live as u64;
    session.sells = sell_side.live as u64;
    buy_side.clear_tail();
    sell_side.clear_tail();
    Ok(reports.count)
}

/// An accepted order after the clock steps: it takes its number, trades, and its remainder rests or goes.
#[allow(clippy::too_many_arguments)]
fn order<const BUY: bool>(
    session: &mut Session,
    own: &mut BookSide,
    counter: &mut BookSide,
    kind: Kind,
    life: Life,
    lots: u64,
    band: Band,
    reports: &mut Reports,
) {
    let t = session.time;
    session.given += 1;
    let id = session.given;
    reports.say([1, t, id, 0, 0, 0]);

    let range = session.range();
    let fits = |price: u64| match kind {
        Kind::Market => true,
        Kind::Limit(limit) if BUY => price <= limit,
        Kind::Limit(limit) => price >= limit,
    };
    let beyond = |price: u64, first: u64| if BUY { 100 * price > 102 * first } else { 100 * price < 98 * first };

    let mut left = lots;
    let mut filled = 0;
    let mut first = None;
    let mut last = None;
    let mut out_of_range = false;
    while left > 0 && filled < counter.live {
        let [rest, price, there] = counter.orders[filled];
        if !fits(price) {
            break;
        }
        if !range.holds(price) {
            out_of_range = true;
            break;
        }
        if kind == Kind::Market && first.is_some_and(|first| beyond(price, first)) {
            break;
        }
        let traded = left.min(there);
        let (buy, sell) = if BUY { (id, rest) } else { (rest, id) };
        reports.say([2, t, buy, sell, traded, price]);
        session.remember(price, traded, band);
        first = first.or(Some(price));
        last = Some(price);
        left -= traded;
        if traded == there {
            filled += 1;
        } else {
            counter.orders[filled][2] = there - traded;
        }
    }
    counter.drop_front(filled);

    if left == 0 {
        return;
    }
    if out_of_range {
        reports.say([4, t, id, left, 3, 0]);
        return;
    }
    if life == Life::Ioc {
        reports.say([4, t, id, left, 2, 0]);
        return;
    }
    let price = match kind {
        Kind::Limit(price) => price,
        Kind::Market => {
            let price = last.or(session.last_trade()).unwrap_or(session.settings.settle);
            if !band.holds(price) {
                reports.say([4, t, id, left, 4, 0]);
                return;
            }
            reports.say([3, t, id, left, price, 0]);
            price
        }
    };
    own.insert::<BUY>([id, price, left]);
}

#[cfg(test)]
mod tests {
    use super::*;

    /// The paper: price x is in range when 200×|x−reference| is at most initial percent×reference.
    #[test]
    fn the_ends_of_the_range_are_the_last_prices_in_it() {
        for category in Category::ALL {
            let settings =
                Settings { category, base: 100, close: 1, settle: 1, tick: 1, length: 3_600_000, days: 0, under: 0 };
            let mut session = Session::open(settings).unwrap();
            let (initial, _) = SLABS[category as usize];
            let references = (1..2_000).chain([10_225, 9_999_999, REFERENCE_MOST - 1, REFERENCE_MOST]);
            for reference in references {
                session.reference = reference;
                let range = session.range();
                for x in [range.low.saturating_sub(1), range.low, reference, range.high, range.high + 1] {
                    assert_eq!(
                        range.holds(x),
                        200 * x.abs_diff(reference) <= initial * reference,
                        "{category:?} {reference} {x}"
                    );
                }
            }
        }
    }
}
