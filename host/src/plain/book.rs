//! One side's table: orders of number, price and lots left, best first.

use super::{Band, Tick, LOTS_MOST};

/// Number, price, lots left.
pub type Order = [u64; 3];

pub struct Side<'a> {
    pub orders: &'a mut [Order],
    pub live: usize,
}

impl Side<'_> {
    pub fn find(&self, id: u64) -> Option<usize> {
        self.orders[..self.live].iter().position(|order| order[0] == id)
    }

    pub fn remove(&mut self, at: usize) -> Order {
        let order = self.orders[at];
        self.orders.copy_within(at + 1..self.live, at);
        self.live -= 1;
        order
    }

    pub fn drop_front(&mut self, count: usize) {
        if count > 0 {
            self.orders.copy_within(count..self.live, 0);
            self.live -= count;
        }
    }

    /// Puts a new order, whose number is above all others, behind those of a price as good.
    pub fn insert<const BUY: bool>(&mut self, order: Order) {
        let ahead = |resting: &Order| if BUY { resting[1] >= order[1] } else { resting[1] <= order[1] };
        let at = self.orders[..self.live].partition_point(ahead);
        self.orders.copy_within(at..self.live, at + 1);
        self.orders[at] = order;
        self.live += 1;
    }

    pub fn clear_tail(&mut self) {
        self.orders[self.live..].as_flattened_mut().fill(0);
    }
}

/// The order numbers met so far, a bit each.
pub struct Seen<const WORDS: usize>([u64; WORDS]);

impl<const WORDS: usize> Seen<WORDS> {
    fn new() -> Self {
        Seen([0; WORDS])
    }

    /// Notes a number; whether it was there already.
    fn note(&mut self, id: u64) -> bool {
        let word = &mut self.0[id as usize / 64];
        let bit = 1 << (id % 64);
        let there = *word & bit != 0;
        *word |= bit;
        there
    }
}

/// Whether two sides make a sound book: numbers given and distinct, lots and prices good, priority kept, best buy below best sell.
pub fn sound(buys: &[Order], sells: &[Order], tick: Tick, band: Band, given: u64) -> bool {
    if let (Some(buy), Some(sell)) = (buys.first(), sells.first()) {
        if buy[1] >= sell[1] {
            return false;
        }
    }
    match given {
        0..=1_023 => both::<16>(buys, sells, tick, band, given),
        1_024..=8_191 => both::<128>(buys, sells, tick, band, given),
        _ => both::<938>(buys, sells, tick, band, given),
    }
}

fn both<const WORDS: usize>(buys: &[Order], sells: &[Order], tick: Tick, band: Band, given: u64) -> bool {
    let mut seen = Seen::<WORDS>::new();
    one::<true, WORDS>(buys, tick, band, given, &mut seen) && one::<false, WORDS>(sells, tick, band, given, &mut seen)
}

fn one<const BUY: bool, const WORDS: usize>(
    orders: &[Order],
    tick: Tick,
    band: Band,
    given: u64,
    seen: &mut Seen<WORDS>,
) -> bool {
    // priority as one number that must grow: how far from the side's best end, then the order number
    let width = band.high - band.low;
    let mut least = 0;
    for &[id, price, lots] in orders {
        let away = if BUY { band.high.wrapping_sub(price) } else { price.wrapping_sub(band.low) };
        let rank = away.wrapping_mul(1 << 16).wrapping_add(id);
        // the tests joined without branches: in a sound book none fails
        let good = (id.wrapping_sub(1) < given)
            & (lots.wrapping_sub(1) < LOTS_MOST)
            & (away <= width)
            & (rank >= least)
            & tick.multiple(price);
        if !good || seen.note(id) {
            return false;
        }
        least = rank + 1;
    }
    true
}
