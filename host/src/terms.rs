//! The paper's words as Rust types, and the runs of numbers that stand for them at the library's border.
//!
//! Prices are whole paise, quantities lots, times milliseconds from the open.

use std::fmt;

/// The version of the library that this package is of: 1,000,000 × major + 1,000 × minor + patch.
pub const VERSION: u64 = 3_000;
/// The layout of the numbers that may be stored: number 0 of every session.
pub const LAYOUT: u64 = 101;
/// How many numbers a run of settings has.
pub const SETTINGS: usize = 8;
/// How many numbers a session has.
pub const SESSION: usize = 44;
/// How many numbers an event has.
pub const EVENT: usize = 6;
/// How many numbers a report has.
pub const RECORD: usize = 6;
/// How many numbers a side's table has: 256 orders of number, price and lots left.
pub const TABLE: usize = 768;
/// How many numbers the report room has: 520 reports of six.
pub const ROOM: usize = 3_120;
/// How many bytes a writer asks for.
pub const LINE: usize = 128;
/// How many numbers a run of text has: its stage, and the session's.
pub const RUN: usize = 45;
/// How many numbers a standing has.
pub const STANDING: usize = 14;
/// How many counts a feed gives: bytes taken, bytes printed.
pub const COUNTS: usize = 2;
/// How many numbers a resume gives: the bytes that count, or the place of the first bad line.
pub const PLACE: usize = 1;
/// How many bytes of output room a feed asks for: what one line can print at most.
pub const TEXT: usize = 66_560;

/// Where each number of a session stands in its run.
pub mod at {
    /// The layout, [`super::LAYOUT`].
    pub const LAYOUT: usize = 0;
    /// The first of the eight settings.
    pub const SETTINGS: usize = 1;
    /// The time of the last accepted event.
    pub const TIME: usize = 9;
    /// 1 once the day is closed.
    pub const CLOSED: usize = 10;
    /// How often the band was widened: 0 or 1.
    pub const WIDENED: usize = 11;
    /// When the cooling-off ends; 0 where none runs.
    pub const COOLING: usize = 12;
    /// The underlying now; 0 where none is known.
    pub const UNDER: usize = 13;
    /// Live orders of the buy table.
    pub const BUYS: usize = 14;
    /// Live orders of the sell table.
    pub const SELLS: usize = 15;
    /// Order numbers given.
    pub const GIVEN: usize = 16;
    /// The reference price.
    pub const REFERENCE: usize = 17;
    /// The running minute's trades.
    pub const MINUTE_COUNT: usize = 18;
    /// The sum of their prices.
    pub const MINUTE_SUM: usize = 19;
    /// Trades made.
    pub const TRADES: usize = 20;
    /// The first of the prices of the last ten trades, oldest first.
    pub const PRICES: usize = 21;
    /// The first of their lots.
    pub const SIZES: usize = 31;
    /// Trades of the closing half hour.
    pub const HALF_COUNT: usize = 41;
    /// Their lots.
    pub const HALF_LOTS: usize = 42;
    /// The sum of price times lots.
    pub const HALF_VALUE: usize = 43;
}

/// What sort of commodity it is: the percents of the band go by it.
#[derive(Clone, Copy, PartialEq, Eq, Debug)]
pub enum Category {
    /// Broad: 4 percent, then 2 more.
    Broad,
    /// Narrow: 4 percent, then 2 more.
    Narrow,
    /// Sensitive: 3 percent, then 1 more.
    Sensitive,
    /// Energy: 6 percent, then 3 more.
    Energy,
    /// Metals: 6 percent, then 3 more.
    Metals,
    /// Precious metals: 6 percent, then 3 more.
    Precious,
    /// Gems: 3 percent, then 3 more.
    Gems,
    /// All others: 6 percent, then 3 more.
    Other,
}

impl Category {
    /// All of them, each at the place of its number.
    pub const ALL: [Category; 8] = [
        Category::Broad,
        Category::Narrow,
        Category::Sensitive,
        Category::Energy,
        Category::Metals,
        Category::Precious,
        Category::Gems,
        Category::Other,
    ];
}

/// One contract on one day. Base, close and settlement are multiples of the tick.
#[derive(Clone, Copy, PartialEq, Eq, Debug)]
pub struct Settings {
    /// What sort of commodity it is.
    pub category: Category,
    /// Base price, the middle of the band: 1 to 50,000,000.
    pub base: u64,
    /// Previous close: 1 to 100,000,000.
    pub close: u64,
    /// Previous settlement: 1 to 100,000,000.
    pub settle: u64,
    /// Price step: 1 to 10,000.
    pub tick: u64,
    /// Length of the day: 3,600,000 to 86,400,000.
    pub length: u64,
    /// Days to maturity: 0 to 366.
    pub days: u64,
    /// The underlying's price, up to 100,000,000; 0 where none is known.
    pub under: u64,
}

impl Settings {
    /// The numbers that the library takes.
    pub fn to_run(&self) -> [u64; SETTINGS] {
        [self.category as u64, self.base, self.close, self.settle, self.tick, self.length, self.days, self.under]
    }

    /// None where the first number is no category.
    pub fn from_run(run: &[u64; SETTINGS]) -> Option<Settings> {
        let [category, base, close, settle, tick, length, days, under] = *run;
        let category = *Category::ALL.get(usize::try_from(category).ok()?)?;
        Some(Settings { category, base, close, settle, tick, length, days, under })
    }
}

/// A side of the book.
#[derive(Clone, Copy, PartialEq, Eq, Debug)]
pub enum Side {
    /// Those who buy.
    Buy,
    /// Those who sell.
    Sell,
}

/// At which price an order trades.
#[derive(Clone, Copy, PartialEq, Eq, Debug)]
pub enum Kind {
    /// At this price or a better one.
    Limit(u64),
    /// At the market.
    Market,
}

/// What becomes of the part of an order that does not trade at once.
#[derive(Clone, Copy, PartialEq, Eq, Debug)]
pub enum Life {
    /// It rests until the close; of a market order, as a limit order.
    Day,
    /// Immediate or cancel: it is cancelled at once.
    Ioc,
}

/// What an event does.
#[derive(Clone, Copy, PartialEq, Eq, Debug)]
pub enum Act {
    /// An order comes in.
    Order {
        /// Whether it buys or sells.
        side: Side,
        /// Limit or market.
        kind: Kind,
        /// What becomes of its rest.
        life: Life,
        /// Lots, 1 to 10,000.
        lots: u64,
    },
    /// A resting order is taken back.
    Cancel {
        /// The number that its accept gave.
        id: u64,
    },
    /// A new price of the underlying.
    Under {
        /// 1 to 100,000,000.
        price: u64,
    },
    /// Time passes: only the slab and reference steps that are due happen.
    Clock,
    /// The day ends.
    Close {
        /// Today's settlement, a multiple of the tick.
        settle: u64,
    },
}

/// Something that happens on a day.
#[derive(Clone, Copy, PartialEq, Eq, Debug)]
pub struct Event {
    /// Milliseconds from the open.
    pub time: u64,
    /// What it does.
    pub act: Act,
}

impl Event {
    /// The numbers that the library takes.
    pub fn to_run(&self) -> [u64; EVENT] {
        let t = self.time;
        match self.act {
            Act::Order { side, kind, life, lots } => {
                let side = match side {
                    Side::Buy => 1,
                    Side::Sell => 2,
                };
                let life = match life {
                    Life::Day => 1,
                    Life::Ioc => 2,
                };
                match kind {
                    Kind::Limit(price) => [t, side, 1, life, lots, price],
                    Kind::Market => [t, side, 2, life, lots, 0],
                }
            }
            Act::Cancel { id } => [t, 3, 0, 0, id, 0],
            Act::Under { price } => [t, 4, 0, 0, 0, price],
            Act::Clock => [t, 5, 0, 0, 0, 0],
            Act::Close { settle } => [t, 6, 0, 0, 0, settle],
        }
    }

    /// None where the six numbers are no event's.
    pub fn from_run(run: &[u64; EVENT]) -> Option<Event> {
        let time = run[0];
        let act = match run[1..] {
            [side @ (1 | 2), kind @ (1 | 2), life @ (1 | 2), lots, price] if kind == 1 || price == 0 => Act::Order {
                side: if side == 1 { Side::Buy } else { Side::Sell },
                kind: if kind == 1 { Kind::Limit(price) } else { Kind::Market },
                life: if life == 1 { Life::Day } else { Life::Ioc },
                lots,
            },
            [3, 0, 0, id, 0] => Act::Cancel { id },
            [4, 0, 0, 0, price] => Act::Under { price },
            [5, 0, 0, 0, 0] => Act::Clock,
            [6, 0, 0, 0, settle] => Act::Close { settle },
            _ => return None,
        };
        Some(Event { time, act })
    }
}

/// Why an order, or what is left of it, was taken away.
#[derive(Clone, Copy, PartialEq, Eq, Debug)]
pub enum Why {
    /// 1: asked for.
    Asked,
    /// 2: the rest of an immediate-or-cancel order.
    Ioc,
    /// 3: the best counter order is out of range.
    Range,
    /// 4: it would rest outside the band.
    Band,
    /// 5: the day's end.
    End,
}

/// What the exchange tells of an event.
#[derive(Clone, Copy, PartialEq, Eq, Debug)]
pub enum Report {
    /// The order was taken.
    Accept {
        /// The event's time.
        time: u64,
        /// The number that it was given.
        id: u64,
    },
    /// Two orders traded.
    Trade {
        /// The event's time.
        time: u64,
        /// The buy order.
        buy: u64,
        /// The sell order.
        sell: u64,
        /// How many lots.
        lots: u64,
        /// The price of the order that rested.
        price: u64,
    },
    /// The rest of a market order rests now, as a limit order.
    Convert {
        /// The event's time.
        time: u64,
        /// The order.
        id: u64,
        /// The lots that are left of it.
        lots: u64,
        /// Its limit from now on.
        price: u64,
    },
    /// An order, or its rest, is cancelled; it does not rest any more.
    Cancel {
        /// The event's time.
        time: u64,
        /// The order.
        id: u64,
        /// The lots that are cancelled.
        lots: u64,
        /// Why.
        why: Why,
    },
    /// The band was widened.
    Slab {
        /// The event's time.
        time: u64,
        /// Its lower end now.
        low: u64,
        /// Its upper end now.
        high: u64,
    },
    /// The reference price has changed.
    Reference {
        /// The event's time.
        time: u64,
        /// The reference price now.
        price: u64,
    },
    /// The day is over.
    Close {
        /// The event's time.
        time: u64,
        /// The close price.
        price: u64,
        /// The next day's base.
        base: u64,
    },
}

impl Report {
    /// None where the six numbers are no report's.
    pub fn from_record(record: &[u64; RECORD]) -> Option<Report> {
        Some(match *record {
            [1, time, id, 0, 0, 0] => Report::Accept { time, id },
            [2, time, buy, sell, lots, price] => Report::Trade { time, buy, sell, lots, price },
            [3, time, id, lots, price, 0] => Report::Convert { time, id, lots, price },
            [4, time, id, lots, why, 0] => {
                let why = match why {
                    1 => Why::Asked,
                    2 => Why::Ioc,
                    3 => Why::Range,
                    4 => Why::Band,
                    5 => Why::End,
                    _ => return None,
                };
                Report::Cancel { time, id, lots, why }
            }
            [5, time, low, high, 0, 0] => Report::Slab { time, low, high },
            [6, time, price, 0, 0, 0] => Report::Reference { time, price },
            [7, time, price, base, 0, 0] => Report::Close { time, price, base },
            _ => return None,
        })
    }
}

/// Two prices, both included.
#[derive(Clone, Copy, PartialEq, Eq, Debug)]
pub struct Ends {
    /// The lowest.
    pub low: u64,
    /// The highest.
    pub high: u64,
}

impl Ends {
    /// Whether a price lies between them.
    pub fn hold(self, price: u64) -> bool {
        self.low <= price && price <= self.high
    }
}

/// A trade's price and lots.
#[derive(Clone, Copy, PartialEq, Eq, Debug)]
pub struct Traded {
    /// Its price.
    pub price: u64,
    /// Its lots.
    pub lots: u64,
}

/// Where a day stands, as it is after its last accepted event. What the next event's time brings, a wider band or a new reference, is
/// not in it.
#[derive(Clone, Copy, PartialEq, Eq, Debug)]
pub struct Standing {
    /// The percent in force.
    pub percent: u64,
    /// The band: limits outside it are refused by 8.
    pub band: Ends,
    /// The execution range: no trade outside it. Its ends are whole paise, on the tick or not.
    pub range: Ends,
    /// The reference price.
    pub reference: u64,
    /// When the cooling-off ends that runs; none where none runs.
    pub cooling: Option<u64>,
    /// The last trade; none where there was none.
    pub last: Option<Traded>,
    /// Orders that rest on the buy side.
    pub buys: u64,
    /// Orders that rest on the sell side.
    pub sells: u64,
    /// Order numbers given.
    pub given: u64,
    /// Trades made.
    pub trades: u64,
}

impl Standing {
    /// The numbers that the library lays.
    pub fn to_numbers(&self) -> [u64; STANDING] {
        let last = self.last.unwrap_or(Traded { price: 0, lots: 0 });
        [
            self.percent,
            self.band.low,
            self.band.high,
            self.range.low,
            self.range.high,
            self.reference,
            self.cooling.is_some().into(),
            self.cooling.unwrap_or(0),
            last.price,
            last.lots,
            self.buys,
            self.sells,
            self.given,
            self.trades,
        ]
    }

    /// The standing of numbers that the library laid.
    pub fn from_numbers(numbers: &[u64; STANDING]) -> Standing {
        let [percent, low, high, bottom, top, reference, runs, end, price, lots, buys, sells, given, trades] = *numbers;
        Standing {
            percent,
            band: Ends { low, high },
            range: Ends { low: bottom, high: top },
            reference,
            cooling: (runs == 1).then_some(end),
            last: (trades > 0).then_some(Traded { price, lots }),
            buys,
            sells,
            given,
            trades,
        }
    }
}

/// The refusals from their numbers, names and words, in one table.
macro_rules! refusals {
    ($($number:literal $name:ident $words:literal)*) => {
        /// The paper's refusals, and any other that a library might answer. As an error it says what is wrong and what is allowed,
        /// in the words of docs/LINES.md.
        ///
        /// ```
        /// use kakoludar::Refusal;
        /// assert_eq!(Refusal::Closed.number(), 3);
        /// assert_eq!(Refusal::Closed.to_string(), "refused by 3: the session is closed already");
        /// assert_eq!(Refusal::from_number(200), Some(Refusal::Unknown(200)));
        /// ```
        #[derive(Clone, Copy, PartialEq, Eq, Hash, Debug)]
        #[non_exhaustive]
        pub enum Refusal {
            $(
                #[doc = concat!(stringify!($number), ": ", $words, ".")]
                $name,
            )*
            /// A code that this wrapper does not know: the library is of another version.
            Unknown(u8),
        }

        impl Refusal {
            /// Those of the paper, in the order of their numbers.
            pub const ALL: [Refusal; [$($number),*].len()] = [$(Refusal::$name),*];

            /// Its number.
            pub fn number(self) -> u64 {
                match self {
                    $(Refusal::$name => $number,)*
                    Refusal::Unknown(number) => number.into(),
                }
            }

            /// The refusal of an answer's code: none for 0, and a refusal for whatever else.
            pub fn from_number(number: u64) -> Option<Refusal> {
                match number {
                    0 => None,
                    $($number => Some(Refusal::$name),)*
                    other => Some(Refusal::Unknown(u8::try_from(other).unwrap_or(u8::MAX))),
                }
            }

            /// What is wrong and what is allowed.
            pub fn words(self) -> &'static str {
                match self {
                    $(Refusal::$name => $words,)*
                    Refusal::Unknown(_) => "a code that this wrapper does not know: the library is of another version",
                }
            }
        }
    };
}

refusals! {
    1 ShortTable "a table under 768 numbers, the report room under 3,120, or a run of numbers under its length"
    2 Unsound "the session's numbers are not sound: they cannot be a session and its live orders"
    3 Closed "the session is closed already"
    4 EventRange "a number of the event is out of its range: time 0 to 86,400,000, lots 1 to 10,000, a price, settlement or underlying 1 to 100,000,000, order number 1 to 60,000"
    5 Early "time below that of the last accepted event"
    6 Length "a close before the length of the day, or anything else at or after it"
    7 EventTick "limit or settlement not a multiple of the tick"
    8 Band "limit outside the band, as it is at the event's time; its ends are allowed"
    9 NoSuchOrder "a cancel of an order that does not rest: never given, traded in full, or cancelled"
    10 SideFull "a day order, limit or market, whose own side holds 256 orders"
    11 DayFull "an order, after 60,000 orders or more than 59,744 trades"
    12 SettingsRange "a number of the settings is out of its range: category one of eight, base 1 to 50,000,000, close and settlement 1 to 100,000,000, tick 1 to 10,000, length 3,600,000 to 86,400,000, days 0 to 366, underlying 0 to 100,000,000"
    13 SettingsTick "base, close or settlement of the settings not a multiple of the tick"
    14 Unfinished "the bytes begin a line and hold no whole one; no bytes at all, too"
    15 WrongLine "the bytes begin no line of the sort that is due"
    16 ShortLine "line room under 128 bytes"
    17 LargeNumber "a number above 999,999,999 is to be written"
    22 SavedLine "a saved line that the engine refuses"
}

impl fmt::Display for Refusal {
    fn fmt(&self, f: &mut fmt::Formatter<'_>) -> fmt::Result {
        write!(f, "refused by {}: {}", self.number(), self.words())
    }
}

impl std::error::Error for Refusal {}
