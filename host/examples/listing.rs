//! Plays document 01's listing through the library, prints the report lines and compares them with the paper's.

use kakoludar::{read_event, read_settings, Act, Event, Kind, Life, Report, Session, Side};

const INPUT: &[u8] = b"cat=gems base=10000 close=10000 settle=10000 tick=5 len=3600000 days=0 under=0
t=0 do=sell kind=limit life=day qty=4 price=10150
t=1000 do=buy kind=limit life=day qty=1 price=10300
t=60000 do=sell kind=limit life=day qty=2 price=10300
t=61000 do=buy kind=market life=day qty=6
t=961000 do=cancel id=4
t=3600000 do=close settle=10200
";

const EXPECTED: &str = "t=0 say=accept id=1
t=1000 say=accept id=2
t=1000 say=trade buy=2 sell=1 qty=1 price=10150
t=60000 say=ref price=10150
t=60000 say=accept id=3
t=61000 say=accept id=4
t=61000 say=trade buy=4 sell=1 qty=3 price=10150
t=61000 say=trade buy=4 sell=3 qty=2 price=10300
t=61000 say=convert id=4 qty=1 price=10300
t=961000 say=slab low=9400 high=10600
t=961000 say=ref price=10225
t=961000 say=cancel id=4 qty=1 why=1
t=3600000 say=close price=10300 base=10200
";

fn main() {
    // text in, text out
    let mut out = Vec::new();
    kakoludar::Desk::run(INPUT, &mut out);
    let out = String::from_utf8(out).expect("report lines are plain text");
    print!("{out}");
    assert_eq!(out, EXPECTED, "these are not the lines of the paper");
    eprintln!("the paper's 13 lines");

    // the same day by values: its second event meets the order that its first left
    let (settings, _) = read_settings(INPUT).expect("a settings line");
    let mut day = Session::open(&settings).expect("good settings");
    let sell = Act::Order { side: Side::Sell, kind: Kind::Limit(10_150), life: Life::Day, lots: 4 };
    assert_eq!(day.apply(&Event { time: 0, act: sell }).expect("accepted").len(), 1);
    let (buy, _) = read_event(b"t=1000 do=buy kind=limit life=day qty=1 price=10300\n").expect("an event line");
    let reports: Vec<Report> = day.apply(&buy).expect("accepted").collect();
    assert_eq!(reports[1], Report::Trade { time: 1_000, buy: 2, sell: 1, lots: 1, price: 10_150 });
    // where it stands: an order above 10,300 would be refused, and nothing trades above 10,150 before the next minute
    let stood = day.standing().expect("a sound session");
    assert_eq!((stood.band.low, stood.band.high, stood.range.low, stood.range.high), (9_700, 10_300, 9_850, 10_150));
    assert_eq!(day.view(Side::Sell).next().map(|order| order.lots), Some(3));
}
