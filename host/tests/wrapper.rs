//! The safe wrapper: a day that is opened, played, kept as numbers, taken up again and damaged.

use kakoludar::*;

fn settings() -> Settings {
    Settings {
        category: Category::Gems,
        base: 10_000,
        close: 10_000,
        settle: 10_000,
        tick: 5,
        length: 3_600_000,
        days: 0,
        under: 0,
    }
}

fn limit(time: u64, side: Side, lots: u64, price: u64) -> Event {
    Event { time, act: Act::Order { side, kind: Kind::Limit(price), life: Life::Day, lots } }
}

#[test]
fn settings_are_judged() {
    assert_eq!(Session::open(&Settings { days: 367, ..settings() }).err(), Some(Refusal::SettingsRange));
    assert_eq!(Session::open(&Settings { base: 10_001, ..settings() }).err(), Some(Refusal::SettingsTick));
}

#[test]
fn a_day_is_played_and_kept() {
    let mut day = Session::open(&settings()).unwrap();
    assert!(day.is_sound() && !day.is_closed());
    let reports: Vec<Report> = day.apply(&limit(5, Side::Sell, 4, 10_150)).unwrap().collect();
    assert_eq!(reports, [Report::Accept { time: 5, id: 1 }]);
    // the paper's (P1) to (P3)
    assert_eq!(day.apply(&limit(5, Side::Sell, 1, 10_305)).err().map(Refusal::number), Some(8));
    assert_eq!(day.apply(&limit(5, Side::Sell, 1, 10_307)).err().map(Refusal::number), Some(7));
    assert_eq!(day.apply(&limit(5, Side::Sell, 1, 10_300)).unwrap().len(), 1);
    let asks: Vec<Resting> = day.view(Side::Sell).collect();
    assert_eq!(asks, [Resting { id: 1, price: 10_150, lots: 4 }, Resting { id: 2, price: 10_300, lots: 1 }]);
    assert_eq!(day.view(Side::Buy).len(), 0);
    assert_eq!((day.time(), day.reference()), (5, 10_000));

    let (buys, sells) = day.tables();
    let mut again = Session::from_numbers(*day.numbers(), *buys, *sells);
    let event = limit(6, Side::Buy, 5, 10_150);
    let reports: Vec<Report> = again.apply(&event).unwrap().collect();
    assert_eq!(reports, day.apply(&event).unwrap().collect::<Vec<_>>());
    assert_eq!(reports[1], Report::Trade { time: 6, buy: 3, sell: 1, lots: 4, price: 10_150 });
    assert_eq!(again.numbers(), day.numbers());

    let end = Event { time: 3_600_000, act: Act::Close { settle: 10_200 } };
    let reports: Vec<Report> = day.apply(&end).unwrap().collect();
    assert_eq!(reports[0], Report::Cancel { time: 3_600_000, id: 3, lots: 1, why: Why::End });
    assert_eq!(reports.last(), Some(&Report::Close { time: 3_600_000, price: 10_150, base: 10_200 }));
    assert!(day.is_closed() && day.is_sound());
    assert_eq!(day.apply(&end).err(), Some(Refusal::Closed));
}

/// What docs/LINES.md reckons, as the library answers it.
#[test]
fn the_examples_of_the_formulas() {
    let band = |category, base, tick, widened| {
        let given = Settings { category, base, close: base, settle: base, tick, ..settings() };
        let mut numbers = *Session::open(&given).unwrap().numbers();
        numbers[terms::at::WIDENED] = widened;
        let stood = Session::from_numbers(numbers, [0; terms::TABLE], [0; terms::TABLE]).standing().unwrap();
        (stood.percent, stood.band.low, stood.band.high)
    };
    assert_eq!(band(Category::Sensitive, 1_003, 1, 0), (3, 973, 1_033));
    assert_eq!(band(Category::Sensitive, 1_005, 5, 0), (3, 975, 1_035));
    assert_eq!(band(Category::Gems, 10_000, 5, 0), (3, 9_700, 10_300));
    assert_eq!(band(Category::Gems, 10_000, 5, 1), (6, 9_400, 10_600));
    let percents = [(4, 6), (4, 6), (3, 4), (6, 9), (6, 9), (6, 9), (3, 6), (6, 9)];
    for (category, percents) in Category::ALL.into_iter().zip(percents) {
        assert_eq!((band(category, 100, 1, 0).0, band(category, 100, 1, 1).0), percents);
    }
    let opening = Session::open(&Settings { days: 73, under: 9_900, ..settings() }).unwrap();
    assert_eq!(opening.reference(), 10_099);

    let trade = |day: &mut Session, time, lots, price| {
        day.apply(&limit(time, Side::Sell, lots, price)).unwrap();
        day.apply(&limit(time, Side::Buy, lots, price)).unwrap();
    };
    let clock = |time| Event { time, act: Act::Clock };
    let mut day = Session::open(&settings()).unwrap();
    trade(&mut day, 0, 1, 10_150);
    trade(&mut day, 60_000, 3, 10_150);
    trade(&mut day, 61_000, 2, 10_300);
    // the touch is told at once, the average with the next minute's first event
    let stood = day.standing().unwrap();
    assert_eq!(
        (stood.reference, stood.cooling, stood.last),
        (10_150, Some(961_000), Some(Traded { price: 10_300, lots: 2 }))
    );
    assert_eq!((stood.buys, stood.sells, stood.given, stood.trades), (0, 0, 6, 3));
    day.apply(&clock(120_000)).unwrap();
    let stood = day.standing().unwrap();
    assert_eq!((stood.reference, stood.range), (10_225, Ends { low: 10_072, high: 10_378 }));
    assert!(stood.range.hold(10_375) && !stood.range.hold(10_380));
    day.apply(&clock(960_999)).unwrap();
    assert_eq!(day.standing().unwrap().band, Ends { low: 9_700, high: 10_300 });
    day.apply(&clock(961_000)).unwrap();
    let stood = day.standing().unwrap();
    assert_eq!((stood.percent, stood.band, stood.cooling), (6, Ends { low: 9_400, high: 10_600 }, None));
    // a wider band does not widen the range, and a closed day answers too
    assert_eq!(stood.range, Ends { low: 10_072, high: 10_378 });
    day.apply(&Event { time: 3_600_000, act: Act::Close { settle: 10_200 } }).unwrap();
    assert_eq!(day.standing(), Ok(stood));

    // ten trades: the average weighted by lots, to the nearest tick, halves up
    for (many, few, expected) in [(6, 4, 10_150), (2, 2, 10_155)] {
        let mut day = Session::open(&Settings { base: 10_150, ..settings() }).unwrap();
        for (lots, price) in [(many, 10_150), (few, 10_155)] {
            for _ in 0..5 {
                trade(&mut day, 5, lots, price);
            }
        }
        let end = Event { time: 3_600_000, act: Act::Close { settle: 10_000 } };
        assert_eq!(
            day.apply(&end).unwrap().last(),
            Some(Report::Close { time: 3_600_000, price: expected, base: expected })
        );
    }
}

#[test]
fn damaged_numbers_are_refused() {
    let mut numbers = *Session::open(&settings()).unwrap().numbers();
    numbers[terms::at::REFERENCE] = 0;
    let mut day = Session::from_numbers(numbers, [0; terms::TABLE], [0; terms::TABLE]);
    assert!(!day.is_sound());
    assert_eq!(day.apply(&limit(0, Side::Buy, 1, 10_000)).err(), Some(Refusal::Unsound));
    assert_eq!(day.standing(), Err(Refusal::Unsound));
    // numbers of another layout
    numbers = *Session::open(&settings()).unwrap().numbers();
    numbers[terms::at::LAYOUT] += 1;
    let mut day = Session::from_numbers(numbers, [0; terms::TABLE], [0; terms::TABLE]);
    assert_eq!(day.apply(&limit(0, Side::Buy, 1, 10_000)).err(), Some(Refusal::Unsound));
}

#[test]
fn a_day_comes_back_from_its_lines() {
    let mut day = Session::open(&settings()).unwrap();
    let mut file = write_settings(&settings()).unwrap().to_vec();
    let opening = file.len();
    for event in [limit(5, Side::Sell, 4, 10_150), limit(6, Side::Buy, 1, 10_150), Event { time: 60_000, act: Act::Clock }] {
        day.apply(&event).unwrap();
        file.extend_from_slice(&write_event(&event).unwrap());
    }
    let whole = file.len();
    file.extend_from_slice(b"t=60001 do=canc");
    let mut scratch = Scratch::new();
    for back in
        [Session::resume(&file), Session::resume_lent(&file, &mut scratch), Session::resume_lent(&file, &mut scratch)]
    {
        let Ok(mut back) = back else { panic!("no day came back") };
        assert_eq!((back.counted, back.day.numbers(), back.day.tables()), (whole, day.numbers(), day.tables()));
        let reports: Vec<Report> = back.day.apply(&limit(60_001, Side::Buy, 3, 10_150)).unwrap().collect();
        assert_eq!(reports[1], Report::Trade { time: 60_001, buy: 3, sell: 1, lots: 3, price: 10_150 });
    }

    let no_day = |bytes: &[u8]| Session::resume(bytes).err().map(|no_day| (no_day.place, no_day.to_string()));
    let told = |place, words: &str| Some((place, format!("refused by {words}")));
    assert_eq!(no_day(b"cat="), told(0, "14: the bytes begin a line and hold no whole one; no bytes at all, too"));
    assert_eq!(no_day(b"cat=x"), told(4, "15: the bytes begin no line of the sort that is due, from byte 4 on"));
    file.truncate(opening);
    file.extend_from_slice(b"t=5 do=cancel id=1\n");
    assert_eq!(no_day(&file), told(opening, "22: a saved line that the engine refuses, the one at byte 79"));
}

#[test]
fn lines_are_read_and_written() {
    let line = b"t=61000 do=buy kind=market life=day qty=6\n";
    let (event, taken) = read_event(line).unwrap();
    assert_eq!(taken, line.len());
    assert_eq!(&*write_event(&event).unwrap(), line);
    assert_eq!(read_event(b"").err(), Some(NoLine::Unfinished));
    assert_eq!(read_event(b"t=00").err(), Some(NoLine::Wrong(3)));
    let first = write_settings(&settings()).unwrap();
    assert_eq!(&*first, b"cat=gems base=10000 close=10000 settle=10000 tick=5 len=3600000 days=0 under=0\n");
    assert_eq!(read_settings(&first), Ok((settings(), first.len())));
    assert_eq!(write_event(&limit(0, Side::Buy, 1, 1_000_000_000)).err(), Some(Refusal::LargeNumber));
    assert_eq!(&*write_report(&[6, 60_000, 10_150, 0, 0, 0]).unwrap(), b"t=60000 say=ref price=10150\n");
    // numbers that are no report's have no line
    assert!(kakoludar::write_report(&[9, 0, 0, 0, 0, 0]).unwrap().is_empty());
}
