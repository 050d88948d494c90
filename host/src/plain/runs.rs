//! The plain engine behind the same slices of numbers as the proved library's C functions, so that the two can be laid side by
//! side. An answer is `code + 256 × count`.

use super::lines::{self, NoLine};
use super::saved::{self, NoDay};
use super::{apply as apply_plain, Session};
use crate::terms::*;

fn answer(result: Result<usize, Refusal>) -> u64 {
    match result {
        Ok(count) => 256 * count as u64,
        Err(refusal) => refusal.number(),
    }
}

impl Session {
    /// The session's numbers, each in its place.
    pub fn to_run(&self) -> [u64; SESSION] {
        let mut run = [0; SESSION];
        run[at::LAYOUT] = LAYOUT;
        run[at::SETTINGS..][..SETTINGS].copy_from_slice(&self.settings.to_run());
        run[at::TIME] = self.time;
        run[at::CLOSED] = self.closed.into();
        run[at::BUYS] = self.buys;
        run[at::SELLS] = self.sells;
        run[at::WIDENED] = self.widened;
        run[at::COOLING] = self.cooling;
        run[at::REFERENCE] = self.reference;
        run[at::MINUTE_COUNT] = self.minute_count;
        run[at::MINUTE_SUM] = self.minute_sum;
        run[at::UNDER] = self.under;
        run[at::GIVEN] = self.given;
        run[at::TRADES] = self.trades;
        run[at::PRICES..][..10].copy_from_slice(&self.prices);
        run[at::SIZES..][..10].copy_from_slice(&self.sizes);
        run[at::HALF_COUNT] = self.half_count;
        run[at::HALF_LOTS] = self.half_lots;
        run[at::HALF_VALUE] = self.half_value;
        run
    }

    /// Numbers that are no session are the fixed session.
    pub fn from_run(run: &[u64; SESSION]) -> Session {
        let settings = run[at::SETTINGS..].first_chunk().and_then(Settings::from_run);
        let (LAYOUT, Some(settings), closed @ (0 | 1)) = (run[at::LAYOUT], settings, run[at::CLOSED]) else {
            return Session::fixed();
        };
        Session {
            settings,
            time: run[at::TIME],
            closed: closed == 1,
            buys: run[at::BUYS],
            sells: run[at::SELLS],
            widened: run[at::WIDENED],
            cooling: run[at::COOLING],
            reference: run[at::REFERENCE],
            minute_count: run[at::MINUTE_COUNT],
            minute_sum: run[at::MINUTE_SUM],
            under: run[at::UNDER],
            given: run[at::GIVEN],
            trades: run[at::TRADES],
            prices: run[at::PRICES..][..10].try_into().unwrap(),
            sizes: run[at::SIZES..][..10].try_into().unwrap(),
            half_count: run[at::HALF_COUNT],
            half_lots: run[at::HALF_LOTS],
            half_value: run[at::HALF_VALUE],
        }
    }
}

/// Numbers that are no event are a clock at the greatest time.
fn event_from(run: &[u64; EVENT]) -> Event {
    Event::from_run(run).unwrap_or(Event { time: u64::MAX, act: Act::Clock })
}

/// As `kakoludar_open`.
pub fn open(settings: &[u64], session: &mut [u64]) -> u64 {
    let (Some(settings), Some(session)) = (settings.first_chunk(), session.first_chunk_mut::<SESSION>()) else {
        return Refusal::ShortTable.number();
    };
    let opened = Settings::from_run(settings).ok_or(Refusal::SettingsRange).and_then(Session::open);
    *session = opened.as_ref().map_or_else(|_| Session::fixed().to_run(), Session::to_run);
    answer(opened.map(|_| 0))
}

/// As `kakoludar_apply`.
pub fn apply(session: &mut [u64], event: &[u64], buys: &mut [u64], sells: &mut [u64], room: &mut [u64]) -> u64 {
    let (Some(run), Some(event)) = (session.first_chunk_mut(), event.first_chunk()) else {
        return Refusal::ShortTable.number();
    };
    let mut session = Session::from_run(run);
    let applied = apply_plain(&mut session, &event_from(event), buys, sells, room);
    if applied.is_ok() {
        *run = session.to_run();
    }
    answer(applied)
}

/// As `kakoludar_sound`.
pub fn sound(session: &[u64], buys: &[u64], sells: &[u64]) -> u64 {
    session.first_chunk().is_some_and(|run| Session::from_run(run).sound(buys, sells)).into()
}

/// As `kakoludar_view`.
pub fn view(side: u64, session: &[u64], buys: &[u64], sells: &[u64]) -> u64 {
    let side = match side {
        1 => Side::Buy,
        2 => Side::Sell,
        _ => return 0,
    };
    session.first_chunk().map_or(0, |run| Session::from_run(run).view(side, buys, sells).len() as u64)
}

/// As `kakoludar_standing`.
pub fn standing(session: &[u64], buys: &[u64], sells: &[u64], standing: &mut [u64]) -> u64 {
    let (Some(session), Some(standing)) = (session.first_chunk(), standing.first_chunk_mut()) else {
        return Refusal::ShortTable.number();
    };
    answer(Session::from_run(session).standing(buys, sells).map(|stood| {
        *standing = stood.to_numbers();
        0
    }))
}

/// As `kakoludar_resume`.
pub fn resume(saved: &[u8], session: &mut [u64], buys: &mut [u64], sells: &mut [u64], place: &mut [u64]) -> u64 {
    come_back(session, place, || saved::resume(saved, buys, sells))
}

/// As `kakoludar_resume_lent`: the scratch that it is lent is left cleared, or untouched where something is too short.
#[allow(clippy::too_many_arguments)]
pub fn resume_lent(
    saved: &[u8],
    session: &mut [u64],
    buys: &mut [u64],
    sells: &mut [u64],
    place: &mut [u64],
    spare_buys: &mut [u64],
    spare_sells: &mut [u64],
    room: &mut [u64],
) -> u64 {
    let spare = [spare_buys.first_chunk_mut::<TABLE>(), spare_sells.first_chunk_mut::<TABLE>()];
    let ([Some(spare_buys), Some(spare_sells)], Some(room)) = (spare, room.first_chunk_mut::<ROOM>()) else {
        return come_back(session, place, || Err(NoDay { refusal: Refusal::ShortTable, place: 0 }));
    };
    let answer = resume(saved, session, buys, sells, place);
    if answer != Refusal::ShortTable.number() {
        spare_buys.fill(0);
        spare_sells.fill(0);
        room.fill(0);
    }
    answer
}

/// Lays what came back, or the session of a refused opening, and the bytes that count, or the place; nothing where these two are short.
fn come_back(session: &mut [u64], place: &mut [u64], resume: impl FnOnce() -> Result<saved::Back, NoDay>) -> u64 {
    let (Some(session), Some(place)) = (session.first_chunk_mut(), place.first_mut()) else {
        return Refusal::ShortTable.number();
    };
    match resume() {
        Ok(back) => {
            (*session, *place) = (back.session.to_run(), back.counted as u64);
            0
        }
        Err(no_day) => {
            (*session, *place) = (Session::fixed().to_run(), no_day.place as u64);
            no_day.refusal.number()
        }
    }
}

fn read<T, const N: usize>(read: Result<(T, usize), NoLine>, run: &mut [u64], numbers: impl Fn(&T) -> [u64; N]) -> u64 {
    let Some(run) = run.first_chunk_mut() else {
        return Refusal::ShortTable.number();
    };
    match read {
        Ok((value, taken)) => {
            *run = numbers(&value);
            256 * taken as u64
        }
        Err(NoLine::Unfinished) => Refusal::Unfinished.number(),
        Err(NoLine::Wrong(place)) => Refusal::WrongLine.number() + 256 * place as u64,
    }
}

/// As `kakoludar_read_settings`.
pub fn read_settings(line: &[u8], settings: &mut [u64]) -> u64 {
    read(lines::read_settings(line), settings, Settings::to_run)
}

/// As `kakoludar_read_event`.
pub fn read_event(line: &[u8], event: &mut [u64]) -> u64 {
    read(lines::read_event(line), event, Event::to_run)
}

/// As `kakoludar_write_settings`.
pub fn write_settings(settings: &[u64], line: &mut [u8]) -> u64 {
    let Some(settings) = settings.first_chunk() else {
        return Refusal::ShortTable.number();
    };
    let settings = Settings::from_run(settings).ok_or(Refusal::SettingsRange);
    answer(settings.and_then(|settings| lines::write_settings(&settings, line)))
}

/// As `kakoludar_write_event`.
pub fn write_event(event: &[u64], line: &mut [u8]) -> u64 {
    let Some(event) = event.first_chunk() else {
        return Refusal::ShortTable.number();
    };
    let event = Event::from_run(event).ok_or(Refusal::EventRange);
    answer(event.and_then(|event| lines::write_event(&event, line)))
}

/// As `kakoludar_write_report`.
pub fn write_report(record: &[u64], line: &mut [u8]) -> u64 {
    let Some(record) = record.first_chunk() else {
        return Refusal::ShortTable.number();
    };
    answer(lines::write_report(record, line))
}
