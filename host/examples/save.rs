//! A day that is saved and comes back: docs/LINES.md, "Save and come back". The day's file is its lines; it is cut after every byte, as
//! if the app had been killed there, and each time the day comes back and goes on to the same end.

use kakoludar::{read_event, read_settings, write_event, write_report, write_settings};
use kakoludar::{Event, NoDay, Refusal, Session, Settings};
use std::error::Error;
use std::fs::{self, File, OpenOptions};
use std::io::Write;
use std::path::Path;

type Outcome<T> = Result<T, Box<dyn Error>>;

/// A day and the file of its lines.
struct Saved {
    day: Box<Session>,
    file: File,
}

impl Saved {
    /// Opens a day: its settings line is on the disk before anything else happens.
    fn open(path: &Path, settings: &Settings) -> Outcome<Saved> {
        let day = Session::open(settings)?;
        let mut file = OpenOptions::new().create(true).truncate(true).write(true).open(path)?;
        file.write_all(&write_settings(settings)?)?;
        file.sync_all()?;
        // the file's name, too: it stands in the folder
        File::open(path.parent().expect("a file has a folder"))?.sync_all()?;
        Ok(Saved { day, file })
    }

    /// Applies an event and gives its report lines, once the event's line is on the disk. A refused event is not saved: it has
    /// changed nothing. Where saving fails this day is not to be gone on with: come back from the file.
    fn apply(&mut self, event: &Event) -> Outcome<Vec<u8>> {
        let mut lines = Vec::new();
        for record in self.day.apply_records(&event.to_run())? {
            lines.extend_from_slice(&write_report(record)?);
        }
        self.file.write_all(&write_event(event)?)?;
        self.file.sync_data()?;
        Ok(lines)
    }

    /// Comes back: the day of the file's whole lines, to which the file is cut back. None where not even the settings line was saved.
    fn come_back(path: &Path) -> Outcome<Option<Saved>> {
        let back = match Session::resume(&fs::read(path)?) {
            Ok(back) => back,
            Err(NoDay { refusal: Refusal::Unfinished, .. }) => return Ok(None),
            Err(bad_line) => return Err(bad_line.into()),
        };
        let file = OpenOptions::new().append(true).open(path)?;
        file.set_len(back.counted as u64)?;
        file.sync_all()?;
        Ok(Some(Saved { day: back.day, file }))
    }
}

/// The report lines of the last saved event, which may not have been shown: the day as it was before that event, and the event again.
fn last_reports(path: &Path) -> Outcome<Vec<u8>> {
    let saved = fs::read(path)?;
    let lines: Vec<&[u8]> = saved.split_inclusive(|&byte| byte == b'\n').collect();
    let [before @ .., last] = &lines[..] else { return Ok(Vec::new()) };
    if before.is_empty() {
        return Ok(Vec::new());
    }
    let mut day = Session::resume(&before.concat())?.day;
    let (event, _) = read_event(last)?;
    let mut reports = Vec::new();
    for record in day.apply_records(&event.to_run())? {
        reports.extend_from_slice(&write_report(record)?);
    }
    Ok(reports)
}

const DAY: &[u8] = include_bytes!("../../examples/touch.in");

/// The settings and the events of the day's lines.
fn lines() -> Outcome<(Settings, Vec<Event>)> {
    let (settings, mut at) = read_settings(DAY)?;
    let mut events = Vec::new();
    while at < DAY.len() {
        let (event, taken) = read_event(&DAY[at..])?;
        events.push(event);
        at += taken;
    }
    Ok((settings, events))
}

/// A day that was played without a break.
struct Played {
    accepted: Vec<Event>,
    file: Vec<u8>,
    printed: Vec<u8>,
    /// How long the file was, and how much was printed, when its settings were saved and after each accepted event.
    marks: Vec<(usize, usize)>,
}

impl Played {
    fn new(path: &Path, settings: &Settings, events: &[Event]) -> Outcome<Played> {
        let mut saved = Saved::open(path, settings)?;
        let (mut accepted, mut printed, mut marks) = (Vec::new(), Vec::new(), vec![(fs::read(path)?.len(), 0)]);
        for event in events {
            let Ok(lines) = saved.apply(event) else { continue };
            accepted.push(*event);
            printed.extend_from_slice(&lines);
            marks.push((fs::read(path)?.len(), printed.len()));
        }
        Ok(Played { accepted, file: fs::read(path)?, printed, marks })
    }

    /// The same day, killed when so many bytes of its file were written.
    fn killed_at(&self, cut: usize, path: &Path, settings: &Settings) -> Outcome<()> {
        fs::write(path, &self.file[..cut])?;
        let mut saved = match Saved::come_back(path)? {
            Some(back) => back,
            None => Saved::open(path, settings)?,
        };
        // the file is its whole lines again, and the last of them tells what it told
        let done = self.marks.iter().rposition(|&(length, _)| length <= cut).unwrap_or(0);
        let (length, shown) = self.marks[done];
        assert!(fs::read(path)? == self.file[..length], "cut after {cut} bytes");
        let (_, before) = self.marks[done.saturating_sub(1)];
        assert!(last_reports(path)? == self.printed[before..shown], "cut after {cut} bytes");
        // and the day goes on to the same end
        let mut reports = self.printed[..shown].to_vec();
        for event in &self.accepted[done..] {
            reports.extend_from_slice(&saved.apply(event)?);
        }
        assert!(reports == self.printed && fs::read(path)? == self.file, "cut after {cut} bytes");
        Ok(())
    }
}

fn main() -> Outcome<()> {
    let path = std::env::temp_dir().join(format!("kakoludar-save-{}", std::process::id()));
    let (settings, events) = lines()?;
    let played = Played::new(&path, &settings, &events)?;
    let cuts = 0..=played.file.len();
    for cut in cuts.clone() {
        played.killed_at(cut, &path, &settings)?;
    }
    fs::remove_file(&path)?;
    println!("save: a day of {} events came back from {} cuts", played.accepted.len(), cuts.count());
    Ok(())
}
