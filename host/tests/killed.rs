//! An app that is killed again and again. It runs in a process of its own; it saves the line of each accepted event, in one write or in
//! several, and then shows the event's reports. It is killed by its process id, at moments that nobody has chosen. Each time its file
//! must bring back what its whole lines say: nothing that was shown is lost, and nothing is there that did not happen. Then the file is
//! cut back to the bytes that count, and the app goes on, until the day is over.

mod common;

use common::back::{resume, Lent};
use common::journal::*;
use common::*;
use kakoludar::terms::*;
use kakoludar::{write_report, Desk, Session};
use std::fs::{self, File, OpenOptions};
use std::io::{Read, Write};
use std::path::{Path, PathBuf};
use std::process::{Child, Command, Stdio};
use std::thread::{self, sleep};
use std::time::{Duration, Instant, SystemTime};

/// Tells the app which file is its own, and the seed of its day.
const FILE: &str = "KAKOLUDAR_KILLED_FILE";
const SEED: &str = "KAKOLUDAR_KILLED_SEED";

fn journal(seed: u64) -> Journal {
    Journal::of(seed, STYLES[seed as usize % STYLES.len()], 700)
}

/// Moments and pauses that no seed gives.
fn by_the_clock() -> Rng {
    let now = SystemTime::now().duration_since(SystemTime::UNIX_EPOCH).expect("after 1970");
    Rng(now.as_nanos() as u64 ^ u64::from(std::process::id()) << 32)
}

// ---- the app

/// The app itself: the test below runs it as a process of its own.
#[test]
#[ignore = "the app that is killed: run by the test beside it, in a process of its own"]
fn the_app() {
    if let (Some(file), Ok(seed)) = (std::env::var_os(FILE), std::env::var(SEED)) {
        live(Path::new(&file), &journal(seed.parse().expect("a seed")));
    }
}

/// Comes back from the file, or opens the day, and plays what is left of it.
fn live(path: &Path, journal: &Journal) {
    let mut rng = by_the_clock();
    let bytes = fs::read(path).unwrap_or_default();
    let mut file = OpenOptions::new().create(true).append(true).open(path).expect("the file");
    let (mut day, lines) = if bytes.is_empty() {
        save(&mut file, &settings_line(&journal.settings), 12, &mut rng);
        (Session::open(&journal.settings).expect("good settings"), 0)
    } else {
        let back = Session::resume(&bytes).expect("a day's lines");
        assert_eq!(back.counted, bytes.len(), "the file was cut back");
        (back.day, bytes.iter().filter(|&&byte| byte == b'\n').count() - 1)
    };
    let mut line = lines;
    for event in &journal.tried[journal.after[lines]..] {
        let Ok(records) = day.apply_records(&event.to_run()) else { continue };
        line += 1;
        let shown = shown(line, records);
        let pieces = rng.pick(&[1, 1, 2, 5]);
        save(&mut file, &event_line(event), pieces, &mut rng);
        sleep(Duration::from_micros(rng.below(100)));
        std::io::stderr().write_all(&shown).expect("somebody looks on");
    }
}

/// Appends a line in so many writes, with a pause before each.
fn save(file: &mut File, line: &[u8], pieces: usize, rng: &mut Rng) {
    for piece in line.chunks(line.len().div_ceil(pieces)) {
        sleep(Duration::from_micros(rng.below(200)));
        file.write_all(piece).expect("saved");
    }
}

/// What the app shows of an event: its reports, and that this line is done.
fn shown(line: usize, records: &[[u64; RECORD]]) -> Vec<u8> {
    let mut text: Vec<u8> = records.iter().flat_map(|record| write_report(record).expect("a report").to_vec()).collect();
    text.extend_from_slice(format!("shown {line}\n").as_bytes());
    text
}

// ---- who kills it

/// The app under way; nobody is left behind where a check fails.
struct App(Child);

impl Drop for App {
    fn drop(&mut self) {
        let _ = self.0.kill();
        let _ = self.0.wait();
    }
}

/// Starts the app and kills it after a while: what it has shown, and whether it had come to the end of its day by itself.
fn one_life(path: &Path, seed: u64, lifetime: Duration) -> (Vec<u8>, bool) {
    let mut command = Command::new(std::env::current_exe().expect("this program"));
    command.args(["--exact", "the_app", "--ignored", "--nocapture", "--test-threads", "1"]);
    command.env(FILE, path).env(SEED, seed.to_string()).stdin(Stdio::null()).stdout(Stdio::null()).stderr(Stdio::piped());
    let mut app = App(command.spawn().expect("the app"));
    let mut stderr = app.0.stderr.take().expect("what it shows");
    let reader = thread::spawn(move || {
        let mut shown = Vec::new();
        stderr.read_to_end(&mut shown).map(|_| shown)
    });
    sleep(lifetime);
    app.0.kill().expect("it was there");
    let status = app.0.wait().expect("it is gone");
    (reader.join().expect("read").expect("read"), status.success())
}

/// A day that is played in many lives.
struct Played {
    journal: Journal,
    path: PathBuf,
    /// What is shown of each event, by its line in the file.
    told: Vec<Vec<u8>>,
}

impl Played {
    fn new(seed: u64) -> Played {
        let journal = journal(seed);
        let path = PathBuf::from(env!("CARGO_TARGET_TMPDIR")).join(format!("killed-{}-{seed}", std::process::id()));
        let _ = fs::remove_file(&path);
        let mut day = Session::open(&journal.settings).expect("good settings");
        let mut told = vec![Vec::new()];
        for event in &journal.tried {
            if let Ok(records) = day.apply_records(&event.to_run()) {
                told.push(shown(told.len(), records));
            }
        }
        assert_eq!(told.len(), journal.ends.len());
        Played { journal, path, told }
    }

    /// How many bytes are shown of the events from one line to another, without the first.
    fn length(&self, from: usize, to: usize) -> usize {
        self.told[from.min(to) + 1..=to].iter().map(Vec::len).sum()
    }

    /// Looks at what a life that began behind so many lines has left, and cuts the file back; how many lines are in it now.
    fn look(&self, from: usize, shown: &[u8], tally: &mut Tally) -> usize {
        let bytes = fs::read(&self.path).unwrap_or_default();
        assert!(self.journal.bytes.starts_with(&bytes), "something else was saved");
        let (code, left) = resume(&bytes, &Lent::blank(&mut Rng(tally.kills)));
        let place = left.place[0] as usize;
        tally.torn += u64::from(place < bytes.len());
        if self.path.exists() {
            OpenOptions::new().write(true).open(&self.path).and_then(|file| file.set_len(place as u64)).expect("cut back");
        }
        let Some(whole) = self.journal.whole(bytes.len()) else {
            assert_eq!((code, place, shown.len()), (14, 0, 0));
            tally.unopened += 1;
            return 0;
        };
        assert_eq!((code, place), (0, self.journal.ends[whole]));
        assert!(whole >= from, "a line is gone");
        self.compare(&left, &bytes[..place]);
        // what was shown is what the events report; every event that anything was shown of is saved
        let all = self.told[from + 1..].concat();
        assert!(all.starts_with(shown), "something else was shown: {}", String::from_utf8_lossy(shown));
        assert!(shown.len() <= self.length(from, whole), "shown, and lost");
        // and every saved one was shown, but for the last where the app was killed before it could
        let sure = if place < bytes.len() { whole } else { whole.saturating_sub(1) };
        assert!(shown.len() >= self.length(from, sure), "saved twice without being shown");
        tally.unshown += u64::from(shown.len() < self.length(from, whole));
        whole
    }

    /// What came back is what the desk makes of the whole lines.
    fn compare(&self, left: &Lent, lines: &[u8]) {
        let mut desk = Desk::new();
        assert!(desk.feed(lines, &mut Vec::new()));
        let day = desk.session().expect("a day");
        assert_eq!(left.session[..SESSION], day.numbers()[..]);
        let (buys, sells) = day.tables();
        let [mine, others] = left.live();
        assert!(buys.starts_with(mine) && sells.starts_with(others));
    }
}

/// What was met.
#[derive(Default, Debug)]
struct Tally {
    kills: u64,
    /// Kills that left a line unfinished.
    torn: u64,
    /// Kills before the settings were saved.
    unopened: u64,
    /// Kills between saving an event and showing it in full.
    unshown: u64,
    days: u64,
}

/// A day from its first life to its last.
fn play(day: &Played, seed: u64, rng: &mut Rng, tally: &mut Tally) {
    // a short life at first, while the settings are saved; longer ones where they come to nothing
    let (mut lines, mut lifetime) = (0, 8_000);
    loop {
        let (shown, over) = one_life(&day.path, seed, Duration::from_micros(rng.below(lifetime)));
        let now = day.look(lines, &shown, tally);
        if over {
            break;
        }
        tally.kills += 1;
        lifetime = if now > lines { 60_000 } else { (2 * lifetime).min(1_000_000) };
        lines = now;
    }
    assert!(fs::read(&day.path).expect("the file") == day.journal.bytes, "the day has another end");
    fs::remove_file(&day.path).expect("cleaned up");
    tally.days += 1;
}

#[test]
fn nothing_shown_is_lost_and_nothing_is_invented() {
    let begun = Instant::now();
    let mut rng = by_the_clock();
    let mut tally = Tally::default();
    for seed in 900.. {
        play(&Played::new(seed), seed, &mut rng, &mut tally);
        if tally.kills >= 40 || begun.elapsed() > Duration::from_secs(10) {
            break;
        }
    }
    println!("{tally:?} in {:.1} s", begun.elapsed().as_secs_f64());
    assert!(tally.kills >= 10 && tally.torn > 0, "{tally:?}");
}
