//! What a resume is lent: any part of it too short, and a small stack.

mod common;

use common::back::{resume, Lent, LEAST};
use common::journal::*;
use common::*;
use kakoludar::raw;
use kakoludar::terms::*;

/// Any of the parts that are lent too short, by one, by half or by all: 1 comes first, and nothing but session and place is written.
#[test]
fn short_memory() {
    let mut rng = Rng(6);
    let journal = Journal::of(400, Style::Busy, 40);
    let refused = [&journal.bytes[..], b"t=0 do=cancel id=0\n"].concat();
    let opening = &journal.bytes[..journal.ends[0]];
    for saved in [&journal.bytes[..], opening, &refused, b"", b"cat=", b"nothing"] {
        for parts in 1..1 << LEAST.len() {
            let is_short = |part: usize| parts >> part & 1 == 1;
            let lengths = std::array::from_fn(|part| match LEAST[part] {
                least if is_short(part) => rng.pick(&[0, least / 2, least - 1, least - 1]),
                least => least,
            });
            let lent = Lent::of(&mut rng, lengths);
            let (code, left) = resume(saved, &lent);
            assert_eq!(code == 1, (0..4).any(is_short), "lengths {lengths:?}");
            if code == 1 {
                unwritten(&lent, &left);
            }
            unwritten(&lent, &answered_by_1(saved, &lent));
        }
    }
}

/// What the call that is lent its scratch leaves where any part is too short.
fn answered_by_1(saved: &[u8], lent: &Lent) -> Lent {
    let mut left = lent.clone();
    let Lent { session, buys, sells, place, spare_buys, spare_sells, room } = &mut left;
    assert_eq!(raw::resume_lent(saved, session, buys, sells, place, spare_buys, spare_sells, room), 1);
    left
}

/// All is as lent, but for the session and the place where both are long enough: these are a refused opening's, and 0.
fn unwritten(lent: &Lent, left: &Lent) {
    let mut expected = lent.clone();
    if lent.session.len() >= SESSION && !lent.place.is_empty() {
        expected.session[..SESSION].fill(0);
        expected.session[at::LAYOUT] = LAYOUT;
        expected.place[0] = 0;
    }
    assert!(*left == expected);
}

/// A thread that has just this much stack does it, on memory from elsewhere.
fn on_a_stack_of(bytes: usize, mut lent: Lent, work: impl FnOnce(&mut Lent) -> u64 + Send + 'static) -> (u64, Lent) {
    let thread = std::thread::Builder::new().stack_size(bytes);
    let done = thread.spawn(move || (work(&mut lent), lent)).expect("a thread");
    done.join().expect("it came back")
}

/// The stack that the header tells is enough, with some more for a thread's own start. The call that is lent its scratch has less here
/// than the scratch alone takes; it comes first, since a stack that a thread has left is given to the next.
#[test]
fn a_small_stack_is_enough() {
    let journal = Journal::of(401, Style::Deep, 1_300).bytes;
    let lent = Lent::blank(&mut Rng(7));
    let (code, expected) = resume(&journal, &lent);
    assert_eq!(code, 0);
    let saved = journal.clone();
    let (answer, left) = on_a_stack_of(32 * 1_024, lent.clone(), move |l| {
        let (buys, sells) = (&mut l.spare_buys, &mut l.spare_sells);
        raw::resume_lent(&saved, &mut l.session, &mut l.buys, &mut l.sells, &mut l.place, buys, sells, &mut l.room)
    });
    assert!(answer == 0 && left.live() == expected.live() && left.session == expected.session);
    let (answer, left) = on_a_stack_of(64 * 1_024, lent, move |l| {
        raw::resume(&journal, &mut l.session, &mut l.buys, &mut l.sells, &mut l.place)
    });
    assert!(answer == 0 && left == expected);
}
