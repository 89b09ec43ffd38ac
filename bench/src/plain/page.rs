//! `page`: fills the table once and lists readings from it, each by its number or each from the one
//! before it.

use super::reading::{fill_or_refuse, Unranking};
use crate::answers::Paged;
use crate::sizes::script_words;

/// Fills the room with scripts, of which the first has this number.
type List = fn(&Unranking, u64, &mut [u16]);

pub fn page_afresh(
    image: &[u8],
    events: &[u16],
    k: u32,
    m: u32,
    table: &mut [u32],
    room: &mut [u16],
) -> Paged {
    page_by(list_afresh, image, events, k, m, table, room)
}

pub fn page_stepping(
    image: &[u8],
    events: &[u16],
    k: u32,
    m: u32,
    table: &mut [u32],
    room: &mut [u16],
) -> Paged {
    page_by(list_stepping, image, events, k, m, table, room)
}

/// Refusals 1 to 8 and 10 to 13, or the table, the scripts and how many they are.
fn page_by(
    list: List,
    image: &[u8],
    events: &[u16],
    k: u32,
    m: u32,
    table: &mut [u32],
    room: &mut [u16],
) -> Paged {
    let unranking = match fill_or_refuse(image, events, k, m, table, room.len()) {
        Ok(unranking) => unranking,
        Err(refusal) => return Paged::from(refusal),
    };
    let written = m.min(unranking.filled.total() - k);
    if !events.is_empty() {
        let words = written as usize * script_words(events.len());
        list(&unranking, k as u64, &mut room[..words]);
    }
    Paged {
        refusal: 0.into(),
        written,
    }
}

fn list_afresh(unranking: &Unranking, k: u64, room: &mut [u16]) {
    let n = unranking.filled.events.len();
    for (number, script) in (k..).zip(room.chunks_exact_mut(script_words(n))) {
        unranking.write(0, 0, n, number, script);
    }
}

fn list_stepping(unranking: &Unranking, k: u64, room: &mut [u16]) {
    let n = unranking.filled.events.len();
    let mut scripts = room.chunks_exact_mut(script_words(n));
    let Some(mut last) = scripts.next() else {
        return;
    };
    unranking.write(0, 0, n, k, last);
    for script in scripts {
        script.copy_from_slice(last);
        unranking.step(0, script);
        last = script;
    }
}

impl Unranking<'_> {
    /// Turns the script of a derivation over a stretch from place `i` into that of its symbol's next
    /// one, or says that it is the last. The right part changes first; where it is the last of its
    /// symbol it begins again, behind the left part's next; and where both are, both begin again,
    /// behind the next rule and split that have any derivation.
    fn step(&self, i: usize, script: &mut [u16]) -> bool {
        // A leaf is the only one of its symbol.
        if script.len() == 2 {
            return false;
        }
        let [rule, split] = [script[0], script[1]].map(usize::from);
        let (front, right) = script.split_at_mut(4 * (split - i));
        if self.step(split, right) {
            return true;
        }
        let pair = rule - self.leaves.len();
        let k = split + right.len().div_ceil(4);
        if self.step(i, &mut front[2..]) {
            self.write(self.pairs[pair][2], split, k, 0, right);
            return true;
        }
        let next = self.choose(pair, split + 1, i, k, 0);
        if let Some(choice) = &next {
            self.write_chosen(choice, i, k, script);
        }
        next.is_some()
    }
}
