//! What the listing program writes.

use crate::bytes::events_in;
use crate::derive::cells;
use crate::image::{decode, refuse_if, Refusal};
use crate::readings::{cut, Readings};

/// The words of the program's count buffer.
pub const COUNT_BUFFER: usize = 16_384;

/// At most so many scripts are listed.
const LISTED: u32 = 100;

/// The whole output, from the bytes of the grammar file and of the event file. Nothing stands for
/// a file that can't be opened or read.
pub fn output(grammar: Option<&[u8]>, events: Option<&[u8]>) -> String {
    let (Some(grammar), Some(events)) = (grammar, events) else {
        return "no file\n".to_string();
    };
    match listing(grammar, events) {
        Ok(lines) => lines,
        Err(Refusal { number, rule }) => match number {
            6 | 7 => format!("refused {number} {rule}\n"),
            _ => format!("refused {number}\n"),
        },
    }
}

/// The lines of the listing, or the first refusal of 1 to 7, 15, 8, 14 and 10, which the program
/// tests in this order.
fn listing(image: &[u8], event_bytes: &[u8]) -> Result<String, Refusal> {
    let grammar = decode(image)?;
    let events = events_in(event_bytes)?;
    refuse_if(grammar.symbols * cells(events.len()) > COUNT_BUFFER, 10)?;
    let readings = Readings::of(&grammar, &events);
    let total = cut(readings.total());
    let mut lines = match total {
        u32::MAX => format!("readings {total} or more\n"),
        _ => format!("readings {total}\n"),
    };
    for number in 0..total.min(LISTED) {
        lines += &line(&readings.script(number.into()));
    }
    Ok(lines)
}

/// Numbers parted by one space, and a newline.
fn line(words: &[u16]) -> String {
    let words: Vec<String> = words.iter().map(u16::to_string).collect();
    words.join(" ") + "\n"
}
