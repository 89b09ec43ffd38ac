//! What the functions of an archive answer, as every side answers.

use crate::answers::{Added, Checked, Counted, Judged, Numbered, Paged, Refusal};
use archive::answers;

/// A yes or no of an archive.
fn yes(byte: u8) -> bool {
    assert!(byte <= 1, "{byte} is neither yes nor no");
    byte == 1
}

fn refusal(number: u8, rule: u16) -> Refusal {
    Refusal { number, rule }
}

impl From<answers::Judged> for Judged {
    fn from(judged: answers::Judged) -> Self {
        Judged {
            refusal: refusal(judged.refusal, judged.rule),
            admitted: yes(judged.admitted),
            items: judged.items,
            firings: judged.firings,
        }
    }
}

impl From<answers::Added> for Added {
    fn from(added: answers::Added) -> Self {
        Added {
            refusal: refusal(added.refusal, added.rule),
            admitted: yes(added.admitted),
            firings: added.firings,
        }
    }
}

impl From<answers::Counted> for Counted {
    fn from(counted: answers::Counted) -> Self {
        Counted {
            refusal: refusal(counted.refusal, counted.rule),
            total: counted.total,
        }
    }
}

impl From<answers::Read> for Refusal {
    fn from(read: answers::Read) -> Self {
        refusal(read.refusal, read.rule)
    }
}

impl From<answers::Paged> for Paged {
    fn from(paged: answers::Paged) -> Self {
        Paged {
            refusal: refusal(paged.refusal, paged.rule),
            written: paged.written,
        }
    }
}

impl From<answers::Numbered> for Numbered {
    fn from(numbered: answers::Numbered) -> Self {
        Numbered {
            refusal: refusal(numbered.refusal, numbered.rule),
            reading: numbered.reading,
        }
    }
}

impl From<answers::Checked> for Checked {
    fn from(checked: answers::Checked) -> Self {
        Checked {
            refusal: refusal(checked.refusal, checked.rule),
            yes: yes(checked.yes),
        }
    }
}
