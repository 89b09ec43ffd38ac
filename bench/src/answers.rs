//! What the services answer, on either side. Number 0 is success; an answer that is made from a
//! refusal has zeros elsewhere. `reading` and a take-back answer with the refusal alone.

/// A refusal's number, or 0, and the rule at fault: that of 6 and 7, with every other number 0.
#[derive(Clone, Copy, Debug, Default, PartialEq)]
pub struct Refusal {
    pub number: u8,
    pub rule: u16,
}

#[derive(Debug, Default, PartialEq)]
pub struct Judged {
    pub refusal: Refusal,
    pub admitted: bool,
    pub items: u64,
    pub firings: u64,
}

#[derive(Debug, Default, PartialEq)]
pub struct Added {
    pub refusal: Refusal,
    /// The verdict so far.
    pub admitted: bool,
    /// Those of the new column.
    pub firings: u64,
}

#[derive(Debug, Default, PartialEq)]
pub struct Counted {
    pub refusal: Refusal,
    pub total: u32,
}

#[derive(Debug, Default, PartialEq)]
pub struct Paged {
    pub refusal: Refusal,
    /// The scripts written.
    pub written: u32,
}

#[derive(Debug, Default, PartialEq)]
pub struct Numbered {
    pub refusal: Refusal,
    /// The number of the reading.
    pub reading: u32,
}

#[derive(Debug, Default, PartialEq)]
pub struct Checked {
    pub refusal: Refusal,
    pub yes: bool,
}

impl From<u8> for Refusal {
    fn from(number: u8) -> Self {
        Refusal { number, rule: 0 }
    }
}

impl From<Refusal> for Judged {
    fn from(refusal: Refusal) -> Self {
        Judged {
            refusal,
            ..Judged::default()
        }
    }
}

impl From<Refusal> for Added {
    fn from(refusal: Refusal) -> Self {
        Added {
            refusal,
            ..Added::default()
        }
    }
}

impl From<Refusal> for Counted {
    fn from(refusal: Refusal) -> Self {
        Counted { refusal, total: 0 }
    }
}

impl From<Refusal> for Paged {
    fn from(refusal: Refusal) -> Self {
        Paged {
            refusal,
            written: 0,
        }
    }
}

impl From<Refusal> for Numbered {
    fn from(refusal: Refusal) -> Self {
        Numbered {
            refusal,
            reading: 0,
        }
    }
}

impl From<Refusal> for Checked {
    fn from(refusal: Refusal) -> Self {
        Checked {
            refusal,
            yes: false,
        }
    }
}
