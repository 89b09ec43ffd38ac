//! Remarks on images, each with the answers that it can go with.

/// A remark, the answers that it can go with, and whether it is true.
pub type Remark<Of> = (&'static str, &'static [u8], fn(&Of) -> bool);

pub fn those_true<Of: ?Sized>(all: &[Remark<Of>], number: u8, of: &Of) -> Vec<&'static str> {
    let is_true = |remark: &&Remark<Of>| remark.1.contains(&number) && (remark.2)(of);
    all.iter().filter(is_true).map(|remark| remark.0).collect()
}

/// The remarks of a list, and the answers that each can go with.
pub fn names_with_answers<Of: ?Sized>(all: &[Remark<Of>]) -> Vec<(&'static str, &'static [u8])> {
    all.iter().map(|remark| (remark.0, remark.1)).collect()
}
