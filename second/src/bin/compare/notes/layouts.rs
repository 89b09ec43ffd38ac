//! What is told apart among images by their version, their flag and their length.

use crate::notes::remarks::Remark;
use second::image::shown;

pub const OF_LAYOUTS: [Remark<[u8]>; 18] = [
    ("version 1", &[0, 4, 5, 6, 7, 15], |image| {
        version(image) == 1
    }),
    ("version 2, flag 0", &[0, 4, 5, 6, 7, 15], |image| {
        flag(image) == Some(0)
    }),
    ("version 2, flag 1", &[0, 4, 5, 6, 7, 15], |image| {
        flag(image) == Some(1)
    }),
    ("an even flag alone", &[4], |image| {
        but_for_the_flag(image) == Some(0) && image[10] % 2 == 0
    }),
    ("an odd flag alone", &[4], |image| {
        but_for_the_flag(image) == Some(0) && image[10] % 2 == 1
    }),
    ("a flag and a number out of range", &[4], |image| {
        but_for_the_flag(image) == Some(4)
    }),
    ("a flag out of range and a wrong length", &[4], |image| {
        but_for_the_flag(image) == Some(5)
    }),
    ("version 2, 10 bytes", &[4, 5], |image| {
        version(image) == 2 && image.len() == 10
    }),
    ("version 2, 10 bytes, no rules", &[5], |image| {
        version(image) == 2 && image.len() == 10 && image[6..] == [0; 4]
    }),
    ("version 2, 11 bytes", &[4, 5, 15], |image| {
        version(image) == 2 && image.len() == 11
    }),
    ("version 2, as long as version 1", &[5], |image| {
        version(image) == 2 && accepted_as(1, image)
    }),
    ("version 1, as long as version 2", &[5], |image| {
        version(image) == 1 && accepted_as(2, image)
    }),
    ("version 2, as long as can be", &[0, 15], |image| {
        version(image) == 2 && image.len() == 11 + 3 * (512 + 256)
    }),
    ("version 0", &[3], |image| version(image) == 0),
    ("version 3", &[3], |image| version(image) == 3),
    ("version 1 or 2 in the low byte", &[3], |image| {
        [1, 2].contains(&image[3])
    }),
    ("version 1 with swapped bytes", &[3], |image| {
        version(image) == 0x0100
    }),
    ("version 2 with swapped bytes", &[3], |image| {
        version(image) == 0x0200
    }),
];

fn version(image: &[u8]) -> u16 {
    u16::from_le_bytes([image[3], image[4]])
}

/// The flag of a version 2 image, if it is there.
fn flag(image: &[u8]) -> Option<u8> {
    image.get(10).copied().filter(|_| version(image) == 2)
}

/// The first of refusals 1 to 5 of the image, or 0.
fn number(image: &[u8]) -> u8 {
    shown(image).map_or_else(|refusal| refusal.number, |_| 0)
}

/// The number that the image would get if its flag, which must be above 1, were none to refuse.
fn but_for_the_flag(image: &[u8]) -> Option<u8> {
    let mut image = image.to_vec();
    flag(&image).filter(|&flag| flag > 1)?;
    image[10] = 0;
    Some(number(&image))
}

/// Whether refusals 1 to 5 would let the image pass if it named that version.
fn accepted_as(version: u8, image: &[u8]) -> bool {
    let mut image = image.to_vec();
    image[3] = version;
    number(&image) == 0
}
