//! What is told apart among images with the same answer.

use crate::calls::side::Answer;
use crate::notes::layouts::OF_LAYOUTS;
use crate::notes::remarks::those_true;
use crate::notes::rules::{faulty, OF_RULES};
use crate::notes::symbols::{sort_of_dead, OF_SYMBOLS};
use second::image::shown;

/// What is true of an image with this answer.
pub fn remarks(image: &[u8], answer: &Answer) -> Vec<&'static str> {
    let mut remarks = those_true(&OF_LAYOUTS, answer.number, image);
    if [6, 7].contains(&answer.number) {
        remarks.extend(those_true(&OF_RULES, answer.number, &faulty(image, answer)));
    }
    if [0, 7, 15].contains(&answer.number) {
        let grammar = shown(image).expect("1 to 5 come before all of these");
        remarks.extend(those_true(&OF_SYMBOLS, answer.number, &grammar));
        remarks.extend(sort_of_dead(&grammar).filter(|_| answer.number == 15));
    }
    remarks
}
