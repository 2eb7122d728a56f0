//! How wide characters are in a terminal.

use std::ops::RangeInclusive;

/// Characters that are two columns wide: those of East Asia, and pictures.
const WIDE: [RangeInclusive<char>; 13] = [
    '\u{1100}'..='\u{115F}',
    '\u{2E80}'..='\u{3029}',
    '\u{3030}'..='\u{303E}',
    '\u{3041}'..='\u{A4C6}',
    '\u{A960}'..='\u{A97C}',
    '\u{AC00}'..='\u{D7A3}',
    '\u{F900}'..='\u{FAFF}',
    '\u{FE30}'..='\u{FE6B}',
    '\u{FF01}'..='\u{FF60}',
    '\u{FFE0}'..='\u{FFE6}',
    '\u{1F400}'..='\u{1F64F}',
    '\u{1F900}'..='\u{1F9FF}',
    '\u{20000}'..='\u{3FFFD}',
];

/// Characters that take no column: accents that combine with the character before them, and controls of layout.
const ZERO: [RangeInclusive<char>; 11] = [
    '\u{0300}'..='\u{036F}',
    '\u{0483}'..='\u{0489}',
    '\u{0591}'..='\u{05BD}',
    '\u{064B}'..='\u{065F}',
    '\u{1DC0}'..='\u{1DFF}',
    '\u{200B}'..='\u{200F}',
    '\u{202A}'..='\u{202E}',
    '\u{2060}'..='\u{206F}',
    '\u{20D0}'..='\u{20F0}',
    '\u{FE00}'..='\u{FE0F}',
    '\u{FEFF}'..='\u{FEFF}',
];

/// The columns that a character takes. Those of rare scripts and pictures, which are in no table here, count as one.
pub fn width_of(character: char) -> usize {
    let is_in = |ranges: &[RangeInclusive<char>]| ranges.iter().any(|range| range.contains(&character));
    if character < '\u{0300}' {
        1
    } else if is_in(&WIDE) {
        2
    } else if is_in(&ZERO) {
        0
    } else {
        1
    }
}
