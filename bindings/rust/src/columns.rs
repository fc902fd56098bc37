//! Text as a terminal shows it: what is shown for a character, and how many columns wide that is.

/// Whether a character is not shown as itself: a control character, or one that turns the direction of a line.
fn is_hidden(letter: char) -> bool {
    letter.is_control() || matches!(letter, '\u{200e}' | '\u{200f}' | '\u{202a}'..='\u{202e}' | '\u{2066}'..='\u{2069}')
}

/// A text with four spaces for each tab, and U+FFFD for each character that is not shown as itself.
pub fn shown(text: &str) -> String {
    let mut line = String::with_capacity(text.len());
    for letter in text.chars() {
        match letter {
            '\t' => line.push_str("    "),
            _ if is_hidden(letter) => line.push('\u{fffd}'),
            _ => line.push(letter),
        }
    }
    line
}

/// The columns of a character that is shown: two for those of East Asian wide and full width and for
/// pictures, none for those that combine with the one in front, else one.
fn width(letter: char) -> usize {
    match u32::from(letter) {
        0x300..=0x36f | 0x200b..=0x200d | 0x20d0..=0x20ff | 0xfe00..=0xfe0f | 0xfe20..=0xfe2f | 0xfeff => 0,
        0x1100..=0x115f | 0x2e80..=0x303e | 0x3041..=0xa4cf | 0xa960..=0xa97f | 0xac00..=0xd7a3 => 2,
        0xf900..=0xfaff | 0xfe10..=0xfe19 | 0xfe30..=0xfe6f | 0xff01..=0xff60 | 0xffe0..=0xffe6 => 2,
        0x1f300..=0x1f64f | 0x1f680..=0x1f6ff | 0x1f900..=0x1f9ff | 0x20000..=0x3fffd => 2,
        _ => 1,
    }
}

/// The columns of a text that is shown.
pub fn columns(line: &str) -> usize {
    line.chars().map(width).sum()
}

/// The longest front of a line that is at most so many columns wide.
pub fn front(line: &str, most: usize) -> &str {
    let mut columns = 0;
    let end = line.char_indices().find(|(_, letter)| {
        columns += width(*letter);
        columns > most
    });
    end.map_or(line, |(end, _)| &line[..end])
}

/// The longest end of a line that is at most so many columns wide.
pub fn back(line: &str, most: usize) -> &str {
    let mut columns = 0;
    let start = line.char_indices().rev().find(|(_, letter)| {
        columns += width(*letter);
        columns > most
    });
    start.map_or(line, |(start, letter)| &line[start + letter.len_utf8()..])
}
