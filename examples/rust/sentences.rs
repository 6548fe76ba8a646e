//! Refusals in words, for a partner desk.

use crate::attrywind::Refusal;

/// By number, from 1. {place}, {1} and {2} stand for the byte's place and the amounts.
const SENTENCES: [&str; 15] = [
    "Our own type table breaks a rule at row {1}. The message was not looked at; this is ours to mend.",
    "The message is longer than {1} bytes. Please send it in parts.",
    "The message is not JSON at {place}: a comma, quotation mark or bracket is missing or wrong there, or the message \
     ends too early.",
    "At {place} a 33rd bracket is opened while 32 are open. Please nest less deeply.",
    "At {place} stands a value of another kind than belongs there, such as a string in place of a number.",
    "The number at {place} has a fraction or an exponent, or passes 64 bits. Please send a whole number.",
    "The string at {place} cannot be taken: its hexadecimal or Base64 is wrong, or it is no word of the list that \
     belongs there.",
    "The name at {place} is not known, and this object takes no others. Is it misspelled?",
    "The name at {place} stands in its object for the second time. Please send each member once.",
    "At {place} the members do not add up: one that is needed is missing, or there is one too many.",
    "At {place} stands a word or a choice of a newer version than ours. Please tell us your version.",
    "The value that we wanted to write breaks a rule at row {1}; this is ours to mend.",
    "The text that we wanted to write would have {1} bytes, and at most 65,536 are sent.",
    "The room that we lent is too small. A read needs {1} rows and {2} pool bytes, a write {1} bytes of text.",
    "Line {1} of the program's input is missing, too long or not hexadecimal.",
];

/// Refusals whose first amount is a byte of the text.
fn has_place(refusal: Refusal) -> bool {
    (3..=11).contains(&refusal.number)
}

fn place(at: usize, text: &[u8]) -> String {
    let before = &text[..at.min(text.len())];
    let line = 1 + before.iter().filter(|&&b| b == b'\n').count();
    let column = 1 + before.iter().rev().take_while(|&&b| b != b'\n').count();
    format!("byte {at} (line {line}, column {column})")
}

/// Up to 20 bytes on each side of the place. Whatever a desk's screen might act on is shown as a point.
fn near(at: usize, text: &[u8]) -> String {
    let (before, after) = text.split_at(at.min(text.len()));
    let shown = |bytes: &[u8]| -> String {
        bytes.iter().map(|&b| if (0x20..0x7F).contains(&b) { b as char } else { '.' }).collect()
    };
    let before = shown(&before[before.len().saturating_sub(20)..]);
    let after = shown(&after[..after.len().min(20)]);
    format!("    near: {before} >>>{}{after}", if after.is_empty() { "" } else { " " })
}

/// The sentence of a refusal, with the place in the text it is about.
pub fn say(refusal: Refusal, text: &[u8]) {
    let at = refusal.first as usize;
    let template = SENTENCES.get((refusal.number as usize).wrapping_sub(1)).copied().unwrap_or("No known refusal.");
    let sentence = template
        .replace("{place}", &place(at, text))
        .replace("{1}", &refusal.first.to_string())
        .replace("{2}", &refusal.second.to_string());
    println!("    {sentence}");
    if has_place(refusal) {
        println!("{}", near(at, text));
    }
}
