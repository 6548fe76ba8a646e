//! Files, and type tables in hexadecimal as `examples/booking/make.py` makes them.

use crate::attrywind::Table;
use std::path::Path;

pub type Fault = Box<dyn std::error::Error>;

pub fn file(folder: &Path, name: &str) -> Result<Vec<u8>, Fault> {
    std::fs::read(folder.join(name)).map_err(|e| format!("{name}: {e}").into())
}

/// A type table from two lines of hexadecimal.
pub fn table(folder: &Path, name: &str) -> Result<Table, Fault> {
    let text = String::from_utf8(file(folder, name)?)?;
    let mut lines = text.lines();
    let types = numbers(lines.next().unwrap_or(""), 8)?;
    let names = numbers(lines.next().unwrap_or(""), 2)?;
    Ok(Table { types, names: names.into_iter().map(|n| n as u8).collect() })
}

/// `each` digits to a number.
fn numbers(line: &str, each: usize) -> Result<Vec<u32>, Fault> {
    if line.len() % each != 0 || !line.bytes().all(|b| b.is_ascii_hexdigit()) {
        return Err("a line is not whole, or not hexadecimal".into());
    }
    let number = |digits: &[u8]| digits.iter().fold(0, |n, &d| n << 4 | (d as char).to_digit(16).unwrap_or(0));
    Ok(line.as_bytes().chunks(each).map(number).collect())
}
