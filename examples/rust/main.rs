//! Reads a booking from four senders, prints its rows, writes it again, and shows refusals in words.
//!
//!     booking FOLDER      FOLDER is examples/booking

mod attrywind;
mod load;
mod sentences;
mod show;

use attrywind::{kind, Refusal, Table, Value, TYPE_FIELDS, VALUE_FIELDS};
use load::Fault;
use std::path::Path;

const SENDERS: [&str; 4] = ["texts/agency.json", "texts/portal.json", "texts/broker.json", "texts/summer.json"];

const REFUSED: [&str; 9] = [
    "refused/03-comma-lost.json",
    "refused/04-too-many-brackets.json",
    "refused/05-age-as-string.json",
    "refused/06-half-a-berth.json",
    "refused/07-unpadded-token.json",
    "refused/08-cabin-colour.json",
    "refused/09-fare-twice.json",
    "refused/10-no-passengers.json",
    "refused/11-voucher-of-summer.json",
];

fn report<T>(what: &str, answer: Result<T, Refusal>, text: &[u8]) {
    match answer {
        Ok(_) => println!("{what}: no refusal"),
        Err(refusal) => {
            println!("{what}: refusal {}", refusal.number);
            sentences::say(refusal, text);
        }
    }
}

/// What must succeed; its refusal ends the program.
fn need<T>(what: &str, answer: Result<T, Refusal>) -> Result<T, Fault> {
    answer.map_err(|r| format!("{what}: refusal {} ({}, {})", r.number, r.first, r.second).into())
}

fn read_house(folder: &Path, spring: &Table) -> Result<Value, Fault> {
    let text = load::file(folder, "texts/house.json")?;
    let value = need("texts/house.json", spring.read(&text))?;
    let rows = value.rows.len() / VALUE_FIELDS;
    println!("texts/house.json: {} bytes, read as {rows} rows and {} pool bytes\n", text.len(), value.pool.len());
    show::show_rows(spring, &value);
    Ok(value)
}

fn read_senders(folder: &Path, spring: &Table, house: &Value) -> Result<(), Fault> {
    println!("\nother senders, and the summer version's text by the spring table");
    for name in SENDERS {
        let text = load::file(folder, name)?;
        let same = need(name, spring.read(&text))? == *house;
        let words = if same { "the same rows and pool" } else { "OTHER ROWS OR POOL" };
        println!("{name}: {} bytes, {words}", text.len());
    }
    Ok(())
}

/// The senders' texts and a refused one between them, in one call, with room for `values` bookings.
fn read_at_once(folder: &Path, spring: &Table, house: &Value, values: usize) -> Result<(), Fault> {
    let names = [SENDERS[0], REFUSED[5], SENDERS[1], SENDERS[2]];
    let (mut texts, mut ends) = (vec![], vec![]);
    for name in names {
        texts.extend(load::file(folder, name)?);
        ends.push(texts.len() as u64);
    }
    let (mut rows, mut pool) = (vec![0; values * house.rows.len()], vec![0; 4096]);
    let answers = need("reading at once", spring.read_each(&texts, &ends, &mut rows, &mut pool))?;
    println!("\nfour texts at once, with room for {values} bookings: {} answered", answers.len());
    for (name, answer) in names.iter().zip(answers) {
        match answer {
            Err(refusal) => println!("{name}: refusal {}", refusal.number),
            Ok((rows, pool)) if rows == house.rows && pool == house.pool => println!("{name}: the same rows and pool"),
            Ok(_) => println!("{name}: OTHER ROWS OR POOL"),
        }
    }
    Ok(())
}

fn write_house(spring: &Table, house: &Value) -> Result<(), Fault> {
    let text = need("writing", spring.write(house))?;
    println!("\nwritten again: {} bytes\n{}", text.len(), String::from_utf8(text)?);
    Ok(())
}

fn refuse_texts(folder: &Path, spring: &Table) -> Result<(), Fault> {
    println!("\nrefusals, as a partner desk reads them");
    for name in REFUSED {
        let text = load::file(folder, name)?;
        report(name, spring.read(&text), &text);
    }
    Ok(())
}

/// Refusals that come from our side of the call.
fn refuse_calls(spring: &Table, house: &Value) {
    println!("\nrefusals of our own calls");
    let mut short = Table { types: spring.types.clone(), names: spring.names.clone() };
    short.types.truncate(spring.types.len() - TYPE_FIELDS);
    report("a type table without its last row", short.check(), b"");
    report("a text of 65,537 bytes", spring.read(&[b' '; 65537]), b"");
    let mut cut = house.clone();
    cut.rows.truncate(house.rows.len() - VALUE_FIELDS);
    report("a value table without its last row", spring.write(&cut), b"");
    let string = Table { types: vec![kind::UTF8_STRING, 0, 0, 0, 0, 0, 0, 0], names: vec![] };
    let controls = Value { rows: vec![kind::UTF8_STRING, 0, 11000, 1], pool: vec![1; 11000] };
    report("a string of 11,000 control characters", string.write(&controls), b"");
    report("room for 100 bytes of text", spring.write_into(house, &mut [0; 100]), b"");
}

/// Room is painted before a call: where the paint still is, nothing was written.
const PAINT: u8 = 0xA5;

/// Four amounts, of which none, one and two are lent: the length counts numbers, and less than two are not stored.
fn show_amounts(spring: &Table, text: &[u8]) {
    let paint = u64::from_ne_bytes([PAINT; 8]);
    println!("\namounts lent and stored; - is as it was");
    for lent in 0..=2 {
        let after = spring.read_amounts(text, [paint; 4], lent);
        let shown = after.map(|a| if a == paint { "-".to_string() } else { a.to_string() });
        println!("{lent} lent: {}", shown.join(" "));
    }
}

/// Refused calls, with room that is painted: enough of it, and too little.
fn leave_room(folder: &Path, spring: &Table, house: &Value, text: &[u8]) -> Result<(), Fault> {
    let painted_row = u32::from_ne_bytes([PAINT; 4]);
    let (mut rows, mut pool, mut out) = ([painted_row; 400], [PAINT; 400], [PAINT; 400]);
    let mut cut = house.clone();
    cut.rows.pop();
    let mut refusing = spring.read_into(text, &mut rows[..house.rows.len() - 1], &mut pool).is_err()
        && spring.read_into(text, &mut rows, &mut pool[..house.pool.len() - 1]).is_err()
        && spring.write_into(&cut, &mut out).is_err()
        && spring.write_into(house, &mut out[..100]).is_err();
    for name in REFUSED {
        refusing = refusing && spring.read_into(&load::file(folder, name)?, &mut rows, &mut pool).is_err();
    }
    let as_it_was = rows == [painted_row; 400] && pool == [PAINT; 400] && out == [PAINT; 400];
    let words = if refusing && as_it_was { "rows, pool and text as they were" } else { "ONE WAS TAKEN OR WROTE" };
    println!("{} refused calls: {words}", REFUSED.len() + 4);
    Ok(())
}

fn main() -> Result<(), Fault> {
    let folder = std::env::args_os().nth(1).ok_or("booking FOLDER")?;
    let folder = Path::new(&folder);
    let spring = load::table(folder, "spring.hex")?;
    need("spring.hex", spring.check())?;
    println!("spring.hex: a good type table of {} rows", spring.types.len() / TYPE_FIELDS);
    let house = read_house(folder, &spring)?;
    read_senders(folder, &spring, &house)?;
    read_at_once(folder, &spring, &house, 3)?;
    read_at_once(folder, &spring, &house, 2)?;
    write_house(&spring, &house)?;
    refuse_texts(folder, &spring)?;
    refuse_calls(&spring, &house);
    let text = load::file(folder, "texts/house.json")?;
    show_amounts(&spring, &text);
    leave_room(folder, &spring, &house, &text)
}
