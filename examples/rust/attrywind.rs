//! Safe wrappers of libcapi.a. `include/attrywind.h` says what a caller owes; here the borrow checker sees to it: a slice
//! of Rust is never null, is aligned, and a `&mut` one overlaps no other. So only the answer is tested.

/// Field 0 of a row.
pub mod kind {
    pub const BOOLEAN: u32 = 0;
    pub const INTEGER: u32 = 1;
    pub const ENUMERATED: u32 = 2;
    pub const NULL: u32 = 3;
    pub const OCTET_STRING: u32 = 4;
    pub const UTF8_STRING: u32 = 5;
    pub const SEQUENCE: u32 = 6;
    pub const SEQUENCE_OF: u32 = 7;
    pub const CHOICE: u32 = 8;
    pub const ABSENT: u32 = 15;
}

/// 32-bit numbers to a row of a type table and of a value table.
pub const TYPE_FIELDS: usize = 8;
pub const VALUE_FIELDS: usize = 4;

/// Numbers that `attrywind_read_each` tells of a text.
const TOLD: usize = 5;

/// Refusal 14: lent room too small.
const LENT_ROOM: u32 = 14;

#[link(name = "capi", kind = "static")]
extern "C" {
    fn attrywind_check_table(
        types: *const u32, types_len: usize, names: *const u8, names_len: usize, amounts: *mut u64, amounts_len: usize,
    ) -> u32;
    fn attrywind_read(
        types: *const u32, types_len: usize, names: *const u8, names_len: usize, text: *const u8, text_len: usize,
        rows: *mut u32, rows_len: usize, pool: *mut u8, pool_len: usize, amounts: *mut u64, amounts_len: usize,
    ) -> u32;
    fn attrywind_read_each(
        types: *const u32, types_len: usize, names: *const u8, names_len: usize, texts: *const u8, texts_len: usize,
        ends: *const u64, ends_len: usize, rows: *mut u32, rows_len: usize, pool: *mut u8, pool_len: usize,
        tells: *mut u64, tells_len: usize, amounts: *mut u64, amounts_len: usize,
    ) -> u32;
    fn attrywind_write(
        types: *const u32, types_len: usize, names: *const u8, names_len: usize, values: *const u32, values_len: usize,
        pool: *const u8, pool_len: usize, text: *mut u8, text_len: usize, amounts: *mut u64, amounts_len: usize,
    ) -> u32;
}

/// Document 01's number, with its place, row or amounts.
#[derive(Clone, Copy, Debug, PartialEq, Eq)]
pub struct Refusal {
    pub number: u32,
    pub first: u64,
    pub second: u64,
}

/// A type table, as numbers and names. `read` and `write` judge it each time; `check` judges it alone.
pub struct Table {
    pub types: Vec<u32>,
    pub names: Vec<u8>,
}

/// A value table: rows of four numbers and the pool beside.
#[derive(Clone, Debug, PartialEq, Eq)]
pub struct Value {
    pub rows: Vec<u32>,
    pub pool: Vec<u8>,
}

fn answer(number: u32, amounts: [u64; 2]) -> Result<(usize, usize), Refusal> {
    if number != 0 {
        return Err(Refusal { number, first: amounts[0], second: amounts[1] });
    }
    Ok((amounts[0] as usize, amounts[1] as usize))
}

impl Table {
    pub fn check(&self) -> Result<(), Refusal> {
        let mut amounts = [0; 2];
        // SAFETY: each pointer and length are one slice's; only `amounts` is written, and nothing else borrows it.
        let number = unsafe {
            attrywind_check_table(
                self.types.as_ptr(), self.types.len(), self.names.as_ptr(), self.names.len(),
                amounts.as_mut_ptr(), amounts.len(),
            )
        };
        answer(number, amounts).map(|_| ())
    }

    /// How many rows and pool bytes of the room were used.
    pub fn read_into(&self, text: &[u8], rows: &mut [u32], pool: &mut [u8]) -> Result<(usize, usize), Refusal> {
        let mut amounts = [0; 2];
        // SAFETY: as in `check`; `rows` and `pool` are borrowed by this call alone.
        let number = unsafe {
            attrywind_read(
                self.types.as_ptr(), self.types.len(), self.names.as_ptr(), self.names.len(),
                text.as_ptr(), text.len(), rows.as_mut_ptr(), rows.len(), pool.as_mut_ptr(), pool.len(),
                amounts.as_mut_ptr(), amounts.len(),
            )
        };
        answer(number, amounts)
    }

    /// Reads the texts that stand one after another in `texts` and end at `ends`, and hands over what came of each: its
    /// value, as slices of the room, or its refusal. One that finds no room is the last.
    pub fn read_each<'a>(
        &self, texts: &[u8], ends: &[u64], rows: &'a mut [u32], pool: &'a mut [u8],
    ) -> Result<Vec<Result<(&'a [u32], &'a [u8]), Refusal>>, Refusal> {
        let mut tells = vec![0; ends.len() * TOLD];
        let mut amounts = [0; 2];
        // SAFETY: as in `read_into`; `tells` is this function's own.
        let number = unsafe {
            attrywind_read_each(
                self.types.as_ptr(), self.types.len(), self.names.as_ptr(), self.names.len(),
                texts.as_ptr(), texts.len(), ends.as_ptr(), ends.len(), rows.as_mut_ptr(), rows.len(),
                pool.as_mut_ptr(), pool.len(), tells.as_mut_ptr(), tells.len(), amounts.as_mut_ptr(), amounts.len(),
            )
        };
        let (count, _) = answer(number, amounts)?;
        let (rows, pool): (&'a [u32], &'a [u8]) = (rows, pool);
        let (mut row, mut byte) = (0, 0);
        Ok(tells.chunks(TOLD).take(count).map(|told| {
            let (from, start) = (row, byte);
            (row, byte) = (told[3] as usize * VALUE_FIELDS, told[4] as usize);
            match told[0] {
                0 => Ok((&rows[from..row], &pool[start..byte])),
                number => Err(Refusal { number: number as u32, first: told[1], second: told[2] }),
            }
        }).collect())
    }

    /// How many bytes of the room were used.
    pub fn write_into(&self, value: &Value, text: &mut [u8]) -> Result<usize, Refusal> {
        let mut amounts = [0; 2];
        // SAFETY: as in `check`; `text` is borrowed by this call alone.
        let number = unsafe {
            attrywind_write(
                self.types.as_ptr(), self.types.len(), self.names.as_ptr(), self.names.len(),
                value.rows.as_ptr(), value.rows.len(), value.pool.as_ptr(), value.pool.len(),
                text.as_mut_ptr(), text.len(), amounts.as_mut_ptr(), amounts.len(),
            )
        };
        answer(number, amounts).map(|(bytes, _)| bytes)
    }

    /// Four amounts after a reading without room for rows, of which only the first `lent` are lent: for trying what
    /// their length counts. `amounts` says what they were before.
    pub fn read_amounts(&self, text: &[u8], mut amounts: [u64; 4], lent: usize) -> [u64; 4] {
        let (rows, pool): (&mut [u32], &mut [u8]) = (&mut [], &mut []);
        let room = &mut amounts[..lent];
        // SAFETY: as in `read_into`.
        unsafe {
            attrywind_read(
                self.types.as_ptr(), self.types.len(), self.names.as_ptr(), self.names.len(),
                text.as_ptr(), text.len(), rows.as_mut_ptr(), rows.len(), pool.as_mut_ptr(), pool.len(),
                room.as_mut_ptr(), room.len(),
            )
        };
        amounts
    }

    /// Asks how much room is needed, makes it, and reads.
    pub fn read(&self, text: &[u8]) -> Result<Value, Refusal> {
        let needed = match self.read_into(text, &mut [], &mut []) {
            Err(refusal) if refusal.number == LENT_ROOM => refusal,
            Err(refusal) => return Err(refusal),
            Ok(_) => unreachable!("every value has a row"),
        };
        let mut rows = vec![0; needed.first as usize * VALUE_FIELDS];
        let mut pool = vec![0; needed.second as usize];
        self.read_into(text, &mut rows, &mut pool)?;
        Ok(Value { rows, pool })
    }

    /// Asks how much room is needed, makes it, and writes.
    pub fn write(&self, value: &Value) -> Result<Vec<u8>, Refusal> {
        let needed = match self.write_into(value, &mut []) {
            Err(refusal) if refusal.number == LENT_ROOM => refusal,
            Err(refusal) => return Err(refusal),
            Ok(_) => unreachable!("no text is empty"),
        };
        let mut text = vec![0; needed.first as usize];
        self.write_into(value, &mut text)?;
        Ok(text)
    }
}
