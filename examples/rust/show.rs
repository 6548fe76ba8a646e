//! Prints a value table row by row, with the names that its type table gives.

use crate::attrywind::{kind, Table, Value, TYPE_FIELDS, VALUE_FIELDS};

const KINDS: [&str; 9] = [
    "BOOLEAN", "INTEGER", "ENUMERATED", "NULL", "OCTET STRING", "UTF8String", "SEQUENCE", "SEQUENCE OF", "CHOICE",
];

struct Walk<'a> {
    table: &'a Table,
    value: &'a Value,
    at: usize,
}

/// The value must be what reading by this table gave.
pub fn show_rows(table: &Table, value: &Value) {
    let mut walk = Walk { table, value, at: 0 };
    println!(" row  kind        a        b  size");
    walk.numbers(0);
    walk.value(0, 0);
}

impl<'a> Walk<'a> {
    fn type_row(&self, row: u32) -> &'a [u32] {
        &self.table.types[row as usize * TYPE_FIELDS..][..TYPE_FIELDS]
    }

    fn next_row(&self) -> &'a [u32] {
        &self.value.rows[self.at * VALUE_FIELDS..][..VALUE_FIELDS]
    }

    fn name(&self, member: u32) -> String {
        let m = self.type_row(member);
        String::from_utf8_lossy(&self.table.names[m[3] as usize..][..m[4] as usize]).into_owned()
    }

    /// The numbers of the row that comes next, and the space before its name.
    fn numbers(&self, depth: usize) {
        let r = self.next_row();
        print!("{:4} {:5} {:8} {:8} {:5}  {:indent$}", self.at, r[0], r[1], r[2], r[3], "", indent = 2 * depth);
    }

    fn member(&mut self, member: u32, depth: usize) {
        self.numbers(depth);
        print!("{}: ", self.name(member));
        if self.next_row()[0] != kind::ABSENT {
            return self.value(self.type_row(member)[2], depth);
        }
        println!("absent");
        self.at += 1;
    }

    fn item(&mut self, position: u32, type_at: u32, depth: usize) {
        self.numbers(depth);
        print!("item {position}: ");
        self.value(type_at, depth);
    }

    /// The value of the next row, whose numbers and name are printed already, and its parts.
    fn value(&mut self, type_at: u32, depth: usize) {
        let (of_type, row) = (self.type_row(type_at), self.next_row());
        self.at += 1;
        println!("{} {}", KINDS[of_type[0] as usize], self.content(of_type, row));
        match of_type[0] {
            kind::SEQUENCE => (0..of_type[3]).for_each(|i| self.member(of_type[2] + i, depth + 1)),
            kind::SEQUENCE_OF => (0..row[1]).for_each(|i| self.item(i, of_type[2], depth + 1)),
            kind::CHOICE => self.member(of_type[2] + row[1], depth + 1),
            _ => {}
        }
    }

    /// What a row says beside its kind.
    fn content(&self, of_type: &[u32], row: &[u32]) -> String {
        let pooled = || &self.value.pool[row[1] as usize..][..row[2] as usize];
        match of_type[0] {
            kind::BOOLEAN => (row[1] == 1).to_string(),
            kind::INTEGER => ((u64::from(row[2]) << 32 | u64::from(row[1])) as i64).to_string(),
            kind::NULL => "null".to_string(),
            kind::OCTET_STRING => pooled().iter().map(|b| format!("{b:02X}")).collect(),
            kind::UTF8_STRING => {
                let shown = String::from_utf8_lossy(pooled()).replace(|c: char| c.is_ascii_control(), ".");
                format!("\"{shown}\"")
            }
            kind::SEQUENCE => format!("{} present", row[1]),
            kind::SEQUENCE_OF => format!("{} items", row[1]),
            kind::ENUMERATED | kind::CHOICE => self.name(of_type[2] + row[1]),
            other => format!("of kind {other}"),
        }
    }
}
