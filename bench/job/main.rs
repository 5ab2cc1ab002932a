//! The payroll as a plain program, to measure against: time sheets on standard input, pay slips on standard output.
//!
//! It reads a record of CSV at a time, and writes its pay slip at once, on one thread. It is written as one would ship it. What it leaves
//! out: it keeps no checkpoint, so after a kill it begins anew, and its slips are written twice. It tells no progress and counts no skipped
//! time sheet. A fourth field means nothing to it. Numbers are as `parse` of Rust reads them, so `+5` is one.

use csv::{ByteRecord, ReaderBuilder, WriterBuilder};
use std::error::Error;
use std::io;

fn number_of(field: &[u8]) -> Option<u64> {
    str::from_utf8(field).ok()?.parse().ok()
}

/// The name and the pay of a time sheet, if it has a pay slip.
fn slip_of(sheet: &ByteRecord) -> Option<(&[u8], u64)> {
    let pay = number_of(sheet.get(1)?)?.checked_mul(number_of(sheet.get(2)?)?)?;
    Some((&sheet[0], pay))
}

fn main() -> Result<(), Box<dyn Error>> {
    let mut reader = ReaderBuilder::new().has_headers(false).flexible(true).from_reader(io::stdin().lock());
    let mut writer = WriterBuilder::new().from_writer(io::stdout().lock());
    let (mut sheet, mut buffer) = (ByteRecord::new(), itoa::Buffer::new());
    while reader.read_byte_record(&mut sheet)? {
        if let Some((name, pay)) = slip_of(&sheet) {
            writer.write_record([name, buffer.format(pay).as_bytes()])?;
        }
    }
    Ok(writer.flush()?)
}
