//! Holds the reader of listing.rs against stored listings whose head lines are `length,number,line`.

use crate::listing;
use crate::stored;

/// How many were compared, or the first that differs.
pub fn compare(bytes: &[u8]) -> Result<usize, String> {
    let records = stored::parse(bytes, 2)?;
    for record in &records {
        let read = match listing::read(record.listing) {
            Ok(_) => vec![0, 0],
            Err(refusal) => vec![u32::from(refusal.number), refusal.line],
        };
        // What the head line says of a listing that is read, but for its number 0, is not the reader's.
        let alike = read == record.numbers || read[0] == 0 && record.numbers[0] == 0;
        if !alike {
            let text = String::from_utf8_lossy(record.listing);
            return Err(format!("stored {:?}, read {read:?}:\n{text}", record.numbers));
        }
    }
    Ok(records.len())
}
