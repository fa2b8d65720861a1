//! Files of records: a head line of numbers with the listing's length first, in five digits, the listing's bytes, byte 10.

/// One record as it stands in the file.
pub struct Stored<'a> {
    /// The numbers of the head line after the length.
    pub numbers: Vec<u32>,
    pub listing: &'a [u8],
}

/// All records of a file, each with so many numbers after the length.
pub fn parse(bytes: &[u8], count: usize) -> Result<Vec<Stored<'_>>, String> {
    let mut records = vec![];
    let mut rest = bytes;
    while !rest.is_empty() {
        let cut = || format!("record {} is cut off", records.len());
        let end = rest.iter().position(|&b| b == b'\n').ok_or_else(cut)?;
        let (length, numbers) =
            head(&rest[..end], count).ok_or_else(|| format!("record {} has no head line", records.len()))?;
        let listing = rest.get(end + 1..end + 1 + length).ok_or_else(cut)?;
        if rest.get(end + 1 + length) != Some(&b'\n') {
            return Err(cut());
        }
        rest = &rest[end + 2 + length..];
        records.push(Stored { numbers, listing });
    }
    Ok(records)
}

/// The length and the other numbers of a head line.
fn head(line: &[u8], count: usize) -> Option<(usize, Vec<u32>)> {
    let text = std::str::from_utf8(line).ok()?;
    if text.split(',').next()?.len() != 5 {
        return None;
    }
    let numbers = text.split(',').map(|field| field.parse().ok()).collect::<Option<Vec<u32>>>()?;
    (numbers.len() == count + 1).then(|| (numbers[0] as usize, numbers[1..].to_vec()))
}

/// The lines of a file, each with its byte 10.
pub fn lines(bytes: &[u8]) -> Result<Vec<&str>, String> {
    let text = std::str::from_utf8(bytes).map_err(|e| e.to_string())?;
    let whole = text.strip_suffix('\n').ok_or("the last line of stdout is cut off")?;
    Ok(whole.split('\n').collect())
}
