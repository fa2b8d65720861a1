//! The twin of a listing that has waits of op 2: the same with op 1 in their place. The two ops have the same bounds, so Check's
//! answer is the same, and so is each line of the report but the `W` lines of these waits: there bit 22 is gone.

use super::judge::{disagree, About, Disagreement};
use examiner::Numbers;

/// Bit 22 of the number that a script carries: it counts 512 seconds, not blocks.
const IN_SECONDS: u64 = 4194304;

/// Holds Check and Report on the twin against what they gave on the listing, which can be read.
pub fn holds(listing: &[u8], check: &Numbers, text: &[u8]) -> Result<(), Disagreement> {
    let listing = std::str::from_utf8(listing).expect("a listing that can be read is ASCII");
    let text = std::str::from_utf8(text).expect("so is its report");
    let twin = of_listing(listing);
    let (_, answer) = examiner::check(twin.as_bytes());
    let mut output = vec![0; text.len()];
    let (length, _) = examiner::report(twin.as_bytes(), &mut output);
    let got = String::from_utf8_lossy(&output[..length]);
    let due = of_text(listing, text);
    if answer != *check || got != due {
        let parted = format!("Check {check:?}, with op 1 in place of op 2 {answer:?}");
        return disagree(About::Op2, format!("{parted}\nReport with op 1 in place of op 2:\n{got}\ndue:\n{due}"));
    }
    Ok(())
}

fn is_op_2(line: &str) -> bool {
    let mut fields = line.split(',');
    fields.next() == Some("L") && fields.nth(4) == Some("2")
}

/// The listing with op 1 in place of op 2.
fn of_listing(listing: &str) -> String {
    let twin = |line: &str| match line.rsplit_once(",2,") {
        Some((before, operand)) if is_op_2(line) => format!("{before},1,{operand}\n"),
        _ => format!("{line}\n"),
    };
    listing.lines().map(twin).collect()
}

/// The report with bit 22 taken off the numbers of waits of op 2.
fn of_text(listing: &str, text: &str) -> String {
    let lines: Vec<&str> = listing.lines().collect();
    let number = |field: &str| field.parse::<u64>().unwrap();
    let twin = |line: &str| match line.split(',').collect::<Vec<_>>()[..] {
        ["W", at, carried] if is_op_2(lines[number(at) as usize - 1]) => {
            format!("W,{at},{}\n", number(carried) - IN_SECONDS)
        }
        _ => format!("{line}\n"),
    };
    text.lines().map(twin).collect()
}

#[cfg(test)]
mod tests {
    use super::*;

    /// A wait of each op; the location of one spells `,2,` as well.
    #[test]
    fn only_op_2_changes() {
        let listing = "T,2,1\nD,0\nB,4\nL,2,2,2,2,0,2\nL,2,2,2,2,1,2\nL,2,2,2,2,2,2\nE,2,2,2,2\nb,2,2,2,2,1\n";
        let twin = "T,2,1\nD,0\nB,4\nL,2,2,2,2,0,2\nL,2,2,2,2,1,2\nL,2,2,2,2,1,2\nE,2,2,2,2\nb,2,2,2,2,1\n";
        assert_eq!(of_listing(listing), twin);
        assert_eq!(of_listing(twin), twin);
        let text = "A,1\nD,0,0\nW,4,2\nW,5,2\nW,6,4194306\n";
        assert_eq!(of_text(listing, text), "A,1\nD,0,0\nW,4,2\nW,5,2\nW,6,2\n");
        assert_eq!(of_text(listing, "R,18,2,2,2,2\n"), "R,18,2,2,2,2\n");
    }
}
