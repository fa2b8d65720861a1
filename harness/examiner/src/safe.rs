//! A safe wrapper around the examiner's C exports. It needs nothing but the standard library: copy this file, and link
//! libbithoven_examiner.a (`tools/build bithoven_examiner` writes it). With cargo, let a build.rs print
//! `cargo:rustc-link-search=native=FOLDER` and `cargo:rustc-link-lib=static=bithoven_examiner`; with rustc, pass `-L FOLDER -l
//! static=bithoven_examiner`.

use std::fmt;
use std::thread;

extern "C" {
    fn bithoven_check(listing: *const u8, length: usize, answer: *mut u32) -> u32;
    fn bithoven_report(listing: *const u8, length: usize, output: *mut u8, room: usize, answer: *mut u32) -> usize;
    fn bithoven_name(listing: *const u8, length: usize, path: u32, position: u32, place: *mut u32) -> u32;
    fn bithoven_rehearse_open(
        listing: *const u8,
        length: usize,
        path: u32,
        rehearsal: *mut u32,
        due: *mut u32,
        answer: *mut u32,
    ) -> u32;
    fn bithoven_rehearse_lay(
        listing: *const u8,
        length: usize,
        name: *const u8,
        name_length: usize,
        ty: u32,
        rehearsal: *mut u32,
        due: *mut u32,
        answer: *mut u32,
    ) -> u32;
    fn bithoven_rehearse_take_back(
        listing: *const u8,
        length: usize,
        rehearsal: *mut u32,
        due: *mut u32,
        answer: *mut u32,
    ) -> u32;
}

/// A call takes up to 0.19 MB of its thread's stack, and nothing checks it: each is made on a thread with this much.
const STACK: usize = 2 << 20;

/// No report is longer. Each line of an acceptance comes of a line of the listing (`A` of `T`, `D` of `D`, `P` of `P`, `W` of
/// `L`), of which there are at most 1024. The longest line is `P,31,3,1,1024,`, a name of 32 bytes and byte 10: 47 bytes; a wait
/// has at most 18, `W,1024,4294967295` and byte 10. So there are at most 1024 * 47 = 48128 bytes. A refusal has at most 49.
const LONGEST_REPORT: usize = 1 << 16;

/// A refusal: its number and its place.
#[derive(Clone, Copy, Debug, PartialEq, Eq)]
pub struct Refusal {
    pub number: u32,
    pub start: u32,
    pub end: u32,
    pub line: u32,
    pub column: u32,
}

impl fmt::Display for Refusal {
    fn fmt(&self, f: &mut fmt::Formatter) -> fmt::Result {
        let Refusal { number, start, end, line, column } = self;
        match number {
            31 => write!(f, "refused, 31: no such path"),
            32 => write!(f, "refused, 32: not the item due"),
            _ => write!(f, "refused, {number} at line {line}, column {column} (bytes {start} to {end})"),
        }
    }
}

impl std::error::Error for Refusal {}

fn answered([number, start, end, line, column]: [u32; 5]) -> Result<(), Refusal> {
    if number == 0 {
        Ok(())
    } else {
        Err(Refusal { number, start, end, line, column })
    }
}

fn on_a_deep_stack<T: Send>(call: impl FnOnce() -> T + Send) -> T {
    thread::scope(|scope| {
        let spawned = thread::Builder::new().stack_size(STACK).spawn_scoped(scope, call);
        spawned.expect("a thread with 2 MB of stack").join().expect("the examiner does not panic")
    })
}

/// Is the listing accepted?
pub fn check(listing: &[u8]) -> Result<(), Refusal> {
    let mut answer = [0; 5];
    let words = &mut answer;
    // SAFETY: the listing has the length given, the answer has five words, and the two do not overlap.
    on_a_deep_stack(move || unsafe { bithoven_check(listing.as_ptr(), listing.len(), words.as_mut_ptr()) });
    answered(answer)
}

/// The same, and the text of the report: an acceptance with the items of each path and, after them, the number that the script
/// carries for each wait; or the refusal.
pub fn report(listing: &[u8]) -> (Vec<u8>, Result<(), Refusal>) {
    let (mut text, mut answer) = (vec![0; LONGEST_REPORT], [0; 5]);
    let (output, words) = (&mut text[..], &mut answer);
    // SAFETY: as above; the output has the length given, and none of the three overlap.
    let length = on_a_deep_stack(move || unsafe {
        bithoven_report(listing.as_ptr(), listing.len(), output.as_mut_ptr(), output.len(), words.as_mut_ptr())
    });
    text.truncate(length);
    (text, answered(answer))
}

/// The name of the item at a position of a path, 0 being the top, as the listing holds it; nothing if there is no such item.
pub fn name(listing: &[u8], path: u32, position: u32) -> Result<Option<&[u8]>, Refusal> {
    let mut place = [0; 2];
    let words = &mut place;
    // SAFETY: the listing has the length given, the place has two words, and the two do not overlap.
    let number = on_a_deep_stack(move || unsafe {
        bithoven_name(listing.as_ptr(), listing.len(), path, position, words.as_mut_ptr())
    });
    if number != 0 {
        check(listing)?; // for the place of the refusal
    }
    let [at, length] = place.map(|word| word as usize);
    Ok(if length == 0 { None } else { Some(&listing[at..at + length]) })
}

/// The type of an item.
#[derive(Clone, Copy, Debug, PartialEq, Eq)]
pub enum Type {
    Signature = 0,
    Number = 1,
    String = 2,
    Boolean = 3,
}

/// An item of a path: its name, as the listing holds it, and its type.
#[derive(Clone, Copy, Debug, PartialEq, Eq)]
pub struct Item<'a> {
    pub name: &'a [u8],
    pub ty: Type,
}

/// What a rehearsal shows.
#[derive(Clone, Copy, Debug, PartialEq, Eq)]
pub enum Shown<'a> {
    /// The item to lay next.
    Due(Item<'a>),
    /// The items laid are all items of the path, from the top.
    Ended,
}

/// A rehearsal: the items of one path are laid in order, from the top, and can be taken back. It keeps how many are laid, and
/// no listing: each call is lent the one that was opened. A refusal leaves the rehearsal as it was.
#[derive(Clone, Copy, Debug, PartialEq, Eq)]
pub struct Rehearsal {
    path: u32,
    position: u32,
}

/// What the calls of a rehearsal write.
struct Words {
    rehearsal: [u32; 2],
    due: [u32; 4],
    answer: [u32; 5],
}

impl Rehearsal {
    /// Opens a rehearsal of a path, 0 being the first. 31 if the path does not exist.
    pub fn open(listing: &[u8], path: u32) -> Result<(Rehearsal, Shown<'_>), Refusal> {
        let mut opened = Rehearsal { path, position: 0 };
        // SAFETY: the listing has the length given, the words are two, four and five, and none of them overlap.
        let shown = opened.call(listing, |Words { rehearsal, due, answer }| unsafe {
            let (rehearsal, due, answer) = (rehearsal.as_mut_ptr(), due.as_mut_ptr(), answer.as_mut_ptr());
            bithoven_rehearse_open(listing.as_ptr(), listing.len(), path, rehearsal, due, answer)
        })?;
        Ok((opened, shown))
    }

    /// Lays an item. 32 if it is not the one due, also if none is due.
    pub fn lay<'a>(&mut self, listing: &'a [u8], name: &[u8], ty: Type) -> Result<Shown<'a>, Refusal> {
        // SAFETY: as above; the name has the length given, and may be a part of the listing, which is only read.
        self.call(listing, |Words { rehearsal, due, answer }| unsafe {
            let (rehearsal, due, answer) = (rehearsal.as_mut_ptr(), due.as_mut_ptr(), answer.as_mut_ptr());
            bithoven_rehearse_lay(
                listing.as_ptr(),
                listing.len(),
                name.as_ptr(),
                name.len(),
                ty as u32,
                rehearsal,
                due,
                answer,
            )
        })
    }

    /// Takes the last item back; at the beginning nothing changes.
    pub fn take_back<'a>(&mut self, listing: &'a [u8]) -> Result<Shown<'a>, Refusal> {
        // SAFETY: as above.
        self.call(listing, |Words { rehearsal, due, answer }| unsafe {
            let (rehearsal, due, answer) = (rehearsal.as_mut_ptr(), due.as_mut_ptr(), answer.as_mut_ptr());
            bithoven_rehearse_take_back(listing.as_ptr(), listing.len(), rehearsal, due, answer)
        })
    }

    /// The path.
    pub fn path(&self) -> u32 {
        self.path
    }

    /// How many items are laid: the position of the item due, 0 being the top.
    pub fn laid(&self) -> u32 {
        self.position
    }

    fn call<'a>(&mut self, listing: &'a [u8], call: impl FnOnce(&mut Words) -> u32 + Send) -> Result<Shown<'a>, Refusal> {
        let mut words = Words { rehearsal: [self.path, self.position], due: [0; 4], answer: [0; 5] };
        let lent = &mut words;
        on_a_deep_stack(move || call(lent));
        answered(words.answer)?;
        [self.path, self.position] = words.rehearsal;
        let [due, at, length, ty] = words.due;
        if due == 0 {
            return Ok(Shown::Ended);
        }
        let ty = match ty {
            0 => Type::Signature,
            1 => Type::Number,
            2 => Type::String,
            3 => Type::Boolean,
            _ => unreachable!("{ty} is no type"),
        };
        Ok(Shown::Due(Item { name: &listing[at as usize..][..length as usize], ty }))
    }
}

#[cfg(test)]
mod tests {
    use super::*;

    /// One path that returns true, with one item that nothing takes, or with none.
    const ACCEPTED: &[u8] = b"T,0,1\nD,0\nB,1\nE,0,1,1,0\nb,1,2,1,1,1\n";
    const LEFT_OVER: &[u8] = b"T,0,1\nD,1\nP,7,8,3,4,3,a\nB,1\nE,0,1,1,0\nb,1,2,1,1,1\n";

    #[test]
    fn an_acceptance() {
        assert_eq!(check(ACCEPTED), Ok(()));
        assert_eq!(report(ACCEPTED), (b"A,1\nD,0,0\n".to_vec(), Ok(())));
    }

    /// A wait of each op; `last` is the op and the operand of the third.
    fn with_waits(last: &str) -> Vec<u8> {
        let waits = format!("L,1,2,1,0,0,4294967295\nL,3,4,2,0,1,144\nL,5,6,3,0,{last}\n");
        format!("T,0,1\nD,0\nB,4\n{waits}E,7,8,4,0\nb,7,8,4,0,1\n").into_bytes()
    }

    #[test]
    fn waits() {
        let text = b"A,1\nD,0,0\nW,4,4294967295\nW,5,144\nW,6,4259839\n";
        assert_eq!(report(&with_waits("2,65535")), (text.to_vec(), Ok(())));
        let refusal = Refusal { number: 21, start: 5, end: 6, line: 3, column: 0 };
        assert_eq!(report(&with_waits("2,65536")), (b"R,21,5,6,3,0\n".to_vec(), Err(refusal)));
        assert_eq!(check(&with_waits("2,-1")), Err(refusal));
        assert_eq!(check(&with_waits("3,0")).map_err(|r| (r.number, r.line)), Err((2, 6)));
    }

    /// As many lines as there can be, all waits but five.
    #[test]
    fn a_report_of_many_waits() {
        let waits = "L,0,0,0,0,0,4294967295\n".repeat(1019);
        let listing = format!("T,0,1\nD,0\nB,1020\n{waits}E,0,0,0,0\nb,0,0,0,0,1\n");
        let due: String = (4..1023).map(|line| format!("W,{line},4294967295\n")).collect();
        assert_eq!(report(listing.as_bytes()), (format!("A,1\nD,0,0\n{due}").into_bytes(), Ok(())));
    }

    #[test]
    fn names() {
        let listing =
            b"T,0,1\nD,2\nP,0,1,1,0,3,low\nP,2,3,1,2,3,top\nB,1\nE,4,9,2,0\nl,4,9,2,0,1\nv,4,5,2,0,top\nv,6,7,2,2,low\n";
        assert_eq!(name(listing, 0, 0), Ok(Some(&b"top"[..])));
        assert_eq!(name(listing, 0, 1), Ok(Some(&b"low"[..])));
        assert_eq!(name(listing, 0, 2), Ok(None));
        assert_eq!(name(listing, 1, 0), Ok(None));
        assert_eq!(name(listing, u32::MAX, u32::MAX), Ok(None));
        assert_eq!(name(LEFT_OVER, 0, 0).map_err(|r| r.number), Err(14));
    }

    #[test]
    fn a_refusal() {
        let refusal = Refusal { number: 14, start: 7, end: 8, line: 3, column: 4 };
        assert_eq!(check(LEFT_OVER), Err(refusal));
        assert_eq!(report(LEFT_OVER), (b"R,14,7,8,3,4\n".to_vec(), Err(refusal)));
        assert_eq!(refusal.to_string(), "refused, 14 at line 3, column 4 (bytes 7 to 8)");
    }

    #[test]
    fn listings_of_no_bytes_and_of_too_many() {
        assert_eq!(check(b"").map_err(|r| (r.number, r.line)), Err((3, 1)));
        assert_eq!(check(&[b'B'; 32769]).map_err(|r| (r.number, r.line)), Err((1, 0)));
    }

    /// Document 01, "One contract whole". Path 0 has c and p, path 1 has c and n.
    const WORKED: &[u8] = b"T,0,2\nD,2\nP,0,1,1,0,2,p\nP,3,4,1,3,3,c\nD,2\nP,6,7,2,0,1,n\nP,9,10,2,3,3,c\nB,1\n\
        I,20,60,3,0,1\nv,23,24,3,3,c\nB,1\nE,30,44,4,0\nc,37,44,4,7,0\nh,37,40,4,7,0\nv,38,39,4,8,p\n\
        s,42,44,4,12,6161,0\nB,1\nE,50,58,6,0\nc,53,58,6,3,0\nv,53,54,6,3,n\nn,57,58,6,7,7\n";

    fn due(name: &str, ty: Type) -> Shown<'_> {
        Shown::Due(Item { name: name.as_bytes(), ty })
    }

    fn number<T>(answer: Result<T, Refusal>) -> Result<T, u32> {
        answer.map_err(|refusal| refusal.number)
    }

    #[test]
    fn a_rehearsal_to_its_end() {
        for (path, below, ty) in [(0, "p", Type::String), (1, "n", Type::Number)] {
            let (mut rehearsal, shown) = Rehearsal::open(WORKED, path).unwrap();
            assert_eq!(shown, due("c", Type::Boolean));
            assert_eq!(rehearsal.lay(WORKED, b"c", Type::Boolean), Ok(due(below, ty)));
            assert_eq!(rehearsal.lay(WORKED, below.as_bytes(), ty), Ok(Shown::Ended));
            assert_eq!((rehearsal.path(), rehearsal.laid()), (path, 2));
            // after the end
            assert_eq!(number(rehearsal.lay(WORKED, below.as_bytes(), ty)), Err(32));
            assert_eq!(number(rehearsal.lay(WORKED, b"", Type::Signature)), Err(32));
            assert_eq!(rehearsal.laid(), 2);
            assert_eq!(rehearsal.take_back(WORKED), Ok(due(below, ty)));
            assert_eq!(rehearsal.lay(WORKED, below.as_bytes(), ty), Ok(Shown::Ended));
        }
        assert_eq!(Rehearsal::open(ACCEPTED, 0).unwrap().1, Shown::Ended);
    }

    #[test]
    fn an_item_as_it_was_shown_is_the_one_due() {
        let (mut rehearsal, mut shown) = Rehearsal::open(WORKED, 1).unwrap();
        while let Shown::Due(item) = shown {
            shown = rehearsal.lay(WORKED, item.name, item.ty).unwrap();
        }
        assert_eq!(rehearsal.laid(), 2);
    }

    #[test]
    fn wrong_items_change_nothing() {
        let (mut rehearsal, _) = Rehearsal::open(WORKED, 0).unwrap();
        let before = rehearsal;
        let wrong: [(&[u8], Type); 5] = [
            (b"c", Type::String),
            (b"p", Type::Boolean),
            (b"p", Type::String),
            (b"", Type::Boolean),
            (b"c\n", Type::Boolean),
        ];
        for (name, ty) in wrong {
            let refusal = Refusal { number: 32, start: 0, end: 0, line: 0, column: 0 };
            assert_eq!(rehearsal.lay(WORKED, name, ty), Err(refusal));
            assert_eq!(rehearsal, before);
            assert_eq!(refusal.to_string(), "refused, 32: not the item due");
        }
        assert_eq!(rehearsal.lay(WORKED, b"c", Type::Boolean), Ok(due("p", Type::String)));
    }

    #[test]
    fn taking_back_stops_at_the_beginning() {
        let (mut rehearsal, _) = Rehearsal::open(WORKED, 0).unwrap();
        assert_eq!(rehearsal.take_back(WORKED), Ok(due("c", Type::Boolean)));
        assert_eq!(rehearsal.laid(), 0);
        rehearsal.lay(WORKED, b"c", Type::Boolean).unwrap();
        for _ in 0..3 {
            assert_eq!(rehearsal.take_back(WORKED), Ok(due("c", Type::Boolean)));
            assert_eq!(rehearsal.laid(), 0);
        }
    }

    #[test]
    fn no_such_path_and_a_refused_listing() {
        let refusal = Rehearsal::open(WORKED, 2).unwrap_err();
        assert_eq!(refusal, Refusal { number: 31, start: 0, end: 0, line: 0, column: 0 });
        assert_eq!(refusal.to_string(), "refused, 31: no such path");
        assert_eq!(number(Rehearsal::open(WORKED, u32::MAX)), Err(31));
        assert_eq!(Rehearsal::open(LEFT_OVER, 7).map(|_| ()), check(LEFT_OVER));
        // a rehearsal of one listing, lent another that is refused, or that has no such path
        let (mut rehearsal, _) = Rehearsal::open(WORKED, 1).unwrap();
        let before = rehearsal;
        assert_eq!(rehearsal.lay(LEFT_OVER, b"c", Type::Boolean).map(|_| ()), check(LEFT_OVER));
        assert_eq!(rehearsal.take_back(LEFT_OVER).map(|_| ()), check(LEFT_OVER));
        assert_eq!(number(rehearsal.take_back(ACCEPTED)), Err(31));
        assert_eq!(rehearsal, before);
    }
}
