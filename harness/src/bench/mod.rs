//! The benchmark: Check and Report beside the original, and the calls of a rehearsal beside Check, on the same listings, in
//! one process.

mod clock;
mod counts;
mod inputs;
mod sides;

use crate::oracle::STACK;
use counts::Counted;
use inputs::Input;
use sides::{Bench, Side, REHEARSAL, SIDES};
use std::io::Write;

/// `bench`; or one side on one listing, for tools that watch the process: `bench --one NAME --side SIDE [--runs NUMBER]`; or a
/// listing itself, on standard output: `bench --show NAME`.
pub fn run(arguments: &[String]) -> Result<(), String> {
    if let Some(name) = crate::maybe(arguments, "--show") {
        return show(&name);
    }
    let one = crate::maybe(arguments, "--one");
    let side = crate::maybe(arguments, "--side");
    let runs = crate::maybe(arguments, "--runs").map_or(1, |_| crate::number(arguments, "--runs") as usize);
    let work = move || match (one, side) {
        (Some(name), Some(side)) => counted(&name, &side, runs),
        _ => whole(),
    };
    let thread = std::thread::Builder::new().stack_size(STACK).spawn(work).unwrap();
    thread.join().unwrap_or_else(|_| Err("the benchmark panicked".to_string()))
}

/// The listing of this name.
fn input(name: &str) -> Result<Input, String> {
    let name = inputs::NAMES.iter().find(|one| **one == name);
    name.map(|name| inputs::named(name)).ok_or(format!("no such listing; there are: {}", inputs::NAMES.join(", ")))
}

/// Writes a listing to standard output.
fn show(name: &str) -> Result<(), String> {
    std::io::stdout().write_all(&input(name)?.listing).map_err(|e| e.to_string())
}

/// So many runs of one side, and then one that callgrind counts.
fn counted(name: &str, side: &str, runs: usize) -> Result<(), String> {
    let input = input(name)?;
    let side = Side::named(side).ok_or("no such side")?;
    let mut bench = Bench::new(&input.listing);
    if REHEARSAL[1..].contains(&side) && !bench.accepted() {
        return Err("a refused listing is not rehearsed".to_string());
    }
    bench.batch(side, runs);
    bench.counted(side);
    Ok(())
}

/// A call of a rehearsal may take so many times what Check takes.
const REHEARSAL_GOAL: f64 = 1.2;

/// What was found for one listing.
struct Row {
    input: Input,
    /// In the order of `SIDES`.
    times: Vec<f64>,
    counts: Vec<Counted>,
    /// In the order of `REHEARSAL`; nothing if the listing is refused.
    rehearsal_times: Vec<f64>,
    rehearsal_counts: Vec<Counted>,
}

fn whole() -> Result<(), String> {
    let mut rows = vec![];
    for name in inputs::NAMES {
        let input = inputs::named(name);
        let mut bench = Bench::new(&input.listing);
        if !bench.agree() {
            return Err(format!("{}: the two sides do not agree", input.name));
        }
        let times = clock::times(&mut bench, &SIDES);
        let rehearsal_times = if bench.accepted() { clock::times(&mut bench, &REHEARSAL) } else { vec![] };
        drop(bench);
        eprintln!("{} timed", input.name);
        rows.push(Row { input, times, counts: vec![], rehearsal_times, rehearsal_counts: vec![] });
    }
    if counts::available() {
        for row in &mut rows {
            for side in SIDES {
                row.counts.push(counts::count(row.input.name, side)?);
            }
            for side in REHEARSAL.into_iter().take(row.rehearsal_times.len()) {
                row.rehearsal_counts.push(counts::count(row.input.name, side)?);
            }
            eprintln!("{} counted", row.input.name);
        }
    }
    print!("{}", tables(&rows));
    Ok(())
}

/// All tables, as docs/BENCHMARK.md has them.
fn tables(rows: &[Row]) -> String {
    let mut text = String::from("### Times, in nanoseconds\n\n");
    text += &table(rows, |row| row.times.clone());
    text += "\n### Times of a rehearsal, in nanoseconds\n\n";
    text += &rehearsals(rows, |row| row.rehearsal_times.clone());
    if rows.iter().all(|row| !row.counts.is_empty()) {
        text += "\n### Instructions\n\n";
        text += &table(rows, |row| row.counts.iter().map(|counted| counted.total as f64).collect());
        text += "\n### Instructions of a rehearsal\n\n";
        text += &rehearsals(rows, |row| row.rehearsal_counts.iter().map(|counted| counted.total as f64).collect());
        text += "\n### Where Check's instructions go\n\n";
        rows.iter().for_each(|row| text += &functions(row));
    }
    text + "\n### Growth: nanoseconds for a byte\n\n" + &growth(rows)
}

/// A row for each listing: each side, and the examiner as a part of the original.
fn table(rows: &[Row], values: impl Fn(&Row) -> Vec<f64>) -> String {
    let mut text = String::from(
        "| listing | bytes | lines | Check | Report | original with tree | its tree | original alone | Check / with tree | \
         Report / with tree | Check / alone | goal |\n|---|--:|--:|--:|--:|--:|--:|--:|--:|--:|--:|---|\n",
    );
    for row in rows {
        let all = values(row);
        let [check, report, whole, tree, alone] = all[..] else { unreachable!() };
        let lines = row.input.listing.iter().filter(|&&byte| byte == b'\n').count();
        let goal = match row.input.goal {
            None => String::new(),
            Some(goal) if check <= goal * whole && report <= goal * whole => format!("{goal}: met"),
            Some(goal) if check <= goal * whole => format!("{goal}: met by Check"),
            Some(goal) => format!("{goal}: missed"),
        };
        text += &format!(
            "| {} | {} | {lines} | {check:.0} | {report:.0} | {whole:.0} | {tree:.0} | {alone:.0} | {:.4} | {:.4} | {:.4} | {goal} |\n",
            row.input.name,
            row.input.listing.len(),
            check / whole,
            report / whole,
            check / alone,
        );
    }
    text
}

/// A row for each accepted listing: the calls of a rehearsal, and each as so many times Check.
fn rehearsals(rows: &[Row], values: impl Fn(&Row) -> Vec<f64>) -> String {
    let mut text = String::from(
        "| listing | bytes | lines | Check | open | lay | take back | open / Check | lay / Check | take back / Check | goal |\n\
         |---|--:|--:|--:|--:|--:|--:|--:|--:|--:|---|\n",
    );
    for row in rows {
        let all = values(row);
        let [check, open, lay, back] = all[..] else { continue };
        let lines = row.input.listing.iter().filter(|&&byte| byte == b'\n').count();
        let met = if [open, lay, back].iter().all(|call| *call <= REHEARSAL_GOAL * check) { "met" } else { "missed" };
        text += &format!(
            "| {} | {} | {lines} | {check:.0} | {open:.0} | {lay:.0} | {back:.0} | {:.4} | {:.4} | {:.4} | {REHEARSAL_GOAL}: {met} |\n",
            row.input.name,
            row.input.listing.len(),
            open / check,
            lay / check,
            back / check,
        );
    }
    text
}

/// The functions that take more than two in a hundred of Check's instructions.
fn functions(row: &Row) -> String {
    let check = &row.counts[0];
    let share = |count: u64| 100.0 * count as f64 / check.total as f64;
    let large = check.functions.iter().filter(|(_, count)| share(*count) >= 2.0);
    let list: Vec<String> = large.map(|(name, count)| format!("{name} {:.0}%", share(*count))).collect();
    format!("- {}: {}\n", row.input.name, list.join(", "))
}

fn growth(rows: &[Row]) -> String {
    let mut text = String::from("| listing | bytes | Check | Report | original with tree |\n|---|--:|--:|--:|--:|\n");
    for row in rows.iter().filter(|row| row.input.name.ends_with("KiB")) {
        let bytes = row.input.listing.len() as f64;
        let each: Vec<String> = row.times[..3].iter().map(|time| format!("{:.2}", time / bytes)).collect();
        text += &format!("| {} | {bytes} | {} |\n", row.input.name, each.join(" | "));
    }
    text
}
