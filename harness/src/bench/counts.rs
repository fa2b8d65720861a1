//! Instructions: callgrind over a process of its own for each side and listing.

use super::sides::Side;
use std::process::Command;

/// The C library would clear and copy long runs by one instruction that callgrind counts once for each byte. With these
/// settings it uses its vector loops, as it does for short runs.
const TUNABLES: &str = "glibc.cpu.x86_rep_movsb_threshold=1000000000:glibc.cpu.x86_rep_stosb_threshold=1000000000";

/// How many instructions a run takes.
pub struct Counted {
    pub total: u64,
    /// The costliest functions, without what they call: name and instructions.
    pub functions: Vec<(String, u64)>,
}

/// Is callgrind there?
pub fn available() -> bool {
    Command::new("valgrind").arg("--version").output().is_ok_and(|out| out.status.success())
}

/// Counts one run of a side on the listing of this name.
pub fn count(name: &str, side: Side) -> Result<Counted, String> {
    let file = std::env::temp_dir().join(format!("callgrind.{}.{}", std::process::id(), side.name()));
    let program = std::env::current_exe().map_err(|e| e.to_string())?;
    let out = Command::new("valgrind")
        .env("GLIBC_TUNABLES", TUNABLES)
        .args(["--tool=callgrind", "--toggle-collect=bithoven_counted"])
        .arg(format!("--callgrind-out-file={}", file.display()))
        .arg(program)
        .args(["bench", "--one", name, "--side", side.name()])
        .output()
        .map_err(|e| e.to_string())?;
    if !out.status.success() {
        return Err(String::from_utf8_lossy(&out.stderr).into_owned());
    }
    let annotated = Command::new("callgrind_annotate").arg(&file).output().map_err(|e| e.to_string())?;
    let _ = std::fs::remove_file(&file);
    parse(&String::from_utf8_lossy(&annotated.stdout)).ok_or("callgrind_annotate says nothing".to_string())
}

/// Reads the lines `count (share) file:function [object]`; the first is the total.
fn parse(text: &str) -> Option<Counted> {
    let mut lines = text.lines().filter_map(line);
    let (_, total) = lines.next()?;
    Some(Counted { total, functions: lines.take(12).collect() })
}

fn line(text: &str) -> Option<(String, u64)> {
    let (count, rest) = text.trim_start().split_once(' ')?;
    let count = count.replace(',', "").parse().ok()?;
    let (_, place) = rest.split_once(')')?;
    let place = place.split(" [").next()?.trim();
    // The file comes first, then a colon and the function, which may have colons itself.
    let name = match place.split_once(':') {
        Some((file, name)) if file.contains('.') || file == "???" => name,
        _ => place,
    };
    Some((name.to_string(), count))
}
