//! The program on bytes of any kind: what it writes is what document 01 says of it, by the model's apply on a fresh pool
//! of 800 slots.

use crate::damage;
use crate::random::Random;
use model::entry::{self, refuses, Applied, CUT_SHORT, UNKNOWN_KIND};
use model::pool::{ABSENT, ALREADY_THERE};
use model::record::{read, Read, QUERY_KIND};
use std::io::Write;
use std::process::{Command, Stdio};

const SLOTS: usize = 800;

/// "For a query one line `hit START END VALUE` per hit, then `end COUNT`."
fn query_lines(hits: u64, rows: &[u64]) -> String {
    let hit = |row: &[u64]| format!("hit {} {} {}\n", row[0], row[1], row[2]);
    let lines: String = rows.chunks(3).take(hits as usize).map(hit).collect();
    format!("{lines}end {hits}\n")
}

/// The lines of one record, and how many bytes it has; none where the program stops.
fn of_record(words: &mut [u64], bytes: &[u8]) -> (String, Option<usize>) {
    let mut rows = vec![0; 3 * SLOTS];
    let Applied { number, hits, .. } = entry::apply(words, bytes, &mut rows);
    let length = match read(bytes) {
        Read::Record { length, .. } => Some(length),
        Read::UnknownKind | Read::CutShort => None,
    };
    let lines = match number {
        ALREADY_THERE => "kept\n".to_string(),
        ABSENT => "none\n".to_string(),
        refused if refuses(refused) => format!("no {refused}\n"),
        _ if bytes[0] == QUERY_KIND => query_lines(hits, &rows),
        _ => "done\n".to_string(),
    };
    let stops = number == UNKNOWN_KIND || number == CUT_SHORT;
    (lines, if stops { None } else { length })
}

/// All that the program is to write; "it stops after `no 14` or `no 15` and skips a record refused otherwise".
fn expected(mut bytes: &[u8]) -> String {
    let mut words = vec![0; 4 + 6 * SLOTS];
    entry::format(&mut words);
    let mut written = String::new();
    while !bytes.is_empty() {
        let (lines, length) = of_record(&mut words, bytes);
        written += &lines;
        bytes = length.map_or(&[], |length| &bytes[length..]);
    }
    written
}

/// What the program writes.
fn written(command: &[String], bytes: &[u8]) -> Result<Vec<u8>, String> {
    let (program, words) = command.split_first().ok_or("the program's command is missing")?;
    let started = Command::new(program).args(words).stdin(Stdio::piped()).stdout(Stdio::piped()).spawn();
    let mut child = started.map_err(|error| format!("{program}: {error}"))?;
    let (mut input, bytes) = (child.stdin.take().ok_or("the program has no input")?, bytes.to_vec());
    // The program stops reading at a record of unknown kind, so that not all of its input has to go through.
    let writer = std::thread::spawn(move || drop(input.write_all(&bytes)));
    let output = child.wait_with_output().map_err(|error| format!("{program}: {error}"))?;
    writer.join().map_err(|_| "the input can't be written")?;
    if !output.status.success() {
        return Err(format!("the program ended with {}", output.status));
    }
    Ok(output.stdout)
}

/// The inputs: so many random ones, every cut of a good file, and long runs of one byte.
fn inputs(random: &mut Random, count: u64) -> Vec<Vec<u8>> {
    let good = damage::record_of_each_kind().concat();
    let mut inputs: Vec<Vec<u8>> = (0..=good.len()).map(|length| good[..length].to_vec()).collect();
    inputs.extend((0..=255).map(|byte| vec![byte; 20_000]));
    inputs.extend((0..count).map(|_| damage::bytes(random)));
    inputs.extend((0..count).map(|_| (0..random.below(2000)).map(|_| random.below(256) as u8).collect()));
    inputs
}

/// Runs the program on all inputs and compares what it writes.
pub fn run(command: &[String], count: u64, seed: u64) -> Result<String, String> {
    let inputs = inputs(&mut Random::new(seed), count);
    let mut lines = 0;
    for bytes in &inputs {
        let (ours, theirs) = (expected(bytes), written(command, bytes)?);
        if ours.as_bytes() != theirs {
            let theirs = String::from_utf8_lossy(&theirs).into_owned();
            return Err(format!("bytes {bytes:?}\n  by the rules: {ours:?}\n  the program: {theirs:?}"));
        }
        lines += ours.lines().count();
    }
    Ok(format!("program: {} inputs (seed {seed}), {lines} lines as the rules have them", inputs.len()))
}
