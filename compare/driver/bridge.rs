//! The bridge (`compare/bridge.c`) under way: a program that links the library and may be for another kind of machine.
//! The source of it says what its frames are. Every query that goes over it is asked twice, for rows as words and for
//! rows as records, and both forms have to give and leave the same.

use crate::call::{Call, Given};
use model::{Edit, Span};
use std::io::{BufReader, Read, Write};
use std::process::{Child, ChildStdin, ChildStdout, Command, Stdio};
use std::sync::atomic::{AtomicU64, Ordering};

/// The entry that answers a query by records, and how many queries were asked of it.
const QUERY_RECORDS: u64 = 11;
static ASKED_BY_RECORDS: AtomicU64 = AtomicU64::new(0);

/// How many queries were asked by records as well as by words, over all bridges.
pub fn asked_by_records() -> u64 {
    ASKED_BY_RECORDS.load(Ordering::Relaxed)
}

pub struct Bridge {
    child: Child,
    calls: ChildStdin,
    left: BufReader<ChildStdout>,
}

/// The number by which the bridge knows a call's entry, and the call's span and value.
fn asked(call: &Call) -> (u64, Span, u64) {
    let no_span = Span::excluded(0, 0);
    match call {
        Call::Format => (0, no_span, 0),
        Call::Check => (1, no_span, 0),
        Call::Edit(Edit::Insert(span, value)) => (2, *span, *value),
        Call::Edit(Edit::Delete(span)) => (3, *span, 0),
        Call::Edit(Edit::DeleteMin) => (4, no_span, 0),
        Call::Edit(Edit::DeleteMax) => (5, no_span, 0),
        Call::Edit(Edit::Clear) => (6, no_span, 0),
        Call::Size => (7, no_span, 0),
        Call::Height => (8, no_span, 0),
        Call::IsEmpty => (9, no_span, 0),
        Call::Query(span, _) => (10, *span, 0),
        Call::Apply(..) => (12, no_span, 0),
        Call::Feed(_) => (13, no_span, 0),
    }
}

/// The number that says whether the end is included; as any but 0 says so, several are used.
fn flag(span: Span) -> u64 {
    match (span.included, span.start % 3) {
        (false, _) => 0,
        (true, 0) => 1,
        (true, 1) => 128,
        (true, _) => 255,
    }
}

/// Adds words to a frame.
fn add_words<'a>(frame: &mut Vec<u8>, words: impl IntoIterator<Item = &'a u64>) {
    frame.extend(words.into_iter().flat_map(|word| word.to_le_bytes()));
}

/// The entries by which a call is made, and the rows that each is lent: for a query first words and then as many whole
/// records as these are.
fn forms(call: &Call) -> Vec<(u64, &[u64])> {
    let (entry, rows) = (asked(call).0, call.rows());
    match call {
        Call::Query(..) => vec![(entry, rows), (QUERY_RECORDS, &rows[..rows.len() / 3 * 3])],
        _ => vec![(entry, rows)],
    }
}

/// Adds a call to a frame, in all of its forms.
fn add_call(frame: &mut Vec<u8>, call: &Call) {
    let ((_, span, value), bytes) = (asked(call), call.bytes());
    for (entry, rows) in forms(call) {
        let numbers = [entry, rows.len() as u64, bytes.len() as u64, span.start, span.end, flag(span), value];
        add_words(frame, numbers.iter().chain(rows));
        frame.extend(bytes);
    }
}

impl Bridge {
    /// Starts it by its command: its own name, or an emulator's and its own.
    pub fn start(command: &[String]) -> Result<Bridge, String> {
        let (program, words) = command.split_first().ok_or("the bridge's command is missing")?;
        let started = Command::new(program).args(words).stdin(Stdio::piped()).stdout(Stdio::piped()).spawn();
        let mut child = started.map_err(|error| format!("{program}: {error}"))?;
        let calls = child.stdin.take().ok_or("the bridge has no input")?;
        let left = BufReader::new(child.stdout.take().ok_or("the bridge has no output")?);
        Ok(Bridge { child, calls, left })
    }

    /// Sends calls on the words, each on what the one before left. All that earlier frames gave has to be taken before.
    pub fn send(&mut self, words: &[u64], calls: &[Call]) {
        let mut frame = vec![0; 8];
        add_words(&mut frame, [words.len() as u64].iter().chain(words));
        calls.iter().for_each(|call| add_call(&mut frame, call));
        let length = frame.len() as u64 - 8;
        frame[..8].copy_from_slice(&length.to_le_bytes());
        self.calls.write_all(&frame).and_then(|()| self.calls.flush()).expect("the bridge takes no calls");
    }

    /// So many bytes of what comes back.
    fn bytes(&mut self, count: usize) -> Vec<u8> {
        let mut bytes = vec![0; count];
        self.left.read_exact(&mut bytes).expect("the bridge has ended in the middle of a call");
        bytes
    }

    /// So many words of what comes back.
    fn words(&mut self, count: usize) -> Vec<u64> {
        let bytes = self.bytes(8 * count);
        bytes.chunks_exact(8).map(|word| u64::from_le_bytes(word.try_into().expect("eight bytes"))).collect()
    }

    /// Takes what the next call that was sent gave, and changes the pool's words to those that it left. A query by
    /// records has to give what it gave by words.
    pub fn take(&mut self, call: &Call, words: &mut Vec<u64>) -> Given {
        let given = self.take_form(call, call.rows().len(), words);
        for (_, rows) in &forms(call)[1..] {
            let by_records = self.take_form(call, rows.len(), words);
            let whole_rows = given.rows[..rows.len()].to_vec();
            let by_words = Given { number: given.number, counts: given.counts, rows: whole_rows };
            assert!(
                by_records == by_words,
                "{call:?} on {words:?}:\n  by words: {by_words:?}\n  by records: {by_records:?}"
            );
            ASKED_BY_RECORDS.fetch_add(1, Ordering::Relaxed);
        }
        given
    }

    /// Takes what one form of a call gave, which was lent so many words for rows. What it was lent for reading has to be
    /// as before.
    fn take_form(&mut self, call: &Call, room: usize, words: &mut Vec<u64>) -> Given {
        let given = self.words(3);
        let left = self.words(words.len());
        let rows = self.words(room);
        assert!(
            self.bytes(call.bytes().len()) == call.bytes(),
            "a byte that was lent for reading is changed: {call:?}"
        );
        assert!(!call.reads() || left == *words, "a word that was lent for reading is changed: {call:?}");
        *words = left;
        Given { number: given[0], counts: [given[1], given[2]], rows }
    }
}

impl Drop for Bridge {
    /// Ends the bridge, which may still be writing what nobody takes.
    fn drop(&mut self) {
        let _ = self.child.kill();
        let _ = self.child.wait();
    }
}
