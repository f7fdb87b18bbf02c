//! Writes the recorded answers: what the crate answers to a fixed list of asks.

use crate::asks::{self, Flavour};
use crate::cases;
use crate::coverage::Coverage;
use crate::original::Original;
use crate::party::{shapes_of, Party};
use crate::random::Random;
use model::entry::perform;
use model::pool::Pool;
use model::{Ask, Edit, Span};

const SEED: u64 = 20_240_611;

/// The list as far as it is written, the crate's tree, and the model's pool beside it for the counting.
struct Writer {
    text: String,
    original: Original,
    pool: Pool,
    coverage: Coverage,
}

/// One random part of the list: ranges of a flavour, phases of so many edits, and how often inserts are among them.
struct Part {
    flavour: Flavour,
    ranges: u64,
    phases: &'static [(u64, u64)],
    queries: u64,
}

/// The random parts. Percentages of inserts above a half let the tree grow, those below let it shrink.
const PARTS: [Part; 9] = [
    Part { flavour: Flavour::Tiny, ranges: 30, phases: &[(300, 55), (100, 20), (100, 80), (120, 10)], queries: 40 },
    Part { flavour: Flavour::Tiny, ranges: 12, phases: &[(300, 50)], queries: 40 },
    Part { flavour: Flavour::Near(1), ranges: 60, phases: &[(250, 70), (250, 30), (150, 60), (150, 5)], queries: 30 },
    Part { flavour: Flavour::Near(1_000_000), ranges: 100, phases: &[(200, 90), (150, 20)], queries: 20 },
    Part { flavour: Flavour::Wide, ranges: 100, phases: &[(160, 85), (120, 20)], queries: 20 },
    Part { flavour: Flavour::Edges, ranges: 40, phases: &[(200, 60), (100, 30)], queries: 30 },
    Part { flavour: Flavour::EqualStarts, ranges: 80, phases: &[(200, 75), (150, 20)], queries: 30 },
    Part { flavour: Flavour::Descending, ranges: 200, phases: &[(150, 95), (300, 10)], queries: 20 },
    Part { flavour: Flavour::Ascending, ranges: 740, phases: &[(40, 50), (700, 8)], queries: 10 },
];

impl Writer {
    /// Adds a line: a letter and its numbers.
    fn line(&mut self, letter: char, numbers: &[u64]) {
        self.text.push(letter);
        for number in numbers {
            self.text.push_str(&format!(" {number}"));
        }
        self.text.push('\n');
    }

    /// Begins a fresh pool with a slot more than there are ranges to store, so that it never fills.
    fn fresh(&mut self, ranges: u64) {
        let slots = ranges + 1;
        self.original.format(slots);
        self.pool = Pool::formatted(slots);
        self.line('f', &[slots]);
    }

    /// Makes an edit and writes the crate's answer, size and levels.
    fn edit(&mut self, edit: &Edit) -> Result<(), String> {
        let answer = self.original.edit(edit);
        let before = self.pool.clone();
        let mut turns = Vec::new();
        let counted = perform(&mut self.pool, edit, &mut turns);
        if counted != answer || shapes_of(&self.pool.tree) != self.original.shapes()? {
            return Err(format!("the model, which counts the cases, differs from the crate at {edit:?}"));
        }
        self.coverage.edit(&before, edit, answer, &turns);
        let after = [answer, self.original.size(), (self.original.height() + 1) as u64];
        let with_answer = |asked: &[u64]| [asked, &after].concat();
        match *edit {
            Edit::Insert(Span { start, end, included }, value) => {
                self.line(if included { 'j' } else { 'i' }, &with_answer(&[start, end, value]));
            }
            Edit::Delete(Span { start, end, included }) => {
                self.line(if included { 'e' } else { 'd' }, &with_answer(&[start, end]));
            }
            Edit::DeleteMin => self.line('m', &after),
            Edit::DeleteMax => self.line('x', &after),
            Edit::Clear => self.line('c', &after[1..]),
        }
        Ok(())
    }

    /// Asks a query and writes the crate's rows.
    fn query(&mut self, span: Span) {
        if let Some(range) = span.range() {
            self.coverage.query(&self.pool.tree, range);
        }
        let rows = self.original.rows(span);
        self.line(if span.included { 'p' } else { 'q' }, &[span.start, span.end, rows.len() as u64]);
        for row in rows {
            self.line('r', &row);
        }
    }

    /// Makes an ask.
    fn ask(&mut self, ask: &Ask) -> Result<(), String> {
        match ask {
            Ask::Edit(edit) => self.edit(edit),
            Ask::Query(span) => {
                self.query(*span);
                Ok(())
            }
        }
    }

    /// Writes the whole tree in preorder.
    fn shape(&mut self) -> Result<(), String> {
        let shapes = self.original.shapes()?;
        self.line('s', &[shapes.len() as u64]);
        for shape in shapes {
            self.line('n', &shape);
        }
        Ok(())
    }

    /// A sequence written by hand, with the shape after every edit.
    fn case(&mut self, asks: &[Ask]) -> Result<(), String> {
        self.fresh(asks.len() as u64);
        for ask in asks {
            self.ask(ask)?;
            if matches!(ask, Ask::Edit(_)) {
                self.shape()?;
            }
        }
        Ok(())
    }

    /// A random part; a large tree's ranges go in first, in their order. The shape is written as often as the tree is
    /// small.
    fn part(&mut self, random: &mut Random, part: &Part) -> Result<(), String> {
        let ranges = asks::ranges(random, part.flavour, part.ranges);
        self.fresh(part.ranges);
        if matches!(part.flavour, Flavour::Ascending | Flavour::Descending) {
            for range in &ranges {
                self.edit(&asks::insert(random, *range))?;
            }
            self.shape()?;
        }
        for (edits, inserts) in part.phases {
            for nth in 0..*edits {
                self.edit(&asks::edit(random, &ranges, *inserts))?;
                if random.percent(part.queries) {
                    self.query(asks::query(random, &ranges));
                }
                if nth % (2 * part.ranges) == part.ranges {
                    self.shape()?;
                }
            }
            self.shape()?;
        }
        self.edit(&Edit::Clear)
    }
}

/// Writes the whole list to a file and gives the counts of what it brings about.
pub fn write(file: &str) -> Result<String, String> {
    let mut writer = Writer {
        text: String::new(),
        original: Original::default(),
        pool: Pool::formatted(1),
        coverage: Coverage::default(),
    };
    for case in cases::all() {
        writer.case(&case)?;
    }
    let mut random = Random::new(SEED);
    for part in &PARTS {
        writer.part(&mut random, part)?;
    }
    writer.line('z', &[]);
    let counts = writer.coverage.report()?;
    std::fs::write(file, &writer.text).map_err(|error| format!("{file}: {error}"))?;
    Ok(format!("{counts}\nrecorded {} lines, {} bytes", writer.text.lines().count(), writer.text.len()))
}
