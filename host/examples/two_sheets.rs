//! Loads two survey files of the same stretches, one in metres and one in links, and shows that both planning sheets
//! agree; and that they don't where the file in links is taken for one in metres.
//!
//! usage: two_sheets [METRES_FILE LINKS_FILE]

use hindraloha::{Pool, Record, Row};
use std::error::Error;

/// The unit that a file says its numbers are in.
#[derive(Clone, Copy, PartialEq, Debug)]
enum Unit {
    Metres,
    Links,
}

/// A file's unit and its stretches: start, end and job.
type Survey = (Unit, Vec<(u32, u32, u64)>);

/// Reads a survey: a line `unit metres` or `unit links`, then lines `START END JOB`; lines from `#` on are comments.
fn read(text: &str) -> Result<Survey, Box<dyn Error>> {
    let mut lines = text.lines();
    let unit = match lines.next() {
        Some("unit metres") => Unit::Metres,
        Some("unit links") => Unit::Links,
        other => return Err(format!("the first line says no unit: {other:?}").into()),
    };
    let stretch = |line: &str| match line.split_whitespace().collect::<Vec<&str>>()[..] {
        [start, end, job] => Ok((start.parse()?, end.parse()?, job.parse()?)),
        _ => Err(format!("not START END JOB: {line}").into()),
    };
    let stretches = lines.filter(|line| !line.starts_with('#')).map(stretch);
    Ok((unit, stretches.collect::<Result<_, Box<dyn Error>>>()?))
}

/// A planning sheet: the jobs that touch each kilometre, taken from a pool that was fed with the survey.
fn sheet(unit: Unit, stretches: &[(u32, u32, u64)]) -> Result<Vec<Vec<Row>>, Box<dyn Error>> {
    let record = |&(start, end, job): &(u32, u32, u64)| match unit {
        Unit::Metres => Record::metres(start..end, job),
        Unit::Links => Record::links(start..end, job),
    };
    let bytes: Vec<u8> = stretches.iter().map(record).collect();
    let mut pool = Pool::new(800)?;
    pool.feed(&bytes)?;
    let kilometre = |nth: u64| nth * 1_000_000_000..(nth + 1) * 1_000_000_000;
    (0..70).map(|nth| Ok(pool.query(kilometre(nth))?.collect())).collect()
}

/// Compares the sheets of both files, and those where the unit is mistaken.
fn main() -> Result<(), Box<dyn Error>> {
    let files: Vec<String> = std::env::args().skip(1).collect();
    let texts = match &files[..] {
        [metres, links] => [std::fs::read_to_string(metres)?, std::fs::read_to_string(links)?],
        _ => [include_str!("metres.txt").to_string(), include_str!("links.txt").to_string()],
    };
    let [(one, first), (other, second)] = [read(&texts[0])?, read(&texts[1])?];
    let (ours, theirs) = (sheet(one, &first)?, sheet(other, &second)?);
    if ours != theirs {
        return Err("the sheets differ".into());
    }
    println!("{} stretches in metres and {} in links: both sheets agree", first.len(), second.len());
    let mistaken = sheet(Unit::Metres, &second)?;
    let wrong = ours.iter().zip(&mistaken).filter(|(right, wrong)| right != wrong).count();
    println!("links taken for metres: {wrong} of {} kilometres would be planned wrongly", ours.len());
    Ok(())
}
