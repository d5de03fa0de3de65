//! Request No. 10: the sheet by a reading of its own, made of the records that a look at the states gives and of blocks in use that are counted
//! elsewhere; which records refuse it; and what was seen of it.

use crate::layout::{self, Geometry, STATES};
use crate::list::Pair;
use std::fmt::Display;
use std::io::Write;

/// By state: free, part, held, full, condemned.
const LETTERS: &str = "FPHLC";
const BAR: u32 = 32;
/// So many lines stand together: an empty one parts them from the next.
const TOGETHER: usize = 60;
/// Where a line has its letter, and the first and the last character of its bar.
const LETTER: usize = 7;
const BAR_ENDS: [usize; 2] = [19, 50];

/// The counts of segments at which an empty line comes to a sheet, or is about to, and the least and the most.
pub const COUNTS: [u32; 10] = [1, 2, 59, 60, 61, 120, 121, 240, 241, 256];

/// The columns of a line and the space behind them, up to its bar.
fn columns(text: &mut Vec<u8>, number: usize, class: impl Display, letter: &str, in_use: u32, not_in_use: u32) {
    write!(text, "{number:>3} {class:>2} {letter} {in_use:>4} {not_in_use:>4} ").expect("a vector takes all");
}

/// The line of a segment of this state and class with so many blocks in use.
fn line(text: &mut Vec<u8>, g: Geometry, number: usize, [state, class]: [u32; 2], in_use: u32) {
    if state == 0 {
        columns(text, number, "--", "F", 0, 0);
        text.extend([b'.'; BAR as usize]);
    } else {
        let (at, blocks) = (state as usize, g.blocks(class));
        columns(text, number, class, &LETTERS[at..=at], in_use, blocks - in_use);
        // So many of 32 equal parts of the blocks are no more than those in use.
        text.extend((1..=BAR).map(|part| if part * blocks <= BAR * in_use { b'#' } else { b'.' }));
    }
    text.push(b'\n');
}

/// The sheet by the records, each of a state and, where it is not free, of a class, and by the blocks in use.
pub fn read(g: Geometry, records: &[u32], in_use: impl Fn(u32) -> u32) -> Vec<u8> {
    let mut text = Vec::with_capacity(g.lengths()[3]);
    for (number, record) in layout::each_segment(records).enumerate() {
        if number > 0 && number % TOGETHER == 0 {
            text.push(b'\n');
        }
        let in_use = if record[0] == 0 { 0 } else { in_use(number as u32) };
        line(&mut text, g, number, [record[0], record[1]], in_use);
    }
    text
}

/// In words, where a sheet is another than it is to be.
pub fn difference(found: &[u8], due: &[u8], whose: &str) -> Option<String> {
    let at = found.iter().zip(due).position(|(found, due)| found != due).or((found.len() != due.len()).then(|| found.len().min(due.len())))?;
    let number = found[..at].iter().filter(|&&byte| byte == b'\n').count();
    let [found, due] = [found, due].map(|text| String::from_utf8_lossy(text.split(|&byte| byte == b'\n').nth(number).unwrap_or_default()));
    Some(format!("line {number} of the sheet, byte {at}: verified {found:?}, {whose} {due:?}"))
}

impl Pair {
    /// The verified sheet is what a look at the states and the blocks in use by places and bits say, and the independent one is the same,
    /// unless it stands aside; guard bytes stand.
    pub fn same_sheets(&self, g: Geometry, states: &[u32], alone: bool, seen: &mut Seen) -> Result<(), String> {
        let found = self.verified.sheet.bytes();
        let memory = self.verified.memory.words();
        let read = read(g, states, |number| layout::segment_in_use(memory, g, number));
        let second = if alone { found } else { self.independent.sheet.bytes() };
        let differs = difference(found, second, "independent").or_else(|| difference(found, &read, "by states, places and bits"));
        if let Some(differs) = differs {
            return Err(differs);
        }
        if !self.verified.sheet.guards_hold() {
            return Err("a guard byte of the sheet changed".into());
        }
        seen.note(g, found);
        Ok(())
    }
}

/// What was seen of the sheets that were compared.
#[derive(Clone, Default)]
pub struct Seen {
    compared: u64,
    /// Of them those with an empty line.
    parted: u64,
    /// Lines by state, and those whose bar is neither empty nor full.
    lines: [u64; STATES],
    bars: u64,
    /// By those counts of segments: sheets on which one is not free.
    counts: [u64; COUNTS.len()],
}

impl Seen {
    fn note(&mut self, g: Geometry, sheet: &[u8]) {
        let mut lines = [0; STATES];
        for line in sheet.split(|&byte| byte == b'\n').filter(|line| !line.is_empty()) {
            if let Some(state) = LETTERS.bytes().position(|letter| letter == line[LETTER]) {
                lines[state] += 1;
            }
            self.bars += u64::from(BAR_ENDS.map(|at| line[at]) == *b"#.");
        }
        self.compared += 1;
        self.parted += u64::from(sheet.windows(2).any(|two| two == b"\n\n"));
        if let Some(count) = COUNTS.iter().position(|&count| count == g.segments) {
            self.counts[count] += u64::from(lines[1..].iter().any(|&lines| lines > 0));
        }
        for (sum, lines) in self.lines.iter_mut().zip(lines) {
            *sum += lines;
        }
    }

    pub fn print(&self) {
        let lines: Vec<String> = LETTERS.chars().zip(self.lines).map(|(letter, lines)| format!("{letter} {lines}")).collect();
        let Seen { compared, parted, bars, .. } = self;
        println!("  {compared} sheets compared, {parted} with an empty line; lines {}, {bars} bars neither empty nor full", lines.join(", "));
    }

    pub fn print_counts(&self) {
        let counts: Vec<String> = COUNTS.iter().zip(self.counts).map(|(count, sheets)| format!("{count}: {sheets}")).collect();
        println!("  sheets with a segment that is not free, by count: {}", counts.join(", "));
    }

    /// What a whole campaign must have met and did not.
    pub fn missing(&self) -> Vec<String> {
        let met = [(self.parted, "a sheet with an empty line"), (self.bars, "a bar that is neither empty nor full")];
        let lines = LETTERS.chars().zip(self.lines).map(|(letter, lines)| (lines, format!("a line {letter} of a sheet")));
        let all = met.into_iter().map(|(count, what)| (count, what.into())).chain(lines);
        all.filter(|(count, _)| *count == 0).map(|(_, what)| what).collect()
    }

    pub fn missing_counts(&self) -> Vec<String> {
        let never = COUNTS.iter().zip(self.counts).filter(|(_, sheets)| *sheets == 0);
        never.map(|(count, _)| format!("a sheet of {count} segments, not all free")).collect()
    }
}

/// Why a sheet over torn memory is refused: a tag that is no state's; of a segment that is not free, a class word of no class, or counts that
/// together are more than its blocks.
pub const CAUSES: [&str; 3] = ["a tag", "a class word", "two counts"];
const COUNTED: usize = 2;

/// The cause in a record, where there is one; the sum of the counts does not wrap.
fn cause(g: Geometry, record: &[u32]) -> Option<usize> {
    let (state, class) = (record[0], record[1]);
    match state {
        0 => None,
        5.. => Some(0),
        _ if !layout::is_class(class) => Some(1),
        _ => (in_use_counted(record) > u64::from(g.blocks(class))).then_some(COUNTED),
    }
}

fn in_use_counted(record: &[u32]) -> u64 {
    layout::counts_of(record).into_iter().map(u64::from).sum()
}

/// Whether the counts of a record would not refuse it if their sum wrapped.
fn wraps(g: Geometry, record: &[u32]) -> bool {
    cause(g, record) == Some(COUNTED) && in_use_counted(record) as u32 <= g.blocks(record[1])
}

/// What was seen of sheets over torn memory.
#[derive(Default)]
pub struct OverTorn {
    /// Sheets shown, and those over memory that passes the examination; refused, by the cause, where there is one cause; those refused for
    /// counts whose sum is small where it wraps.
    shown: u64,
    passing: u64,
    refused: [u64; CAUSES.len()],
    wrapping: u64,
}

impl OverTorn {
    /// A sheet over memory of any content, where `refused` says whether it was refused 13: it is exactly where there is a cause. Else it shows
    /// the records, and in use what their two counts are together; where the memory passes the examination, what places and bits tell.
    pub fn looked(&mut self, g: Geometry, memory: &[u32], passes: bool, refused: bool, sheet: &[u8]) -> Result<(), String> {
        let records = layout::all_records(memory, g);
        let causes: Vec<usize> = layout::each_segment(records).filter_map(|record| cause(g, record)).collect();
        if refused == causes.is_empty() {
            let said: Vec<&str> = causes.iter().map(|&cause| CAUSES[cause]).collect();
            return Err(format!("a sheet, refused: {refused}, where the records have {said:?} to refuse it for"));
        }
        if refused {
            self.refused(g, records, &causes);
            return Ok(());
        }
        let counted = |number: u32| layout::counts_of(&layout::segment(memory, g, number)).iter().sum();
        let mut differs = difference(sheet, &read(g, records, counted), "by the records");
        if passes {
            let by_bits = read(g, records, |number| layout::segment_in_use(memory, g, number));
            differs = differs.or_else(|| difference(sheet, &by_bits, "by places and bits"));
        }
        self.shown += 1;
        self.passing += u64::from(passes);
        differs.map_or(Ok(()), Err)
    }

    fn refused(&mut self, g: Geometry, records: &[u32], causes: &[usize]) {
        if causes.iter().all(|&cause| cause == causes[0]) {
            self.refused[causes[0]] += 1;
        }
        let mut refusing = layout::each_segment(records).filter(|record| cause(g, record).is_some());
        self.wrapping += u64::from(refusing.all(|record| wraps(g, record)));
    }

    pub fn print(&self) {
        let OverTorn { shown, passing, refused, wrapping } = self;
        let refused: Vec<String> = CAUSES.iter().zip(refused).map(|(cause, count)| format!("{count} for {cause}")).collect();
        let said = format!("refused 13 alone {}, {wrapping} of a sum that wraps", refused.join(", "));
        println!("  {shown} sheets shown, {passing} over memory that passes the examination; {said}");
    }

    /// What a whole campaign must have met and did not.
    pub fn missing(&self) -> Vec<String> {
        let met = [
            (self.shown - self.passing, "a sheet shown over memory that fails the examination"),
            (self.passing, "a sheet over torn memory that passes the examination"),
            (self.wrapping, "a sheet refused 13 for two counts whose sum wraps"),
        ];
        let refused = CAUSES.iter().zip(self.refused).map(|(cause, count)| (count, format!("a sheet refused 13 for {cause} alone")));
        let all = met.into_iter().map(|(count, what)| (count, what.into())).chain(refused);
        all.filter(|(count, _)| *count == 0).map(|(_, what)| what).collect()
    }
}
