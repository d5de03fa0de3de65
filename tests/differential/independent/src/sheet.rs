//! The sheet (request No. 10): a line of text for each segment. The blocks in use are counted by the place and the bits; no count is read.

use core::ops::{Deref, Range};

use crate::answers::{or_torn, refuse, Answer, Refusal};
use crate::bitmap::Tree;
use crate::classes::is_class;
use crate::layout::{sheet_length, Heap, CLASS, PLACE, SHEET_LINE, SHEET_PAGE, STATE};
use crate::segments::{Head, FREE};

/// By state: free, part, held, full, condemned.
const LETTERS: [u8; 5] = *b"FPHLC";

/// The columns of a line. A space stands between them, and the line feed behind the last one.
const NUMBER: Range<usize> = 0..3;
const CLASS_NUMBER: Range<usize> = 4..6;
const LETTER: usize = 7;
const IN_USE: Range<usize> = 9..13;
const NOT_IN_USE: Range<usize> = 14..18;
const BAR: Range<usize> = 19..51;
const LINE_FEED: usize = 51;

/// The blocks of a segment, and those of them that are in use; of a free one neither.
#[derive(Default)]
struct Load {
    blocks: u32,
    in_use: u32,
}

impl Load {
    /// The whole part of 32 times the share that is in use.
    fn bar(&self) -> usize {
        (BAR.len() as u32 * self.in_use).checked_div(self.blocks).unwrap_or(0) as usize
    }
}

/// So many of the lowest bits, at most all.
fn lowest(bits: u32) -> u32 {
    u32::MAX.checked_shl(bits).map_or(u32::MAX, |above| !above)
}

impl Tree<'_> {
    /// How many of so many blocks lie before the place or have the bit 1.
    fn in_use(&self, blocks: u32, place: u32) -> u32 {
        let words = (0..blocks).step_by(32).zip(self.level0);
        words.map(|(first, word)| ((word | lowest(place.saturating_sub(first))) & lowest(blocks - first)).count_ones()).sum()
    }
}

impl<M: Deref<Target = [u32]>> Heap<M> {
    /// The head of a segment whose state is one, and whose class is one where it is not free.
    fn known(&self, segment: usize) -> Answer<&Head> {
        let head = self.head(self.descriptor(segment))?;
        match head[STATE] {
            FREE => Ok(head),
            state if (state as usize) < LETTERS.len() && is_class(head[CLASS]) => Ok(head),
            _ => refuse(Refusal::TORN),
        }
    }

    fn load(&self, segment: usize, head: &Head) -> Answer<Load> {
        if head[STATE] == FREE {
            return Ok(Load::default());
        }
        let blocks = self.size.blocks(head[CLASS]);
        Ok(Load { blocks, in_use: self.tree(self.descriptor(segment))?.in_use(blocks, head[PLACE]) })
    }

    fn write_line(&self, segment: usize, line: &mut [u8; SHEET_LINE]) -> Answer<()> {
        let head = self.known(segment)?;
        let load = self.load(segment, head)?;
        *line = [b' '; SHEET_LINE];
        write_number(&mut line[NUMBER], segment as u32);
        match head[STATE] {
            FREE => line[CLASS_NUMBER].fill(b'-'),
            _ => write_number(&mut line[CLASS_NUMBER], head[CLASS]),
        }
        line[LETTER] = *or_torn(LETTERS.get(head[STATE] as usize))?;
        write_number(&mut line[IN_USE], load.in_use);
        write_number(&mut line[NOT_IN_USE], load.blocks - load.in_use);
        let (full, rest) = line[BAR].split_at_mut(load.bar());
        full.fill(b'#');
        rest.fill(b'.');
        line[LINE_FEED] = b'\n';
        Ok(())
    }
}

/// The decimal digits at the right end of a column of spaces, which is wide enough.
fn write_number(column: &mut [u8], number: u32) {
    let mut left = number;
    for digit in column.iter_mut().rev() {
        *digit = b'0' + (left % 10) as u8;
        left /= 10;
        if left == 0 {
            break;
        }
    }
}

/// The lines of all segments into the output, which a refusal leaves as it was. After 60 lines, where another comes, a line is empty.
pub fn sheet(segments: u32, kib: u32, mem: &[u32], output: &mut [u8]) -> Answer<()> {
    let heap = Heap::over(segments, kib, mem)?;
    if output.len() != sheet_length(segments, kib) {
        return refuse(Refusal::SIZE);
    }
    for segment in 0..heap.segments {
        heap.known(segment)?;
    }
    let mut segment = 0;
    for page in output.chunks_mut(SHEET_PAGE) {
        let (lines, empty_line) = page.as_chunks_mut();
        for line in lines {
            heap.write_line(segment, line)?;
            segment += 1;
        }
        empty_line.fill(b'\n');
    }
    Ok(())
}
