//! Memory that passes the examination although no list of calls led to it: the unbounded heap, the blocks and the cycle that it stands
//! for, read where docs/LAYOUT.md says, so that a list can go on from there.

use crate::blocks::Blocks;
use crate::calls::*;
use crate::cycle::Cycle;
use crate::layout::{self, Geometry};
use crate::unbounded::{Reference, Side, UnboundedHeap};

pub struct Adopted {
    pub heap: UnboundedHeap,
    pub blocks: Blocks,
    pub cycle: Cycle,
}

/// The roots of the mutators and the entries of the trace stack.
fn starts(memory: &[u32], g: Geometry) -> Vec<u32> {
    let roots = (0..32).flat_map(|m| (0..16).map(move |root| layout::root(memory, m, root)));
    let entries = (0..layout::trace_count(memory)).map(|number| layout::trace_entry(memory, g, number));
    roots.chain(entries).filter(|&reference| reference != 0).collect()
}

/// For each word of the heap, whether a live record begins there.
fn live(memory: &[u32], g: Geometry) -> Vec<bool> {
    let mut live = vec![false; g.segment_words() * g.n()];
    let mut open = starts(memory, g);
    while let Some(reference) = open.pop() {
        let at = reference as usize - 1;
        if !live[at] {
            live[at] = true;
            let pointers = memory[layout::HEAP + at] as usize >> 16;
            let fields = &memory[layout::HEAP + at + 1..layout::HEAP + at + 1 + pointers];
            open.extend(fields.iter().filter(|&&pointer| pointer != 0));
        }
    }
    live
}

/// A record for every block in use, those of dead ones without fields. Answers for each word of the heap the record that begins there.
fn records(memory: &[u32], g: Geometry, adopted: &mut Adopted) -> Vec<Reference> {
    let live = live(memory, g);
    let mut names = vec![0; live.len()];
    for segment in 0..g.segments {
        let [state, class, ..] = layout::segment(memory, g, segment);
        let blocks = if state == 0 { 0 } else { g.blocks(class) };
        adopted.blocks.adopt_segment(segment, class, layout::counts_due(memory, g, segment).unwrap_or_default());
        for block in (0..blocks).filter(|&block| layout::in_use(memory, g, segment, block)) {
            let at = segment as usize * g.segment_words() + ((block as usize) << class) / 4;
            let header = if live[at] { memory[layout::HEAP + at] } else { 0 };
            let (pointers, values) = (header >> 16, header & 0xffff);
            let fields = &memory[layout::HEAP + at + 1..];
            names[at] = adopted.heap.adopt_record(pointers, values, fields);
            adopted.blocks.adopt(segment, block, names[at]);
            adopted.cycle.adopt_record(layout::marked_or_queued(memory, g, segment, block));
        }
    }
    names
}

/// What the memory, which passes the examination, stands for.
pub fn adopt(memory: &[u32], g: Geometry) -> Adopted {
    let mut adopted = Adopted { heap: UnboundedHeap::new(), blocks: Blocks::new(g), cycle: Cycle::new() };
    let names = records(memory, g, &mut adopted);
    let name = |reference: u32| if reference == 0 { 0 } else { names[reference as usize - 1] };
    adopted.heap.rename(name);
    for m in 0..32 {
        let side = match layout::side(memory, m) {
            0 => continue,
            1 => Side::Inside,
            _ => Side::Outside,
        };
        let roots = std::array::from_fn(|root| name(layout::root(memory, m, root as u32)));
        adopted.heap.adopt_mutator(m, side, roots);
    }
    let entries = (0..layout::trace_count(memory)).map(|number| name(layout::trace_entry(memory, g, number)));
    let acknowledged = std::array::from_fn(|m| layout::acknowledgements(memory, m as u32));
    adopted.cycle.adopt(layout::phase(memory).min(SWEEP), acknowledged, entries.collect());
    adopted
}
