//! Document 01's endless rack: a heap that never takes a record back. It is fed the mutators' calls alone, and answers them.

use crate::calls::*;

#[derive(Clone, Copy, PartialEq, Eq)]
pub enum Side {
    Absent,
    Inside,
    Outside,
}

/// The most pointers and values of a record together.
pub const MOST_FIELDS: u32 = 4095;

/// A reference: 0 for nil, or 1 + a position in the list of records.
pub type Reference = u32;

pub struct Mutator {
    pub side: Side,
    pub roots: [Reference; 16],
}

/// A record: its shape, and where its pointers and then its values stand in `fields`.
pub struct Record {
    pub pointers: u32,
    pub values: u32,
    fields: usize,
}

pub struct UnboundedHeap {
    pub mutators: [Mutator; 32],
    pub records: Vec<Record>,
    fields: Vec<u32>,
    /// Bit m: mutator m is inside; is outside.
    pub inside: u32,
    pub outside: u32,
    /// For each record the number of the last search that reached it.
    reached: Vec<u32>,
    searches: u32,
}

impl UnboundedHeap {
    pub fn new() -> UnboundedHeap {
        UnboundedHeap {
            mutators: std::array::from_fn(|_| Mutator { side: Side::Absent, roots: [0; 16] }),
            records: Vec::new(),
            fields: Vec::new(),
            inside: 0,
            outside: 0,
            reached: Vec::new(),
            searches: 0,
        }
    }

    /// How many words the records take: the caller ends a list that grows too long.
    pub fn words(&self) -> usize {
        self.fields.len()
    }

    pub fn record(&self, mutator: u32, root: u32) -> Option<&Record> {
        let position = self.mutators[mutator as usize].roots[root as usize];
        (position != 0).then(|| &self.records[position as usize - 1])
    }

    /// Bit r: root r of the mutator has a record.
    pub fn filled(&self, mutator: u32) -> u32 {
        let roots = self.mutators[mutator as usize].roots.iter().enumerate();
        roots.map(|(root, &reference)| u32::from(reference != 0) << root).sum()
    }

    /// Bit m: mutator m is inside and has a record; where none has, those inside.
    pub fn furnished(&self) -> u32 {
        let mut mask = 0;
        let mut rest = self.inside;
        while rest != 0 {
            let mutator = rest.trailing_zeros();
            rest &= rest - 1;
            let roots = &self.mutators[mutator as usize].roots;
            mask |= u32::from(roots.iter().any(|&root| root != 0)) << mutator;
        }
        if mask == 0 {
            self.inside
        } else {
            mask
        }
    }

    /// The number from 2 to 9 that applies, the lowest, or 0.
    fn refused(&self, call: &Call) -> u32 {
        let [m, x, y, z] = call.args;
        match call.kind {
            Attach => self.entering(m),
            Spawn => self.spawning(m, x, y),
            Enter => self.on_side(m, Side::Outside),
            Detach | Check | Leave => self.on_side(m, Side::Inside),
            Clear => self.rooted(m, &[x]),
            Copy | Same => self.rooted(m, &[x, y]),
            Make => match self.rooted(m, &[x]) {
                0 if u64::from(y) + u64::from(z) > u64::from(MOST_FIELDS) => 9,
                number => number,
            },
            Shape => self.recorded(m, &[x], x, None),
            Load => self.recorded(m, &[x, y], y, Some((z, true))),
            Store => self.recorded(m, &[x, z], x, Some((y, true))),
            Put | Get => self.recorded(m, &[x], x, Some((y, false))),
            _ => unreachable!("not a mutator's call"),
        }
    }

    fn entering(&self, mutator: u32) -> u32 {
        match mutator {
            32.. => 2,
            m if self.mutators[m as usize].side != Side::Absent => 3,
            _ => 0,
        }
    }

    fn spawning(&self, mutator: u32, parent: u32, root: u32) -> u32 {
        if mutator > 31 || parent > 31 {
            return 2;
        }
        match self.entering(mutator) {
            0 => self.rooted(parent, &[root]),
            number => number,
        }
    }

    fn on_side(&self, mutator: u32, wanted: Side) -> u32 {
        match mutator {
            32.. => 2,
            m if self.mutators[m as usize].side == Side::Absent => 4,
            m if self.mutators[m as usize].side != wanted => 5,
            _ => 0,
        }
    }

    fn rooted(&self, mutator: u32, roots: &[u32]) -> u32 {
        match self.on_side(mutator, Side::Inside) {
            0 if roots.iter().any(|&root| root > 15) => 6,
            number => number,
        }
    }

    /// The record in `wanted` is asked for, and of it a pointer (true) or a value (false) by number.
    fn recorded(&self, m: u32, roots: &[u32], wanted: u32, field: Option<(u32, bool)>) -> u32 {
        let number = self.rooted(m, roots);
        if number != 0 {
            return number;
        }
        let Some(record) = self.record(m, wanted) else {
            return 7;
        };
        match field {
            Some((at, true)) if at >= record.pointers => 8,
            Some((at, false)) if at >= record.values => 8,
            _ => 0,
        }
    }

    fn root(&self, mutator: u32, root: u32) -> Reference {
        self.mutators[mutator as usize].roots[root as usize]
    }

    fn pointer_at(&self, mutator: u32, root: u32, field: u32) -> usize {
        let record = &self.records[self.root(mutator, root) as usize - 1];
        record.fields + field as usize
    }

    fn value_at(&self, mutator: u32, root: u32, field: u32) -> usize {
        let record = &self.records[self.root(mutator, root) as usize - 1];
        record.fields + (record.pointers + field) as usize
    }

    pub fn pointers(&self, reference: Reference) -> &[Reference] {
        let record = &self.records[reference as usize - 1];
        &self.fields[record.fields..record.fields + record.pointers as usize]
    }

    /// What the pointer holds, of a call that is not refused.
    pub fn pointer(&self, mutator: u32, root: u32, field: u32) -> Reference {
        self.fields[self.pointer_at(mutator, root, field)]
    }

    /// The answer to a mutator's call; nothing changes.
    pub fn answer(&self, call: &Call) -> u64 {
        let number = self.refused(call);
        if number != 0 {
            return number.into();
        }
        let [m, x, y, _] = call.args;
        let result = match call.kind {
            Get => self.fields[self.value_at(m, x, y)],
            Same => u32::from(self.root(m, x) == self.root(m, y)),
            Shape => {
                let record = &self.records[self.root(m, x) as usize - 1];
                record.pointers << 16 | record.values
            }
            _ => 0,
        };
        u64::from(result) << 32
    }

    /// What a mutator's call that is not refused does.
    pub fn perform(&mut self, call: &Call) {
        let [m, x, y, z] = call.args;
        match call.kind {
            Attach => self.put_side(m, Side::Inside),
            Spawn => {
                let copied = self.root(x, y);
                self.put_side(m, Side::Inside);
                self.mutators[m as usize].roots[0] = copied;
            }
            Detach => self.put_side(m, Side::Absent),
            Leave => self.put_side(m, Side::Outside),
            Enter => self.put_side(m, Side::Inside),
            Make => {
                self.add_record(y, z);
                self.set_root(m, x, self.records.len() as u32);
            }
            Load => self.set_root(m, x, self.pointer(m, y, z)),
            Store => {
                let at = self.pointer_at(m, x, y);
                self.fields[at] = self.root(m, z);
            }
            Put => {
                let at = self.value_at(m, x, y);
                self.fields[at] = z;
            }
            Copy => self.set_root(m, x, self.root(m, y)),
            Clear => self.set_root(m, x, 0),
            _ => {}
        }
    }

    fn set_root(&mut self, mutator: u32, root: u32, to: Reference) {
        self.mutators[mutator as usize].roots[root as usize] = to;
    }

    fn put_side(&mut self, mutator: u32, side: Side) {
        let bit = 1 << mutator;
        self.inside &= !bit;
        self.outside &= !bit;
        let entry = &mut self.mutators[mutator as usize];
        let was = entry.side;
        entry.side = side;
        match side {
            Side::Absent => entry.roots = [0; 16],
            Side::Inside => self.inside |= bit,
            Side::Outside => self.outside |= bit,
        }
        if was == Side::Absent {
            entry.roots = [0; 16];
        }
    }

    fn add_record(&mut self, pointers: u32, values: u32) {
        let fields = self.fields.len();
        self.fields.resize(fields + (pointers + values) as usize, 0);
        self.reached.push(0);
        self.records.push(Record { pointers, values, fields });
    }

    /// A record as it is found in memory, the fields from the first one on; answers its reference. `rename` is still to come.
    pub fn adopt_record(&mut self, pointers: u32, values: u32, fields: &[u32]) -> Reference {
        self.add_record(pointers, values);
        let record = &self.records[self.records.len() - 1];
        let count = (pointers + values) as usize;
        self.fields[record.fields..].copy_from_slice(&fields[..count]);
        self.records.len() as Reference
    }

    /// Every pointer becomes what `name` says of it.
    pub fn rename(&mut self, name: impl Fn(u32) -> Reference) {
        for record in &self.records {
            for pointer in &mut self.fields[record.fields..record.fields + record.pointers as usize] {
                *pointer = name(*pointer);
            }
        }
    }

    pub fn adopt_mutator(&mut self, mutator: u32, side: Side, roots: [Reference; 16]) {
        self.put_side(mutator, side);
        self.mutators[mutator as usize].roots = roots;
    }

    /// Finds the records that are reached: named by a root of a mutator inside or outside, or by a pointer of a reached record.
    pub fn search(&mut self) {
        self.searches += 1;
        let mut open: Vec<Reference> = Vec::new();
        for mutator in &self.mutators {
            open.extend(mutator.roots.iter().filter(|&&root| root != 0));
        }
        while let Some(reference) = open.pop() {
            let position = reference as usize - 1;
            if self.reached[position] == self.searches {
                continue;
            }
            self.reached[position] = self.searches;
            let record = &self.records[position];
            let pointers = &self.fields[record.fields..record.fields + record.pointers as usize];
            open.extend(pointers.iter().filter(|&&pointer| pointer != 0));
        }
    }

    /// Whether the last search reached the record.
    pub fn was_reached(&self, reference: Reference) -> bool {
        self.reached[reference as usize - 1] == self.searches
    }
}
