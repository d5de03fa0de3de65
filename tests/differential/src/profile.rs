//! Kinds of lists: how often each call comes, how large the records are, how many mutators there are, how fast the collector goes.

use crate::calls::*;
use crate::layout::{Geometry, HIGHEST};
use crate::rng::Rng;

/// What a list is made to meet.
pub struct Profile {
    pub name: &'static str,
    /// How often each call of `WEIGHED` comes, beside the looks.
    weights: [u32; 17],
    /// The smallest and the largest class of the records.
    classes: (u32, u32),
    /// The most mutators at a time.
    mutators: u32,
    /// Of 1024 numbers, how many are at or past a bound.
    bad: u32,
    /// Of 1024 choices, how many are a pattern of calls rather than one call.
    pub patterns: u32,
    /// Whether long rows of records that live beside each other are made.
    pub rows: bool,
    /// Of 1024 rows in a bitmap of three levels, how many fill a segment.
    pub whole: u32,
}

const WEIGHED: [Kind; 17] = [Make, Load, Store, Put, Get, Copy, Clear, Same, Shape, Check, Leave, Enter, Attach, Spawn, Detach, Start, Step];

pub const PROFILES: [Profile; 12] = [
    Profile {
        name: "small records",
        weights: [120, 20, 40, 8, 8, 12, 12, 4, 4, 3, 1, 2, 1, 1, 1, 0, 0],
        classes: (3, 5),
        mutators: 4,
        bad: 8,
        patterns: 40,
        rows: false,
        whole: 0,
    },
    Profile {
        name: "mixed sizes",
        weights: [70, 30, 40, 20, 20, 15, 15, 6, 8, 4, 2, 4, 2, 2, 2, 0, 0],
        classes: (3, HIGHEST),
        mutators: 6,
        bad: 16,
        patterns: 60,
        rows: false,
        whole: 0,
    },
    Profile {
        name: "big records",
        weights: [60, 30, 60, 30, 30, 12, 12, 5, 5, 4, 2, 4, 1, 1, 1, 0, 0],
        classes: (9, HIGHEST),
        mutators: 5,
        bad: 16,
        patterns: 60,
        rows: false,
        whole: 0,
    },
    Profile {
        name: "chains",
        weights: [30, 60, 30, 4, 4, 20, 6, 10, 4, 4, 1, 2, 1, 0, 1, 0, 0],
        classes: (4, 8),
        mutators: 3,
        bad: 8,
        patterns: 400,
        rows: false,
        whole: 0,
    },
    Profile {
        name: "barrier",
        weights: [24, 60, 130, 0, 0, 20, 12, 6, 0, 3, 1, 2, 1, 1, 1, 0, 0],
        classes: (5, 11),
        mutators: 4,
        bad: 8,
        patterns: 120,
        rows: false,
        whole: 0,
    },
    Profile {
        name: "inside and outside",
        weights: [50, 20, 40, 4, 4, 10, 8, 4, 2, 20, 45, 55, 2, 2, 2, 0, 0],
        classes: (6, HIGHEST),
        mutators: 12,
        bad: 16,
        patterns: 40,
        rows: false,
        whole: 0,
    },
    Profile {
        name: "coming and going",
        weights: [60, 20, 30, 4, 4, 10, 5, 5, 3, 8, 3, 5, 20, 30, 50, 0, 0],
        classes: (5, HIGHEST),
        mutators: 32,
        bad: 24,
        patterns: 40,
        rows: false,
        whole: 0,
    },
    Profile {
        name: "no room",
        weights: [110, 10, 50, 4, 4, 16, 2, 3, 3, 4, 2, 4, 1, 1, 1, 0, 0],
        classes: (6, HIGHEST),
        mutators: 8,
        bad: 12,
        patterns: 240,
        rows: false,
        whole: 0,
    },
    Profile {
        name: "bounds",
        weights: [40, 20, 20, 20, 20, 15, 10, 15, 15, 8, 6, 10, 8, 10, 6, 6, 12],
        classes: (3, HIGHEST),
        mutators: 8,
        bad: 300,
        patterns: 10,
        rows: false,
        whole: 0,
    },
    Profile {
        name: "values",
        weights: [30, 20, 20, 70, 70, 10, 8, 8, 12, 4, 2, 3, 1, 1, 1, 0, 0],
        classes: (4, HIGHEST),
        mutators: 3,
        bad: 24,
        patterns: 20,
        rows: false,
        whole: 0,
    },
    Profile {
        name: "dense",
        weights: [60, 4, 10, 0, 0, 4, 4, 2, 0, 3, 1, 2, 0, 0, 1, 0, 0],
        classes: (3, 10),
        mutators: 2,
        bad: 4,
        patterns: 300,
        rows: true,
        whole: 40,
    },
    Profile {
        name: "three levels",
        weights: [60, 4, 10, 0, 0, 4, 4, 2, 0, 12, 1, 2, 0, 0, 1, 0, 0],
        classes: (3, 3),
        mutators: 1,
        bad: 4,
        patterns: 700,
        rows: true,
        whole: 800,
    },
];

/// One list's parameters, drawn for it.
pub struct Plan {
    pub profile: &'static Profile,
    pub g: Geometry,
    pub calls: u64,
    /// The classes that most makes take.
    pub palette: Vec<u32>,
    pub mutators: u32,
    /// Of 1024 calls, how many are the collector's.
    pub pace: u32,
    /// Whether steps come in runs.
    pub bursts: bool,
    /// Of 1024 calls in a handshake, how many are checks.
    pub checks: u32,
    pub bad: u32,
    /// Of 16,384 calls, how many have a wrong count, size or length.
    pub wrong_size: u32,
    /// Whether a make that finds no room makes the collector hurry and mutators let go.
    pub relieves: bool,
    /// Whether a slice may be named longer than it is: there are guard words behind.
    pub longer: bool,
    table: Vec<Kind>,
}

impl Plan {
    /// Draws a profile, the last two, whose small blocks take many calls, more often, the last above all in few segments, and the rest.
    pub fn draw(rng: &mut Rng, g: Geometry, calls: u64, longer: bool) -> Plan {
        let profile = match rng.below(if g.segments <= 2 { 20 } else { 16 }) {
            number @ 0..10 => &PROFILES[number as usize],
            10..14 => &PROFILES[10],
            _ => &PROFILES[11],
        };
        let calls = if profile.rows { 3 * calls } else { calls };
        let crowded = rng.chance(250);
        let most = profile.mutators.min(if crowded { 2 * g.segments + 1 } else { g.segments });
        Plan {
            profile,
            g,
            calls,
            palette: palette(rng, profile, g),
            mutators: if rng.chance(400) { most } else { rng.between(1, most) },
            // Rows are long to trace: many steps, or no cycle ends.
            pace: rng.pick(if profile.rows { &[40, 150, 400, 700, 700, 900, 900] } else { &[8, 40, 40, 150, 150, 400, 700] }),
            bursts: rng.chance(300),
            checks: rng.pick(&[10, 60, 60, 150, 400]),
            bad: profile.bad,
            wrong_size: rng.pick(&[8, 64, 64, 400]),
            relieves: rng.chance(850),
            longer,
            table: table(profile),
        }
    }

    pub fn kind(&self, rng: &mut Rng) -> Kind {
        rng.pick(&self.table)
    }
}

/// With few segments few classes have room beside each other; with many, larger blocks fill segments in reasonable time.
fn palette(rng: &mut Rng, profile: &Profile, g: Geometry) -> Vec<u32> {
    let larger = u32::from(g.kib == 32);
    let (low, high) = match profile.classes {
        (low, high) if profile.rows => (low, high + larger),
        classes => classes,
    };
    let low = match g.segments {
        0..=8 => low,
        9..=40 => low.max(6 + larger).min(high),
        _ => low.max(8 + larger).max(high.saturating_sub(5)).min(HIGHEST),
    };
    if profile.rows && g.segments <= 8 && rng.chance(600) {
        let small = [(); 2].map(|()| rng.between(low, high.min(5)));
        return vec![small[0].min(small[1])];
    }
    let many = if profile.rows { 1 } else { rng.between(1, g.segments.min(4)) };
    (0..many).map(|_| rng.between(low.min(high.max(low)), high.max(low))).collect()
}

fn table(profile: &Profile) -> Vec<Kind> {
    let weighed = WEIGHED.into_iter().zip(profile.weights).chain([(Phase, 1), (States, 1), (Sheet, 1)]);
    weighed.flat_map(|(kind, weight)| std::iter::repeat_n(kind, weight as usize)).collect()
}
