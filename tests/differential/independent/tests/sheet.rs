//! Request No. 10: the sheet, its lines reckoned by hand, its empty lines and lengths, and what refuses it.

mod common;

use common::{World, SIZES};
use independent::{sheet_length, Refusal, Step};

const EMPTY: &str = "................................";
const QUARTER: &str = "########........................";
const HALF: &str = "################................";
const WHOLE: &str = "################################";

/// The sheet, over output that was full of other bytes.
fn text(world: &World) -> String {
    let mut output = vec![b'x'; sheet_length(world.segments, world.kib)];
    assert_eq!(independent::sheet(world.segments, world.kib, &world.mem, &mut output), Ok(()));
    String::from_utf8(output).expect("plain characters")
}

/// The lines are these columns, up to the bar, and these bars.
fn shows<const N: usize>(world: &World, lines: [(&str, &str); N]) {
    let due: String = lines.map(|(columns, bar)| format!("{columns} {bar}\n")).concat();
    assert_eq!(text(world), due);
}

/// A heap just opened.
fn opened(segments: u32, kib: u32) -> World {
    let mut mem = vec![7; independent::length(segments, kib)];
    assert_eq!(independent::open(segments, kib, &mut mem), Ok(()));
    World { segments, kib, mem }
}

#[test]
fn lengths() {
    let right = [(1, 52), (2, 104), (59, 3068), (60, 3120), (61, 3173), (120, 6241), (121, 6294), (240, 12_483), (241, 12_536), (256, 13_316)];
    for (segments, length) in right {
        assert_eq!(SIZES.map(|kib| sheet_length(segments, kib)), [length; 2]);
    }
    for (segments, kib) in [(0, 16), (257, 16), (0, 32), (u32::MAX, 32), (1, 0), (1, 15), (60, 24), (256, u32::MAX)] {
        assert_eq!(sheet_length(segments, kib), 0);
    }
}

/// Behind the 60th line of each 60 stands an empty one, but not behind the last line of the sheet.
#[test]
fn empty_lines() {
    let right: [(u32, &[usize]); 10] = [
        (1, &[]),
        (59, &[]),
        (60, &[]),
        (61, &[60]),
        (120, &[60]),
        (121, &[60, 121]),
        (180, &[60, 121]),
        (240, &[60, 121, 182]),
        (241, &[60, 121, 182, 243]),
        (256, &[60, 121, 182, 243]),
    ];
    for (kib, (segments, empty)) in SIZES.into_iter().flat_map(|kib| right.map(|of| (kib, of))) {
        let text = text(&opened(segments, kib));
        let lines: Vec<&str> = text.strip_suffix('\n').expect("a line feed ends it").split('\n').collect();
        let found: Vec<usize> = (0..lines.len()).filter(|&line| lines[line].is_empty()).collect();
        assert_eq!(found, empty);
        let of_segments: Vec<&str> = lines.into_iter().filter(|line| !line.is_empty()).collect();
        let due: Vec<String> = (0..segments).map(|number| format!("{number:>3} -- F    0    0 {EMPTY}")).collect();
        assert_eq!(of_segments, due);
    }
}

#[test]
fn free_segments() {
    for kib in SIZES {
        assert_eq!(text(&opened(1, kib)), "  0 -- F    0    0 ................................\n");
        let all = text(&opened(256, kib));
        assert!(all.contains("\n 59 -- F    0    0 ................................\n\n 60 -- F    0    0 ................................\n"));
        assert!(all.ends_with("\n255 -- F    0    0 ................................\n"));
    }
}

/// Thirteen segments are filled, four records in each.
#[test]
fn full_segments() {
    for (kib, line) in [(16, " 12 12 L    4    0 ################################\n"), (32, " 12 13 L    4    0 ################################\n")]
    {
        let mut world = World::new(13, kib);
        assert_eq!(world.attach(0), Ok(()));
        for _ in 0..13 {
            world.fill_segment(0);
        }
        assert!(text(&world).ends_with(line));
    }
}

/// Segments 0 to 3 are taken: a record of each of four blocks of the first, one record in each of the others; the last is free.
fn taken(kib: u32) -> World {
    let mut world = World::new(5, kib);
    assert_eq!(world.attach(0), Ok(()));
    world.fill_segment(0);
    for (root, values) in [(4, 0), (5, 2047), (6, 4095)] {
        assert_eq!(world.make(0, root, 0, values), Ok(()));
    }
    world
}

/// Mutator 0 goes, and mutator 1 keeps the first record.
fn hand_over(world: &mut World) {
    assert_eq!(world.spawn(1, 0, 0), Ok(()));
    assert_eq!(world.detach(0), Ok(()));
}

/// The rest of the cycle.
fn sweep(world: &mut World) {
    world.play_to_mark(&[1]);
    assert_eq!(world.trace_all(), 1);
    for (segment, freed) in [(0, 3), (1, 1), (2, 1), (3, 1)] {
        assert_eq!(world.step(), Ok(Step::Swept { segment, freed }));
    }
    assert_eq!(world.step(), Ok(Step::Done));
}

#[test]
fn states_at_16_kib() {
    let free = ("  4 -- F    0    0", EMPTY);
    let mut world = taken(16);
    shows(&world, [("  0 12 L    4    0", WHOLE), ("  1  3 H    1 2047", EMPTY), ("  2 13 H    1    1", HALF), ("  3 14 L    1    0", WHOLE), free]);
    hand_over(&mut world);
    shows(&world, [("  0 12 L    4    0", WHOLE), ("  1  3 P    1 2047", EMPTY), ("  2 13 P    1    1", HALF), ("  3 14 L    1    0", WHOLE), free]);
    assert_eq!(world.start(), Ok(()));
    shows(&world, [("  0 12 C    4    0", WHOLE), ("  1  3 C    1 2047", EMPTY), ("  2 13 C    1    1", HALF), ("  3 14 C    1    0", WHOLE), free]);
    sweep(&mut world);
    let [one, two, three] = ["  1 -- F    0    0", "  2 -- F    0    0", "  3 -- F    0    0"].map(|columns| (columns, EMPTY));
    shows(&world, [("  0 12 P    1    3", QUARTER), one, two, three, free]);
    assert_eq!(world.make_quarter(1, 1), Ok(()));
    shows(&world, [("  0 12 H    2    2", HALF), one, two, three, free]);
}

#[test]
fn states_at_32_kib() {
    let free = ("  4 -- F    0    0", EMPTY);
    let mut world = taken(32);
    shows(
        &world,
        [("  0 13 L    4    0", WHOLE), ("  1  3 H    1 4095", EMPTY), ("  2 13 H    1    3", QUARTER), ("  3 14 H    1    1", HALF), free],
    );
    hand_over(&mut world);
    shows(
        &world,
        [("  0 13 L    4    0", WHOLE), ("  1  3 P    1 4095", EMPTY), ("  2 13 P    1    3", QUARTER), ("  3 14 P    1    1", HALF), free],
    );
    assert_eq!(world.start(), Ok(()));
    shows(
        &world,
        [("  0 13 C    4    0", WHOLE), ("  1  3 C    1 4095", EMPTY), ("  2 13 C    1    3", QUARTER), ("  3 14 C    1    1", HALF), free],
    );
    sweep(&mut world);
    let [one, two, three] = ["  1 -- F    0    0", "  2 -- F    0    0", "  3 -- F    0    0"].map(|columns| (columns, EMPTY));
    shows(&world, [("  0 13 P    1    3", QUARTER), one, two, three, free]);
    assert_eq!(world.make_quarter(1, 1), Ok(()));
    shows(&world, [("  0 13 H    2    2", HALF), one, two, three, free]);
}

/// After so many makes of a class the line is this one up to the bar, which has so many of #.
#[test]
fn bars() {
    let cases = [
        (16, 3, 63, "  0  3 H   63 1985 ", 0),
        (16, 3, 64, "  0  3 H   64 1984 ", 1),
        (16, 3, 127, "  0  3 H  127 1921 ", 1),
        (16, 3, 2047, "  0  3 H 2047    1 ", 31),
        (16, 3, 2048, "  0  3 L 2048    0 ", 32),
        (16, 5, 15, "  0  5 H   15  497 ", 0),
        (16, 5, 511, "  0  5 H  511    1 ", 31),
        (16, 9, 7, "  0  9 H    7   25 ", 7),
        (16, 10, 7, "  0 10 H    7    9 ", 14),
        (16, 11, 3, "  0 11 H    3    5 ", 12),
        (32, 3, 127, "  0  3 H  127 3969 ", 0),
        (32, 3, 128, "  0  3 H  128 3968 ", 1),
        (32, 3, 4095, "  0  3 H 4095    1 ", 31),
        (32, 3, 4096, "  0  3 L 4096    0 ", 32),
        (32, 9, 63, "  0  9 H   63    1 ", 31),
        (32, 12, 5, "  0 12 H    5    3 ", 20),
        (32, 14, 2, "  0 14 L    2    0 ", 32),
    ];
    for (kib, class, makes, columns, filled) in cases {
        let mut world = opened(1, kib);
        assert_eq!(independent::attach(1, kib, &mut world.mem, 0), Ok(()));
        for _ in 0..makes {
            assert_eq!(independent::make(1, kib, &mut world.mem, 0, 0, 0, (1 << class) / 4 - 1), Ok(()));
        }
        assert_eq!(text(&world), format!("{columns}{}{}\n", "#".repeat(filled), ".".repeat(32 - filled)));
    }
}

/// Refused, whichever it is, and the output stays.
fn refused(world: &World, length: usize, refusal: Refusal) {
    let before: Vec<u8> = (0..length).map(|byte| byte as u8).collect();
    let mut output = before.clone();
    assert_eq!(independent::sheet(world.segments, world.kib, &world.mem, &mut output), Err(refusal));
    assert_eq!(output, before);
}

#[test]
fn another_length_is_refused() {
    for (kib, segments) in SIZES.into_iter().flat_map(|kib| [1, 60, 61, 256].map(|segments| (kib, segments))) {
        let mut world = opened(segments, kib);
        let right = sheet_length(segments, kib);
        for length in [0, right - 1, right + 1, right - 52, right + 52, 6 * segments as usize, 24 * segments as usize] {
            refused(&world, length, Refusal::SIZE);
        }
        world.kib = 48 - kib;
        refused(&world, right, Refusal::SIZE);
        (world.kib, world.segments) = (kib, segments + 1);
        refused(&world, sheet_length(segments + 1, kib), Refusal::SIZE);
    }
}

/// A state that is none, and a class that is none where the segment is not free. A free segment's class, and all counts, are not asked for.
#[test]
fn torn_heads() {
    for kib in SIZES {
        let world = taken(kib);
        let (right, length) = (text(&world), sheet_length(5, kib));
        let with = |segment: usize, word: usize, value: u32| {
            let mut torn = World { segments: 5, kib, mem: world.mem.clone() };
            torn.mem[world.descriptor(segment) + word] = value;
            torn
        };
        for segment in 0..5 {
            for state in [5, 6, 1 << 31, u32::MAX] {
                refused(&with(segment, 0, state), length, Refusal::TORN);
            }
            for count in [0, 5000, u32::MAX] {
                assert_eq!(text(&with(segment, 6, count)), right);
                assert_eq!(text(&with(segment, 7, count)), right);
            }
        }
        for class in [0, 2, 15, 32, u32::MAX] {
            refused(&with(3, 1, class), length, Refusal::TORN);
            assert_eq!(text(&with(4, 1, class)), right);
        }
        assert!(text(&with(1, 2, u32::MAX)).contains(["  1  3 H 2048    0 ", "  1  3 H 4096    0 "][usize::from(kib == 32)]));
    }
}
