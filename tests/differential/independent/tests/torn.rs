//! Memory that is not the heap's own: random words and flipped bits. Every call ends, without a panic, with a number that it may give.

struct Random(u64);

impl Random {
    fn next(&mut self) -> u32 {
        self.0 = self.0.wrapping_mul(6_364_136_223_846_793_005).wrapping_add(1_442_695_040_888_963_407);
        (self.0 >> 32) as u32
    }
}

/// Plays a call with small numbers; the refusal, or 0.
fn play(random: &mut Random, (segments, kib): (u32, u32), mem: &mut [u32]) -> u32 {
    use independent::*;
    let (call, m, a, b, c) = (random.next() % 21, random.next() % 5, random.next() % 16, random.next() % 16, random.next() % 3);
    let mut output = vec![0; states_length(segments, kib)];
    let mut scratch = vec![0; scratch_length(segments, kib)];
    let mut lines = vec![0; sheet_length(segments, kib)];
    match call {
        0 => pack(attach(segments, kib, mem, m)),
        1 => pack(spawn(segments, kib, mem, m, c, a)),
        2 => pack(detach(segments, kib, mem, m)),
        3..=5 => {
            let most = [300, 300, 4200][random.next() as usize % 3];
            pack(make(segments, kib, mem, m, a, b, random.next() % most))
        }
        6 => pack(load(segments, kib, mem, m, a, b, c)),
        7 => pack(store(segments, kib, mem, m, a, c, b)),
        8 => pack(put(segments, kib, mem, m, a, c, 5)),
        9 => pack_result(get(segments, kib, mem, m, a, c)) as u32,
        10 => pack(copy(segments, kib, mem, m, a, b)),
        11 => pack(clear(segments, kib, mem, m, a)),
        12 => pack(check(segments, kib, mem, m)),
        13 => pack(leave(segments, kib, mem, m)),
        14 => pack(enter(segments, kib, mem, m)),
        15 => pack(start(segments, kib, mem)),
        16 => pack(states(segments, kib, mem, &mut output)),
        17 => pack_result(examine(segments, kib, mem, &mut scratch)) as u32,
        18 => pack(sheet(segments, kib, mem, &mut lines)),
        _ => pack_result(step(segments, kib, mem)) as u32,
    }
}

/// Plays calls over so many segments of a size.
fn play_many(random: &mut Random, of: (u32, u32), mem: &mut [u32], calls: u32) {
    for _ in 0..calls {
        let refusal = play(random, of, mem);
        assert!(refusal <= 13 && refusal != 1 && refusal != 12, "refused {refusal}");
    }
}

#[test]
fn random_words() {
    let mut random = Random(3);
    for round in 0..120 {
        let (segments, kib) = (1 + round % 3, [16, 32][round as usize / 3 % 2]);
        let largest = [2, 16, 2000, 30_000, u32::MAX][round as usize % 5];
        let mut mem: Vec<u32> = (0..independent::length(segments, kib)).map(|_| random.next() % largest).collect();
        for mutator in 0..5 {
            mem[mutator * 32 + 16] = 1;
        }
        mem[1024] = round % 6;
        play_many(&mut random, (segments, kib), &mut mem, 300);
    }
}

/// A heap of two segments with mutator 0 inside.
fn opened(kib: u32) -> Vec<u32> {
    let mut mem = vec![0; independent::length(2, kib)];
    assert_eq!(independent::open(2, kib, &mut mem), Ok(()));
    assert_eq!(independent::attach(2, kib, &mut mem, 0), Ok(()));
    mem
}

/// The class of each segment is a number that is none, or that of another class.
#[test]
fn other_classes() {
    let mut random = Random(5);
    for (round, (kib, descriptors)) in (0..60).flat_map(|round| [(16, [9360, 9498]), (32, [17_680, 17_948])].map(|at| (round, at))) {
        let mut mem = opened(kib);
        play_many(&mut random, (2, kib), &mut mem, 100);
        for descriptor in descriptors {
            mem[descriptor + 1] = [0, 2, 13, 14, 15, 16, 31, 32, 33, u32::MAX][round % 10];
        }
        play_many(&mut random, (2, kib), &mut mem, 100);
    }
}

#[test]
fn flipped_bits() {
    let mut random = Random(8);
    for kib in (0..120).flat_map(|_| [16, 32]) {
        let mut mem = opened(kib);
        play_many(&mut random, (2, kib), &mut mem, 60);
        for _ in 0..6 {
            let end = [1040, mem.len() as u32][random.next() as usize % 2];
            let at = random.next() % end;
            mem[at as usize] ^= 1 << (random.next() % 32);
            play_many(&mut random, (2, kib), &mut mem, 40);
        }
    }
}
