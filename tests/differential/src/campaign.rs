//! The campaign: lists until the calls are played, then torn memory. Each list and each case has a seed of its own, derived from the
//! campaign's seed and its number, and can be played alone.

use crate::calls::{Call, Examine};
use crate::choose::Chooser;
use crate::coverage::Coverage;
use crate::damage;
use crate::interface::{independent, verified};
use crate::layout::{self, Geometry, SIZES};
use crate::list::{List, Pair};
use crate::misnamed;
use crate::options::Options;
use crate::profile::Plan;
use crate::progress::Progress;
use crate::rng::{mix, Rng};
use crate::sheet;
use crate::sheet_heaps::Heaps;
use crate::sizes::NO_SIZES;
use crate::tally::Tally;
use crate::torn::Torn;
use crate::watchdog;
use std::collections::BTreeMap;

/// What was played over heaps of one size.
pub struct AtSize {
    pub kib: u32,
    pub lists: Coverage,
    pub torn: Coverage,
    /// Lists that go on from memory that passes the examination after it was changed.
    pub adopted: Coverage,
    /// Heaps changed in places or bits of which the examination said no with the counts as they were, and yes with those of the change.
    pub recounted: u64,
    /// Lists that go on from memory in which a condemned segment has another place than it had, which is not its number of blocks.
    pub places: u64,
    pub tally: Tally,
}

impl AtSize {
    fn new(kib: u32) -> AtSize {
        let [lists, torn, adopted] = std::array::from_fn(|_| Coverage::new(kib));
        AtSize { kib, lists, torn, adopted, recounted: 0, places: 0, tally: Tally::default() }
    }

    pub fn calls(&self) -> u64 {
        self.lists.calls + self.torn.calls + self.adopted.calls
    }
}

pub struct Campaign {
    options: Options,
    pairs: BTreeMap<Geometry, Pair>,
    /// By size, 16 KiB first.
    pub sizes: [AtSize; 2],
    /// Calls that name no count, no size or another heap's, before all lists.
    pub misnamed: u64,
    pub by_count: BTreeMap<Geometry, u64>,
    progress: Progress,
}

/// Segment counts, the small ones often: there, a list meets every situation within a short time.
const USUAL: [u32; 28] = [1, 1, 1, 2, 2, 2, 3, 3, 3, 4, 4, 5, 5, 6, 7, 8, 8, 9, 12, 16, 20, 32, 33, 64, 100, 128, 255, 256];
/// For torn memory, where each call is compared word by word, larger counts are rare.
const USUAL_TORN: [u32; 40] =
    [1, 1, 1, 1, 1, 1, 1, 1, 1, 1, 1, 1, 1, 1, 2, 2, 2, 2, 2, 2, 2, 2, 2, 2, 3, 3, 3, 3, 3, 3, 4, 4, 4, 4, 5, 8, 16, 33, 100, 256];

/// Checks that both implementations say the lengths that the header says.
pub fn lengths_agree() -> Result<(), String> {
    let counts = (0..=300).chain([0x1_0001, 1 << 31, u32::MAX]);
    for g in counts.flat_map(|segments| (0..=70).chain(NO_SIZES).map(move |kib| Geometry { segments, kib })) {
        let right = g.lengths();
        let said = [verified().length(g), verified().states_length(g), verified().scratch_length(g), verified().sheet_length(g)];
        let others = [independent().states_length(g), independent().sheet_length(g)];
        if said != right || others != [right[1], right[3]] || (independent().length(g) == 0) != (right[0] == 0) {
            return Err(format!("lengths for {g}: {said:?}, the header says {right:?}"));
        }
    }
    Ok(())
}

/// Whether a condemned segment's place is another than in `base`, and less than its blocks.
fn other_places(memory: &[u32], base: &[u32], g: Geometry) -> bool {
    let records = [memory, base].map(|words| layout::each_segment(layout::all_records(words, g)));
    let [now, then] = records;
    now.zip(then).any(|(now, then)| now[0] == 4 && now[2] != then[2] && now[2] < g.blocks(now[1]))
}

/// Where a size stands among the two.
fn index(g: Geometry) -> usize {
    usize::from(g.kib == 32)
}

impl Campaign {
    pub fn new(options: Options) -> Campaign {
        let progress = Progress::new(options.quiet);
        let sizes = SIZES.map(AtSize::new);
        Campaign { options, pairs: BTreeMap::new(), sizes, misnamed: 0, by_count: BTreeMap::new(), progress }
    }

    pub fn calls(&self) -> u64 {
        self.misnamed + self.sizes.iter().map(AtSize::calls).sum::<u64>()
    }

    pub fn play(&mut self) -> Result<(), String> {
        lengths_agree()?;
        if let Some(number) = self.options.only {
            return if self.options.calls > 0 { self.list(number) } else { self.case(number) };
        }
        self.misnamed = misnamed::all_refused([verified(), independent()], self.options.guard == 0)?;
        self.sheet_heaps()?;
        let mut number = 0;
        while self.played(|at| &at.lists) < self.options.calls {
            self.list(number)?;
            number += 1;
            self.say("lists", |at| &at.lists);
        }
        number = 0;
        while self.played(|at| &at.torn) < self.options.torn {
            self.case(number)?;
            number += 1;
            self.say("torn memory", |at| &at.torn);
        }
        Ok(())
    }

    /// The calls of one kind of list, at both sizes.
    fn played(&self, of: fn(&AtSize) -> &Coverage) -> u64 {
        self.sizes.iter().map(|at| of(at).calls).sum()
    }

    fn say(&mut self, what: &str, of: fn(&AtSize) -> &Coverage) {
        let begun = self.sizes.iter().map(|at| of(at).lists).sum();
        self.progress.say(what, self.sizes.iter().map(|at| of(at).calls).sum(), begun);
    }

    fn seed(&self, number: u64) -> u64 {
        mix(self.options.seed ^ mix(number.wrapping_add(0x5851_f42d_4c95_7f2d)))
    }

    fn pair(&mut self, g: Geometry) -> &mut Pair {
        let guard = self.options.guard;
        self.pairs.entry(g).or_insert_with(|| Pair::new(g, guard))
    }

    /// Heaps made for their sheets, of the counts that a sheet must have had.
    fn sheet_heaps(&mut self) -> Result<(), String> {
        for g in self.options.sizes.iter().flat_map(|&kib| sheet::COUNTS.map(|segments| Geometry { segments, kib })) {
            let mut pair = Pair::new(g, self.options.guard);
            let mut heaps = Heaps::new(g, &mut pair, &mut self.sizes[index(g)].lists);
            let filled = if g.segments == 1 { heaps.fill_all() } else { Ok(()) };
            filled.and_then(|()| heaps.go_round()).map_err(|fault| format!("sheets of {g}, {fault}"))?;
        }
        Ok(())
    }

    fn geometry(&self, rng: &mut Rng, usual: &[u32]) -> Geometry {
        let kib = rng.pick(&self.options.sizes);
        let segments = match self.options.segments.as_slice() {
            [] if rng.chance(100) => rng.between(1, 16),
            [] if rng.chance(40) => rng.between(17, 256),
            [] => rng.pick(usual),
            counts => rng.pick(counts),
        };
        Geometry { segments, kib }
    }

    fn examine_every(&self, g: Geometry) -> u32 {
        match self.options.examine_every {
            0 => 200 + 120 * g.segments * g.kib / 16,
            every => every,
        }
    }

    /// Plays list `number`.
    fn list(&mut self, number: u64) -> Result<(), String> {
        watchdog::begin(false, number);
        let seed = self.seed(number);
        let mut rng = Rng::new(seed);
        let g = self.geometry(&mut rng, &USUAL);
        let calls = match g.segments {
            0..=16 => rng.pick(&[2_000u64, 10_000, 30_000, 60_000]),
            _ => rng.pick(&[20_000u64, 60_000]),
        };
        let calls = if self.options.calls == 0 { calls } else { calls.min(self.options.calls) };
        let played = self.play_list(g, seed, rng, calls, None);
        played.map_err(|fault| format!("seed {}, list {number}, {g}, {fault}", self.options.seed))
    }

    fn play_list(&mut self, g: Geometry, seed: u64, mut rng: Rng, calls: u64, until: Option<u32>) -> Result<(), String> {
        let every = self.examine_every(g);
        let longer = self.options.guard > 0;
        let plan = Plan::draw(&mut rng, g, calls, longer);
        let name = plan.profile.name;
        self.pair(g);
        let pair = self.pairs.get_mut(&g).expect("just made");
        let mut list = List::new(pair, &mut self.sizes[index(g)].lists, Chooser::new(plan, rng), seed, every).until(until);
        let played = list.play();
        *self.by_count.entry(g).or_default() += list.calls;
        played.map_err(|fault| format!("profile \"{name}\", {fault}"))
    }

    /// Plays case `number` of torn memory: a list makes a used heap, which is then damaged several times over.
    fn case(&mut self, number: u64) -> Result<(), String> {
        watchdog::begin(true, number);
        let seed = self.seed(!number);
        let mut rng = Rng::new(seed);
        let g = self.geometry(&mut rng, &USUAL_TORN);
        let most = rng.pick(&[100, 2_000, 6_000, 12_000]);
        let calls = u64::from(rng.between(1, most));
        let list_rng = Rng::new(rng.next());
        let until = Some(rng.below(5));
        let played = self.play_list(g, seed, list_rng, calls, until);
        let played = played.and_then(|()| self.play_torn(g, rng));
        played.map_err(|fault| format!("seed {}, torn case {number}, {g}, {fault}", self.options.seed))
    }

    fn play_torn(&mut self, g: Geometry, mut rng: Rng) -> Result<(), String> {
        let longer = self.options.guard > 0;
        let lent = &mut self.pairs.get_mut(&g).expect("its list was played").verified;
        let base = lent.memory.words().to_vec();
        let times = match g.segments {
            0..=8 => 100,
            9..=64 => 8,
            _ => 2,
        };
        let AtSize { torn, tally, .. } = &mut self.sizes[index(g)];
        for _ in 0..times {
            let calls = rng.pick(&[10, 40, 40, 120]);
            let case = Rng::new(rng.next());
            Torn::new(g, lent, torn, tally, case, longer).play(&base, calls)?;
        }
        (0..times).try_for_each(|_| self.play_adopted(g, &base, &mut rng))
    }

    /// Changes the memory and, where it still passes the examination, goes on with a list from there.
    fn play_adopted(&mut self, g: Geometry, base: &[u32], rng: &mut Rng) -> Result<(), String> {
        let lent = &mut self.pairs.get_mut(&g).expect("its list was played").verified;
        damage::tweak(rng, lent.memory.words_mut(), base, g);
        if !self.passes(g)? && !self.passes_recounted(g, base)? {
            return Ok(());
        }
        let pair = self.pairs.get_mut(&g).expect("its list was played");
        let at = &mut self.sizes[index(g)];
        at.places += u64::from(other_places(pair.verified.memory.words(), base, g));
        let calls = rng.pick(&[20, 100, 100, 400]);
        let seed = rng.next();
        let mut list_rng = Rng::new(seed);
        let plan = Plan::draw(&mut list_rng, g, calls, self.options.guard > 0);
        let list = List::new(pair, &mut at.adopted, Chooser::new(plan, list_rng), seed, 64);
        list.adopt().play().map_err(|fault| format!("gone on from changed memory, {fault}"))
    }

    /// Whether the memory passes the examination, which asks that every count is right, and every bitmap a tree.
    fn passes(&mut self, g: Geometry) -> Result<bool, String> {
        let lent = &mut self.pairs.get_mut(&g).expect("its list was played").verified;
        let yes = lent.play(&Call::new(Examine, g, [0; 4])) == 1 << 32;
        let memory = lent.memory.words();
        match yes && !(layout::all_counts_right(memory, g) && layout::all_trees(memory, g)) {
            true => Err("changed memory passes the examination, and a count or a bitmap is wrong".into()),
            false => Ok(yes),
        }
    }

    /// Whether the memory, which does not pass the examination, passes it with the counts that its places and bits ask for. Where those are
    /// not the counts of `base`, places or bits were changed.
    fn passes_recounted(&mut self, g: Geometry, base: &[u32]) -> Result<bool, String> {
        let memory = self.pairs.get_mut(&g).expect("its list was played").verified.memory.words_mut();
        if layout::all_counts_right(memory, g) {
            return Ok(false);
        }
        damage::recount(memory, g);
        let counts = |words: &[u32]| layout::each_segment(layout::all_records(words, g)).map(layout::counts_of).collect::<Vec<_>>();
        let changed = counts(memory) != counts(base);
        let yes = self.passes(g)?;
        self.sizes[index(g)].recounted += u64::from(yes && changed);
        Ok(yes)
    }
}
