//! The differential test of the verified library: see README.md beside this package.

mod adopt;
mod blocks;
mod bound;
mod calls;
mod campaign;
mod choose;
mod compare;
mod counts;
mod coverage;
mod cycle;
mod damage;
mod interface;
mod layout;
mod lent;
mod list;
mod measure;
mod misnamed;
mod nothing;
mod numbers;
mod options;
mod parts;
mod patterns;
mod profile;
mod progress;
mod recent;
mod rng;
mod sheet;
mod sheet_heaps;
mod situations;
mod sizes;
mod tally;
mod torn;
mod totals;
mod unbounded;
mod watchdog;

use calls::*;
use campaign::{AtSize, Campaign};
use options::{Options, HELP};
use std::process::ExitCode;
use std::time::{Duration, Instant};

/// Calls by segment count at a size, the counts in groups.
fn print_counts(campaign: &Campaign, kib: u32) {
    let groups = [1..=1, 2..=2, 3..=3, 4..=4, 5..=8, 9..=16, 17..=64, 65..=128, 129..=255, 256..=256];
    let of_size: Vec<_> = campaign.by_count.iter().filter(|(g, _)| g.kib == kib).collect();
    let calls =
        |group: &std::ops::RangeInclusive<u32>| of_size.iter().filter(|(g, _)| group.contains(&g.segments)).map(|(_, calls)| **calls).sum::<u64>();
    let said: Vec<String> = groups.iter().map(|group| format!("{}-{}: {}", group.start(), group.end(), calls(group))).collect();
    println!("  {} segment counts, calls by count: {}", of_size.len(), said.join(", "));
}

fn summary_at(campaign: &Campaign, at: &AtSize) {
    let kib = at.kib;
    at.lists.print(&format!("{kib} KiB: lists on consistent memory"));
    at.lists.print_lists();
    print_counts(campaign, kib);
    at.torn.print(&format!("{kib} KiB: torn memory"));
    at.tally.print();
    at.adopted.print(&format!("{kib} KiB: lists gone on from changed memory that passes the examination"));
    at.adopted.print_cycles();
    let said = "the examination said no with the counts as they were, and yes with those of the change";
    println!("  {} heaps changed in places or bits, of which {said}", at.recounted);
    println!("  {} lists gone on with another place of a condemned segment, less than its blocks", at.places);
}

fn summary(campaign: &Campaign, seconds: f64) {
    for at in campaign.sizes.iter().filter(|at| at.calls() > 0) {
        summary_at(campaign, at);
    }
    println!("{} calls that name no count, no size or another heap's, over slices of both sizes, refused 1", campaign.misnamed);
    let said: Vec<String> = campaign.sizes.iter().map(|at| format!("{} at {} KiB", at.calls(), at.kib)).collect();
    let calls = campaign.calls();
    println!("{calls} calls, {}, in {seconds:.1} s ({:.2} million a second)", said.join(" and "), calls as f64 / seconds / 1e6);
}

/// The calls that docs/PROMISES.md says may meet 13: the others read nothing that could lead them astray.
const LED_ASTRAY: [Kind; 13] = [Detach, Make, Load, Store, Put, Get, Shape, Check, Leave, Step, Phase, States, Sheet];

/// What a whole campaign must have met at a size: everything on consistent memory, and 13 on torn memory.
fn missing_at(at: &AtSize) -> Vec<String> {
    let mut missing = at.lists.missing();
    for kind in LED_ASTRAY {
        if at.torn.by_kind[kind as usize][13] == 0 {
            missing.push(format!("{kind:?} refused 13 on torn memory"));
        }
    }
    missing.extend(at.torn.missing_wrong().into_iter().map(|what| format!("{what}, over torn memory")));
    missing.extend(at.tally.missing());
    if at.recounted == 0 {
        missing.push("memory changed in places or bits that passes the examination with its counts, and not without".into());
    }
    if at.places == 0 {
        missing.push("memory that passes the examination with another place of a condemned segment".into());
    }
    let adopted = at.adopted.bound.missing().into_iter().chain(at.adopted.sheets.missing());
    missing.extend(adopted.map(|what| format!("{what}, on changed memory")));
    for (name, _) in STEP_KINDS.iter().zip(at.adopted.steps).filter(|(_, count)| *count == 0) {
        missing.push(format!("Step answered {name} on changed memory"));
    }
    missing.into_iter().map(|what| format!("at {} KiB {what}", at.kib)).collect()
}

fn missing(campaign: &Campaign) -> Vec<String> {
    campaign.sizes.iter().flat_map(missing_at).collect()
}

fn run(options: Options) -> ExitCode {
    let complete = options.complete;
    println!("seed {}: {} calls, {} on torn memory", options.seed, options.calls, options.torn);
    watchdog::watch(options.seed, Duration::from_secs(60));
    let began = Instant::now();
    let mut campaign = Campaign::new(options);
    if let Err(fault) = campaign.play() {
        println!("DIFFERENCE after {} calls: {fault}", campaign.calls());
        return ExitCode::FAILURE;
    }
    summary(&campaign, began.elapsed().as_secs_f64());
    let missing = missing(&campaign);
    if complete && !missing.is_empty() {
        println!("NEVER MET: {}", missing.join(", "));
        return ExitCode::FAILURE;
    }
    println!("differences: 0");
    ExitCode::SUCCESS
}

fn main() -> ExitCode {
    let mut args = std::env::args().skip(1).peekable();
    if args.peek().is_some_and(|arg| arg == "--help") {
        println!("{HELP}");
        return ExitCode::SUCCESS;
    }
    match Options::parse(args) {
        Ok(options) => run(options),
        Err(message) => {
            eprintln!("{message}");
            ExitCode::from(2)
        }
    }
}
