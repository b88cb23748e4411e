//! class_of IMAGE: how long the class of a random pair of a bit and a cycle takes, in nanoseconds, for all structures and for each.
use ace_rules::Analysis;
use avf_base::counter;
use bit_field::{Place, Shape, bits_in, structure_name};
use rattle_std::alloc::Global;
use rattle_std::marker::Brand;
use rattle_std::rt::R;
use rattle_std::sync::ledger::Blank;
use std::time::Instant;

const PAIRS: usize = 4_000_000;

fn place_at(shape: &Shape, index: u64) -> Place {
    let mut bit = index as u32;
    for structure in ace_class::STRUCTURES {
        if bit < bits_in(structure, shape) {
            return Place { structure, bit };
        }
        bit -= bits_in(structure, shape);
    }
    unreachable!()
}

fn time(name: &str, analysis: &Analysis<'_>, pairs: &[(Place, u32)]) {
    let start = Instant::now();
    let sum: u64 = pairs
        .iter()
        .map(|(place, cycle)| u64::from(analysis.class_of(place, *cycle).number()))
        .sum();
    let nanoseconds = start.elapsed().as_nanos() as f64 / pairs.len() as f64;
    println!(
        "{name} {nanoseconds:.0} ns over {} pairs, sum of rules {sum}",
        pairs.len()
    );
}

fn main() {
    let path = std::env::args().nth(1).expect("an image");
    let file = std::fs::read(path).expect("an image");
    let shape = Shape {
        mib: 1,
        sets: 16,
        ways: 4,
    };
    let image = elf_load::load(Global, &file, 1 << 20)
        .ok()
        .expect("a good image");
    let (mut steps, mut applies) = (
        counter::<R, Brand>(&R, Blank),
        counter::<R, Brand>(&R, Blank),
    );
    let run = run_log::record_shaped(Global, &image, &shape, 1_000_000, &mut steps)
        .ok()
        .expect("an end");
    let cycles = u64::from(run.cycles());
    let analysis = Analysis::new(Global, run, &mut steps, &mut applies)
        .ok()
        .expect("memory");
    let bits: u64 = ace_class::STRUCTURES
        .iter()
        .map(|s| u64::from(bits_in(*s, &shape)))
        .sum();
    let mut word: u64 = 88_172_645_463_325_252;
    let mut draw = || {
        word ^= word << 13;
        word ^= word >> 7;
        word ^= word << 17;
        (
            place_at(&shape, word % bits),
            ((word >> 32) % cycles) as u32,
        )
    };
    let pairs: Vec<(Place, u32)> = (0..PAIRS).map(|_| draw()).collect();
    time("all", &analysis, &pairs);
    for structure in ace_class::STRUCTURES {
        let of: Vec<(Place, u32)> = pairs
            .iter()
            .filter(|(place, _)| place.structure == structure)
            .copied()
            .collect();
        time(structure_name(structure), &analysis, &of);
    }
}
