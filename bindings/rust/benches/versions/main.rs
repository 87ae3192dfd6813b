//! Times this version of the library against an older one. Both archives are linked into one program and called in turn on the same inputs, so that the
//! machine's moods meet both: what is said of a version "of the time of the one before" is this program's output. The older archive is libcapi.a of a clone of
//! the older version (`make archive` there; up to version 0.6.1 `rt staticlib capi`, of that time's `rt`, which writes target/staticlib/libcapi.a):
//!
//!     LAKHIDO_OLDER_LIB=../older/crates/capi/out/libcapi.a cargo bench --features older --bench versions -- length query
//!
//! Words after `--` choose the calls: length, show, window, soundness, query.
#[allow(dead_code)]
#[path = "../compare/cases.rs"]
mod cases;
mod linked;
#[allow(dead_code)]
#[path = "../../tests/compare/make.rs"]
mod make;
#[allow(dead_code)]
#[path = "../../tests/compare/plain/mod.rs"]
mod plain;
#[allow(dead_code)]
#[path = "../../tests/compare/random.rs"]
mod random;
#[allow(dead_code)]
#[path = "../compare/timing.rs"]
mod timing;

use cases::{Case, SEED, SHAPES, SHORT, SIZES, WINDOW_SIZES, cache, cases, strand, taken_near};
use lakhido::{BLOCK, BLOCKS_MOST, MOLECULE_MOST, MOTIF_MOST, SLOTS_MOST, query_work_size, work_size};
use linked::{Library, NEWER, OLDER};
use plain::block::Owned;
use random::Random;
use timing::{Version, least_of};

/// Each row is timed this often, and its ratio is the median.
const RUNS: usize = 5;
/// The turns of a run, and the microseconds of one version in a turn: short, so that both versions see the same moment.
const TURNS: usize = 40;
const TURN: f64 = 400.0;
/// The goal for a request that adds to a rule.
const GOAL: f64 = 1.05;

/// The ratios of the rows of one call.
struct Table {
    call: &'static str,
    ratios: Vec<f64>,
}

impl Table {
    fn new(call: &'static str) -> Self {
        println!("\n| {call} | older, µs | this, µs | this / older |\n|---|---|---|---|");
        Table { call, ratios: Vec::new() }
    }

    fn row<'a>(&mut self, words: &str, make: impl Fn() -> Vec<Version<'a>>) {
        let mut runs: Vec<(f64, Vec<f64>)> = (0..RUNS)
            .map(|_| {
                let (_, times) = least_of(words, make(), TURNS, TURN);
                (times[1] / times[0], times)
            })
            .collect();
        runs.sort_by(|a, b| a.0.total_cmp(&b.0));
        let (ratio, times) = &runs[RUNS / 2];
        println!("| {words} | {:.2} | {:.2} | {ratio:.3} |", times[0], times[1]);
        self.ratios.push(*ratio);
    }

    fn told(&self) {
        let (least, most) = self.ratios.iter().fold((f64::MAX, 0.0f64), |(a, b), &r| (a.min(r), b.max(r)));
        let over = self.ratios.iter().filter(|&&r| GOAL < r).count();
        println!("\n{}: {least:.3} to {most:.3}; over {GOAL}: {over} of {} rows.", self.call, self.ratios.len());
    }
}

fn both<'a>(version: impl Fn(&'static Library) -> Version<'a>) -> Vec<Version<'a>> {
    vec![version(&OLDER), version(&NEWER)]
}

fn name(case: &Case) -> String {
    format!("{} ({}, {}) {}", case.shape, case.q.bases.len(), case.p.bases.len(), case.motif)
}

fn lengths() {
    let mut table = Table::new("length");
    for case in cases(&SIZES, make::taken_out) {
        let Case { p, q, .. } = &case;
        let size = work_size(p.bases.len(), q.bases.len());
        table.row(&name(&case), || {
            both(|library| {
                let mut work = vec![0; size];
                Box::new(move || library.length(p, q, &mut work))
            })
        });
    }
    table.told();
}

fn shows() {
    let mut table = Table::new("show");
    for case in cases(&SIZES, make::taken_out) {
        let Case { p, q, .. } = &case;
        let size = work_size(p.bases.len(), q.bases.len());
        table.row(&name(&case), || {
            both(|library| {
                let (mut work, mut places) = (vec![0; size], vec![0; p.bases.len()]);
                Box::new(move || library.show(p, q, &mut places, &mut work))
            })
        });
    }
    table.told();
}

fn windows() {
    let mut table = Table::new("window");
    for case in cases(&WINDOW_SIZES, taken_near) {
        let Case { p, q, .. } = &case;
        let size = work_size(p.bases.len(), q.bases.len());
        table.row(&name(&case), || {
            both(|library| {
                let mut work = vec![0; size];
                Box::new(move || library.window(p, q, &mut work))
            })
        });
    }
    table.told();
}

/// A catalog of these molecules as this library writes it.
fn written(library: &Library, molecules: &[Owned]) -> Vec<u8> {
    let (mut catalog, mut cache) = (vec![0; BLOCK * BLOCKS_MOST], vec![0; BLOCK]);
    for (d, q) in molecules.iter().enumerate() {
        library.add(&mut catalog, &mut cache, d, q);
    }
    catalog
}

/// A remove of a number behind the end, which is refused after the soundness pass.
fn pass<'a>(library: &'static Library, catalog: &[u8]) -> Version<'a> {
    let (mut catalog, mut cache) = (catalog.to_vec(), vec![0; BLOCK]);
    Box::new(move || library.remove(&mut catalog, &mut cache, BLOCKS_MOST))
}

fn soundness() {
    let mut table = Table::new("soundness pass");
    let mut r = Random::new(SEED);
    for shape in SHAPES {
        for n in [MOLECULE_MOST, SHORT] {
            let molecules: Vec<Owned> = (0..BLOCKS_MOST).map(|_| strand(&mut r, shape, n)).collect();
            let (older, newer) = (written(&OLDER, &molecules), written(&NEWER, &molecules));
            table.row(&format!("{shape}, {n} bases, older blocks"), || both(|library| pass(library, &older)));
            if older != newer {
                table.row(&format!("{shape}, {n} bases, blocks of this version against older ones"), || {
                    vec![pass(&OLDER, &older), pass(&NEWER, &newer)]
                });
            }
        }
        let entries = cache(&mut r, shape);
        let motif = Owned { bases: vec![b'A'], mates: vec![0] };
        table.row(&format!("{shape}, {SLOTS_MOST} entries of {MOTIF_MOST} bases"), || {
            both(|library| {
                let (catalog, mut cache, mut work) = ([0; BLOCK], entries.clone(), vec![0; query_work_size(1)]);
                let motif = &motif;
                Box::new(move || library.query(&catalog, &mut cache, motif, &mut work, &mut [0]))
            })
        });
    }
    let empty = vec![0; BLOCK * BLOCKS_MOST];
    table.row("empty blocks", || both(|library| pass(library, &empty)));
    table.told();
}

fn queries(table: &mut Table, cold: bool) {
    for case in cases(&SIZES[..2], make::taken_out) {
        let Case { shape, motif, p, q } = &case;
        let mut r = Random::new(SEED + p.bases.len() as u64);
        let mut molecules: Vec<Owned> = (0..BLOCKS_MOST).map(|_| strand(&mut r, shape, MOLECULE_MOST)).collect();
        if *motif == "embeds" {
            // Every fourth molecule has the motif.
            molecules.iter_mut().step_by(4).for_each(|molecule| *molecule = q.clone());
        }
        let catalog = written(&OLDER, &molecules);
        table.row(&format!("{shape}, m = {}, {motif}", p.bases.len()), || {
            both(|library| {
                let (mut cache, mut work, mut hits) = (vec![0; BLOCK * SLOTS_MOST], vec![0; query_work_size(p.bases.len())], vec![0; BLOCKS_MOST]);
                library.query(&catalog, &mut cache, p, &mut work, &mut hits);
                let catalog = &catalog;
                Box::new(move || {
                    if cold {
                        cache.fill(0);
                    }
                    library.query(catalog, &mut cache, p, &mut work, &mut hits)
                })
            })
        });
    }
    table.told();
}

fn main() {
    let words: Vec<String> = std::env::args().skip(1).filter(|w| !w.starts_with('-')).collect();
    println!("The median of {RUNS} ratios; each is of the least times of {TURNS} turns of {TURN} µs; processor time; seed {SEED}.");
    let tables: [(&str, fn()); 5] = [
        ("length", lengths),
        ("show", shows),
        ("window", windows),
        ("soundness", soundness),
        ("query", || {
            queries(&mut Table::new("cold query"), true);
            queries(&mut Table::new("warm query"), false);
        }),
    ];
    for (call, table) in tables {
        if words.is_empty() || words.iter().any(|w| w == call) {
            table();
        }
    }
}
