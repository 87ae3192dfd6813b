//! Times the library against plain Rust (tests/compare/plain) and plain C (benches/peers) on the same inputs in one run, all at optimization level 3, and
//! prints tables and the goals. `cargo bench --features c-peers`; words after `--` choose the tables: length, window, show, soundness, query, batch.
mod batches;
mod cases;
#[allow(dead_code)]
#[path = "../../tests/compare/make.rs"]
mod make;
mod peers;
#[allow(dead_code)]
#[path = "../../tests/compare/plain/mod.rs"]
mod plain;
#[allow(dead_code)]
#[path = "../../tests/compare/random.rs"]
mod random;
mod timing;

use cases::{Case, SEED, SHAPES, SHORT, SIZES, WINDOW_SIZES, cache, cases, catalog, strand, taken_near};
use lakhido::{BLOCK, BLOCKS_MOST, MOLECULE_MOST, MOST, MOTIF_MOST, SLOTS_MOST};
use peers::{By, Sum};
use plain::block;
use plain::calls;
use plain::strand::{Fold, Strand, fold_of};
use random::Random;
use timing::{TURNS, Version, least};

/// The rows of a table that miss a goal.
struct Goal {
    text: &'static str,
    most: f64,
    worst: f64,
    missed: Vec<String>,
}

impl Goal {
    fn new(text: &'static str, most: f64) -> Self {
        Goal { text, most, worst: 0.0, missed: Vec::new() }
    }

    fn hold(&mut self, row: &str, ratio: f64) {
        self.worst = self.worst.max(ratio);
        if self.most < ratio {
            self.missed.push(format!("{row}: {ratio:.2}"));
        }
    }

    fn told(&self) {
        let met = if self.missed.is_empty() { "met" } else { "MISSED" };
        println!("\nGoal: {} at most {} on every row: {met} (largest {:.2}).", self.text, self.most, self.worst);
        for row in &self.missed {
            println!("- missed: {row}");
        }
    }
}

fn microseconds(t: f64) -> String {
    if t < 100.0 { format!("{t:.2}") } else { format!("{t:.0}") }
}

fn ratio(x: f64) -> String {
    if x < 0.1 { format!("{x:.3}") } else { format!("{x:.2}") }
}

/// Prints a row: its words, the times, then the ratios of the first time to each of the others.
fn print_row(words: &[String], times: &[f64]) {
    let times_text = times.iter().map(|&t| microseconds(t));
    let ratios = times[1..].iter().map(|t| ratio(times[0] / t));
    let cells: Vec<String> = words.iter().cloned().chain(times_text).chain(ratios).collect();
    println!("| {} |", cells.join(" | "));
}

fn print_head(words: &str) {
    println!("\n| {words} |\n|{}", "---|".repeat(words.split(" | ").count()));
}

fn lengths() {
    println!(
        "\n### Length\n\nMicroseconds; the work slice is not cleared before a call, by any version. The library and C of the same algorithm check both strands first"
    );
    println!(
        "and count the molecule's arcs and depth, the versions of 003's rows do neither. The column checks is the library's part for the two checks"
    );
    println!("alone (a call with no work slice, which is refused after them).");
    print_head("shape | n | m | motif | L | checks | library | C, 003's rows | C, same algorithm | Rust, 003's rows | / C rows | / C same | / Rust");
    let mut by_rows = Goal::new("length / C of 003's rows", 0.5);
    let mut by_same = Goal::new("length / C of the same algorithm", 1.05);
    for Case { shape, motif, p, q } in cases(&SIZES, make::taken_out) {
        let (p, q) = (p.lend(), q.lend());
        let size = lakhido::work_size(p.len(), q.len());
        let (mut ours, mut rows, mut segments) = (vec![0; size], vec![0; size], vec![0; size]);
        let fold = fold_of(q.mates);
        let versions: Vec<Version> = vec![
            Box::new(move || told(lakhido::length(lent(p), lent(q), &mut ours), fold)),
            // SAFETY: the strands are valid: the first version, which is called first, panics on others.
            Box::new(move || unsafe { peers::rows_length(p, q, &mut rows) }),
            Box::new(move || {
                let (length, counted) = peers::segments_length(p, q, &mut segments).expect("valid strands");
                assert_eq!(counted, fold);
                length
            }),
            Box::new(move || plain::rows::length(p, q)),
        ];
        let row = format!("{shape} ({}, {}) {motif}", q.len(), p.len());
        let checks: Version = Box::new(move || lakhido::length(lent(p), lent(q), &mut []).expect_err("refused").reason.number() as usize);
        let checks = microseconds(least(&row, vec![checks]).1[0]);
        let (found, times) = least(&row, versions);
        print_row(&[shape.into(), q.len().to_string(), p.len().to_string(), motif.into(), found.to_string(), checks], &times);
        by_rows.hold(&row, times[0] / times[1]);
        by_same.hold(&row, times[0] / times[2]);
    }
    by_rows.told();
    by_same.told();
}

fn lent<'a>(s: Strand<'a>) -> lakhido::Strand<'a> {
    lakhido::Strand::new(s.bases, s.mates)
}

/// The length that an accepted call answers, whose fold must be this.
fn told(answer: Result<lakhido::Matched, lakhido::Refusal>, fold: Fold) -> usize {
    let found = answer.expect("accepted");
    assert_eq!((found.fold.arcs, found.fold.depth), (fold.arcs, fold.depth));
    found.length
}

/// A window as one number by which the versions are compared; 0 for none.
fn number(window: Option<lakhido::Window>) -> usize {
    window.map_or(0, |w| 1 + w.start * (MOST + 1) + w.length)
}

/// The window that an accepted call answers, as a number; its fold must be this.
fn told_window(answer: Result<lakhido::Windowed, lakhido::Refusal>, fold: Fold) -> usize {
    let found = answer.expect("accepted");
    assert_eq!((found.fold.arcs, found.fold.depth), (fold.arcs, fold.depth));
    number(found.window)
}

/// The library's window, that of C, and the library's length, which must tell by the whole motif whether there is a window.
fn window_versions<'a>(p: Strand<'a>, q: Strand<'a>) -> Vec<Version<'a>> {
    let size = lakhido::work_size(p.len(), q.len());
    let (mut ours, mut of_c, mut other) = (vec![0; size], vec![0; size], vec![0; size]);
    let fold = fold_of(q.mates);
    let found = told_window(lakhido::window(lent(p), lent(q), &mut ours), fold);
    vec![
        Box::new(move || told_window(lakhido::window(lent(p), lent(q), &mut ours), fold)),
        Box::new(move || {
            let (window, counted) = peers::window_tightest(p, q, &mut of_c).expect("valid strands");
            assert_eq!(counted, fold);
            number(window)
        }),
        Box::new(move || {
            let length = told(lakhido::length(lent(p), lent(q), &mut other), fold);
            assert_eq!(length == p.len(), found != 0);
            found
        }),
    ]
}

fn windows() {
    println!(
        "\n### Window\n\nMicroseconds; the work slice is not cleared before a call, by either version. A motif that embeds is taken out of a stretch of 2 m to"
    );
    println!(
        "3 m bases in the middle of the molecule. Both versions check both strands first and count the molecule's arcs and depth. The column checks is"
    );
    println!(
        "the library's part for the two checks alone (a call with no work slice, which is refused after them). The last column of times is the library's"
    );
    println!("length, timed in the same turns.");
    print_head("shape | n | m | motif | start | length | checks | library | C, same algorithm | library's length | / C same | / length");
    let mut goal = Goal::new("window / C of the same algorithm", 1.1);
    for Case { shape, motif, p, q } in cases(&WINDOW_SIZES, taken_near) {
        let (p, q) = (p.lend(), q.lend());
        let row = format!("{shape} ({}, {}) {motif}", q.len(), p.len());
        let checks: Version = Box::new(move || lakhido::window(lent(p), lent(q), &mut []).expect_err("refused").reason.number() as usize);
        let checks = microseconds(least(&row, vec![checks]).1[0]);
        let (found, times) = least(&format!("window, {row}"), window_versions(p, q));
        let [start, length] = match found {
            0 => ["none".into(), "none".into()],
            _ => [(found - 1) / (MOST + 1), (found - 1) % (MOST + 1)].map(|x| x.to_string()),
        };
        print_row(&[shape.into(), q.len().to_string(), p.len().to_string(), motif.into(), start, length, checks], &times);
        goal.hold(&row, times[0] / times[1]);
    }
    goal.told();
}

fn shows() {
    println!(
        "\n### Show\n\nMicroseconds; no buffer is cleared before a call. The library works in its work slice of 64 (m + 1) + 8 n numbers; the C and Rust versions keep a table of"
    );
    println!(
        "all rows, (n + 1) (m + 1) numbers, which C is lent and Rust allocates, and check no strand; C counts arcs and depth too, Rust does not."
    );
    println!("The last column of times is the library's length, timed in the same turns.");
    print_head("shape | n | m | motif | L | library | C, table | Rust, table | length | / C table | / Rust table | / length");
    let mut goal = Goal::new("show / length", 6.0);
    for Case { shape, motif, p, q } in cases(&SIZES, make::taken_out) {
        let (p, q) = (p.lend(), q.lend());
        let size = lakhido::work_size(p.len(), q.len());
        let (mut work, mut other) = (vec![0; size], vec![0; size]);
        let mut table = vec![0; (p.len() + 1) * (q.len() + 1)];
        let (mut ours, mut of_c, mut of_rust) = (vec![0; p.len()], vec![0; p.len()], vec![0; p.len()]);
        let fold = fold_of(q.mates);
        let versions: Vec<Version> = vec![
            Box::new(move || told(lakhido::show(lent(p), lent(q), &mut ours, &mut work), fold)),
            Box::new(move || {
                // SAFETY: the strands are valid: the first version, which is called first, panics on others.
                let (length, counted) = unsafe { peers::show(p, q, &mut table, &mut of_c) };
                assert_eq!(counted, fold);
                length
            }),
            Box::new(move || plain::table::Table::new(p, q).show(&mut of_rust)),
            Box::new(move || told(lakhido::length(lent(p), lent(q), &mut other), fold)),
        ];
        let (found, times) = least(&format!("show, {shape} ({}, {}) {motif}", q.len(), p.len()), versions);
        print_row(&[shape.into(), q.len().to_string(), p.len().to_string(), motif.into(), found.to_string()], &times);
        goal.hold(&format!("{shape} ({}, {}) {motif}", q.len(), p.len()), times[0] / times[3]);
    }
    goal.told();
}

/// The soundness pass over a catalog: a remove of a number behind its end, which is refused after the pass.
fn molecule_passes(catalog: &[u8]) -> Vec<Version<'_>> {
    let (mut ours, mut of_rust) = (catalog.to_vec(), catalog.to_vec());
    let (mut cache, mut other) = ([0; BLOCK], [0; BLOCK]);
    let of_c = |sum: Sum| -> Version {
        let bytes = catalog.to_vec();
        Box::new(move || if peers::unsound_molecule(sum, &bytes) == BLOCKS_MOST { 12 } else { 11 })
    };
    vec![
        Box::new(move || lakhido::remove(&mut ours, &mut cache, BLOCKS_MOST).expect_err("refused").reason.number() as usize),
        of_c(Sum::Walked),
        of_c(Sum::Apart),
        Box::new(move || calls::remove(&mut of_rust, &mut other, BLOCKS_MOST).expect_err("refused").0 as usize),
    ]
}

/// The soundness pass over a cache: a query in a catalog of one empty block.
fn entry_passes(cache: &[u8]) -> Vec<Version<'_>> {
    let (mut ours, mut of_rust) = (cache.to_vec(), cache.to_vec());
    let empty = [0; BLOCK];
    let (motif, mut work) = (Strand::new(b"A", &[0]), vec![0; lakhido::query_work_size(1)]);
    let size = work.len();
    let of_c = |sum: Sum| -> Version {
        let bytes = cache.to_vec();
        Box::new(move || SLOTS_MOST - peers::unsound_entry(sum, &bytes))
    };
    vec![
        Box::new(move || lakhido::query(&empty, &mut ours, lent(motif), &mut work, &mut [0]).expect("accepted").count),
        of_c(Sum::Walked),
        of_c(Sum::Apart),
        Box::new(move || calls::query(&empty, &mut of_rust, motif, size, &mut [0]).expect("accepted").0),
    ]
}

fn soundness() {
    println!("\n### Soundness pass\n\nMicroseconds for {BLOCKS_MOST} molecule blocks, of n bases or empty (a remove of number {BLOCKS_MOST}, which");
    println!(
        "is refused after the pass), and for {SLOTS_MOST} entries (a query in a catalog of one empty block, with the writing of one entry, which the"
    );
    println!("C versions do not do). C, one walk takes the library's stretches; C, sum apart walks the block once more for the checksum. Nothing is");
    println!("cleared before a call.");
    print_head("shape | blocks | n | library | C, one walk | C, sum apart | Rust | / C one walk | / C sum apart | / Rust");
    let mut by_walk = Goal::new("soundness pass / C, one walk", 1.1);
    let mut by_apart = Goal::new("soundness pass / C, sum apart", 0.6);
    let mut row = |words: [String; 3], versions: Vec<Version>| {
        let name = words.join(", ");
        let (_, times) = least(&format!("soundness, {name}"), versions);
        print_row(&words, &times);
        by_walk.hold(&name, times[0] / times[1]);
        by_apart.hold(&name, times[0] / times[2]);
    };
    let mut r = Random::new(SEED);
    for shape in SHAPES {
        for n in [MOLECULE_MOST, SHORT] {
            row([shape.into(), format!("{BLOCKS_MOST} molecules"), n.to_string()], molecule_passes(&catalog(&mut r, shape, n)));
        }
        row([shape.into(), format!("{SLOTS_MOST} entries"), MOTIF_MOST.to_string()], entry_passes(&cache(&mut r, shape)));
    }
    row(["empty".into(), format!("{BLOCKS_MOST} blocks"), "0".into()], molecule_passes(&vec![0; BLOCK * BLOCKS_MOST]));
    by_walk.told();
    by_apart.told();
}

/// One query of each version on buffers of its own; a cold one begins with a cache of zeros.
fn query_versions<'a>(catalog: &'a [u8], p: Strand<'a>, cold: bool) -> Vec<Version<'a>> {
    let size = lakhido::query_work_size(p.len());
    let own = move || (vec![0u8; BLOCK * SLOTS_MOST], vec![0u16; size], vec![0u16; BLOCKS_MOST]);
    let sum = |count: usize, searched: usize, hits: &[u16]| hits[..count].iter().map(|&d| d as usize).sum::<usize>() + 1_000_000 * searched;
    let clear = move |cache: &mut [u8]| {
        if cold {
            cache.fill(0);
        }
    };
    let of_c = move |by: By| -> Version<'a> {
        let (mut cache, mut work, mut hits) = own();
        let mut call = move || {
            clear(&mut cache);
            // SAFETY: the motif is valid: the library's query below, which is called first, panics on others.
            let (count, searched) = unsafe { peers::query(by, catalog, &mut cache, p, &mut work, &mut hits) };
            sum(count, searched, &hits)
        };
        call();
        Box::new(call)
    };
    let (mut cache, mut work, mut hits) = own();
    let (mut cache2, _, mut hits2) = own();
    lakhido::query(catalog, &mut cache, lent(p), &mut work, &mut hits).expect("accepted");
    calls::query(catalog, &mut cache2, p, size, &mut hits2).expect("accepted");
    vec![
        Box::new(move || {
            clear(&mut cache);
            let found = lakhido::query(catalog, &mut cache, lent(p), &mut work, &mut hits).expect("accepted");
            sum(found.count, found.searched, &hits)
        }),
        of_c(By::Rows),
        of_c(By::Segments),
        Box::new(move || {
            clear(&mut cache2);
            let (count, searched) = calls::query(catalog, &mut cache2, p, size, &mut hits2).expect("accepted");
            sum(count, searched, &hits2)
        }),
    ]
}

fn queries() {
    println!(
        "\n### Query\n\nMicroseconds for {BLOCKS_MOST} molecules of {MOLECULE_MOST} bases and a cache of {SLOTS_MOST} blocks. Cold: the cache is cleared before each call, by all versions, within the time; every molecule is"
    );
    println!("searched. Warm: the same query again, with nothing to search. Work and hits are not cleared.");
    print_head("shape | m | motif | cache | library | C, 003's rows | C, same algorithm | Rust, 003's rows | / C rows | / C same | / Rust");
    let mut by_rows = Goal::new("cold query / C of 003's rows", 1.0);
    let mut by_same = Goal::new("cold query / C of the same algorithm", 0.95);
    for Case { shape, motif, p, q } in cases(&SIZES[..2], make::taken_out) {
        let mut r = Random::new(SEED + p.bases.len() as u64);
        let mut bytes = catalog(&mut r, shape, MOLECULE_MOST);
        if motif == "embeds" {
            // Every fourth molecule has the motif.
            for d in (0..BLOCKS_MOST).step_by(4) {
                bytes[BLOCK * d..BLOCK * (d + 1)].copy_from_slice(&block::molecule_block(q.lend()));
            }
        }
        for cold in [true, false] {
            let name = if cold { "cold" } else { "warm" };
            let row = format!("{shape}, m = {}, {motif}, {name}", p.bases.len());
            let (_, times) = least(&row, query_versions(&bytes, p.lend(), cold));
            print_row(&[shape.into(), p.bases.len().to_string(), motif.into(), name.into()], &times);
            if cold {
                by_rows.hold(&row, times[0] / times[1]);
                by_same.hold(&row, times[0] / times[2]);
            }
        }
    }
    by_rows.told();
    by_same.told();
}

fn main() {
    let words: Vec<String> = std::env::args().skip(1).filter(|w| !w.starts_with('-')).collect();
    let wanted = |table: &str| words.is_empty() || words.iter().any(|w| w == table);
    println!(
        "Plain C by {} at -O3, plain Rust at opt-level 3, both for plain x86-64; processor time, the least of {TURNS} turns; seed {SEED}.",
        env!("LAKHIDO_PEER_COMPILER")
    );
    let tables: [(&str, fn()); 6] =
        [("length", lengths), ("window", windows), ("show", shows), ("soundness", soundness), ("query", queries), ("batch", batches::table)];
    for (name, table) in tables {
        if wanted(name) {
            table();
        }
    }
}
