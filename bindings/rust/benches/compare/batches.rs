//! The table of batches: families of sixteen motifs in the catalogs of the query table.
use crate::plain::block::{self, Owned};
use crate::plain::calls;
use crate::random::Random;
use crate::timing::{Version, least};
use crate::{Goal, SEED, SHAPES, SIZES, catalog, lent, make, peers, print_head, print_row, strand};
use lakhido::{BLOCK, BLOCKS_MOST, MOLECULE_MOST, MOTIF_MOST, MOTIFS_MOST, SLOTS_MOST};

/// For each motif the count of hits and of molecules searched, and the number of molecules read.
type Answer = ([(usize, usize); MOTIFS_MOST], usize);

/// What a version writes.
struct Buffers {
    cache: Vec<u8>,
    work: Vec<u16>,
    hits: Vec<u16>,
}

/// Sixteen motifs, each with a slot of its own.
fn family(mut motif: impl FnMut() -> Owned) -> Vec<Owned> {
    let slot = |motif: &Owned| calls::key(motif.lend()) % SLOTS_MOST;
    let mut motifs: Vec<Owned> = Vec::new();
    while motifs.len() < MOTIFS_MOST {
        let next = motif();
        if motifs.iter().all(|other| slot(other) != slot(&next)) {
            motifs.push(next);
        }
    }
    motifs
}

/// Counts, searched numbers and hits as one number by which the versions are compared.
fn number(found: &[(usize, usize)], hits: &[u16]) -> usize {
    let sum = |list: &[u16]| list.iter().map(|&d| d as usize).sum::<usize>();
    let lists = found.iter().zip(hits.chunks(BLOCKS_MOST));
    (1..).zip(lists).map(|(t, (&(count, searched), list))| t * (sum(&list[..count]) + 1_000_000 * searched)).sum()
}

/// A version on buffers of its own, which it has filled once; a cold one begins with a cache of zeros.
fn version<'a>(cold: bool, call: impl Fn(&mut Buffers) -> Answer + 'a) -> Version<'a> {
    let work = vec![0; lakhido::query_work_size(MOTIF_MOST)];
    let mut own = Buffers { cache: vec![0; BLOCK * SLOTS_MOST], work, hits: vec![0; BLOCKS_MOST * MOTIFS_MOST] };
    let all_read = if cold { BLOCKS_MOST } else { 0 };
    call(&mut own);
    Box::new(move || {
        if cold {
            own.cache.fill(0);
        }
        let (found, read) = call(&mut own);
        assert_eq!(read, all_read);
        number(&found, &own.hits)
    })
}

fn ours(catalog: &[u8], motifs: &[u8], own: &mut Buffers) -> Answer {
    let batch = lakhido::batch(catalog, &mut own.cache, motifs, &mut own.work, &mut own.hits).expect("accepted");
    (std::array::from_fn(|t| (batch.queries()[t].count, batch.queries()[t].searched)), batch.read)
}

/// The library's single queries. In its own slot each searches all or nothing, and the most that one searches are all that are read.
fn single_queries(catalog: &[u8], family: &[Owned], own: &mut Buffers) -> Answer {
    let mut found = [(0, 0); MOTIFS_MOST];
    for ((motif, list), place) in family.iter().zip(own.hits.chunks_mut(BLOCKS_MOST)).zip(&mut found) {
        let query = lakhido::query(catalog, &mut own.cache, lent(motif.lend()), &mut own.work, list).expect("accepted");
        *place = (query.count, query.searched);
    }
    (found, found.iter().map(|&(_, searched)| searched).max().unwrap_or(0))
}

/// The library's batch, that of C, and the library's single queries one after the other.
fn versions<'a>(catalog: &'a [u8], family: &'a [Owned], cold: bool) -> Vec<Version<'a>> {
    let motifs: Vec<u8> = family.iter().flat_map(|motif| block::molecule_block(motif.lend())).collect();
    let of_c = motifs.clone();
    vec![
        version(cold, move |own| ours(catalog, &motifs, own)),
        version(cold, move |own| peers::batch(catalog, &mut own.cache, &of_c, &mut own.work, &mut own.hits)),
        version(cold, move |own| single_queries(catalog, family, own)),
    ]
}

/// A catalog of one shape and a family of motifs of m bases: unrelated, or taken out of a molecule that every fourth block holds.
fn case(shape: &str, m: usize, motifs: &str) -> (Vec<u8>, Vec<Owned>) {
    let mut r = Random::new(SEED + m as u64);
    let mut bytes = catalog(&mut r, shape, MOLECULE_MOST);
    if motifs == "unrelated" {
        return (bytes, family(|| strand(&mut r, shape, m)));
    }
    let q = strand(&mut r, shape, MOLECULE_MOST);
    for d in (0..BLOCKS_MOST).step_by(4) {
        bytes[BLOCK * d..BLOCK * (d + 1)].copy_from_slice(&block::molecule_block(q.lend()));
    }
    (bytes, family(|| make::taken_out(&mut r, &q, m)))
}

pub fn table() {
    println!("\n### Batch\n\nMicroseconds for {MOTIFS_MOST} motifs of m bases, each with a slot of its own, in {BLOCKS_MOST} molecules of");
    println!(
        "{MOLECULE_MOST} bases and a cache of {SLOTS_MOST} blocks. Motifs that embed are taken out of one molecule, which every fourth block holds."
    );
    println!("Cold: the cache is cleared before each call, by all versions, within the time; every molecule is searched for every motif. Warm: the");
    println!("same batch again, with nothing to search. The last column of times is the library's {MOTIFS_MOST} single queries one after the");
    println!("other, for which a cold cache is cleared once.");
    print_head("shape | m | motifs | cache | library | C, same algorithm | 16 queries | / C same | / queries");
    let mut by_same = Goal::new("batch / C of the same algorithm", 1.1);
    let mut warm = Goal::new("warm batch / single queries", 0.12);
    let mut without_arcs = Goal::new("cold batch without arcs / single queries", 0.7);
    let mut with_arcs = Goal::new("cold batch with arcs / single queries", 0.95);
    for shape in SHAPES {
        for (m, motifs) in SIZES[..2].iter().flat_map(|&(_, m)| [(m, "unrelated"), (m, "embed")]) {
            let (bytes, family) = case(shape, m, motifs);
            for (cold, name) in [(true, "cold"), (false, "warm")] {
                let row = format!("{shape}, m = {m}, {motifs}, {name}");
                let (_, times) = least(&format!("batch, {row}"), versions(&bytes, &family, cold));
                print_row(&[shape.into(), m.to_string(), motifs.into(), name.into()], &times);
                by_same.hold(&row, times[0] / times[1]);
                let by_queries = match (cold, shape) {
                    (false, _) => &mut warm,
                    (true, "no arcs") => &mut without_arcs,
                    (true, _) => &mut with_arcs,
                };
                by_queries.hold(&row, times[0] / times[2]);
            }
        }
    }
    for goal in [by_same, warm, without_arcs, with_arcs] {
        goal.told();
    }
}
