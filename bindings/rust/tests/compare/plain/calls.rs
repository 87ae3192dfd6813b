//! The nine calls on lent buffers, and the order of the refusals. A call's rows are a list in their order: its refusal is the first that
//! applies, and the tests ask for all that apply.
use super::block::{self, BLOCK, ENTRY, MOLECULE};
use super::embedding;
use super::motifs;
use super::rows;
use super::strand::{self, Fold, NEITHER, Refused, Strand};
use super::windows::{self, Tightest};
use std::collections::BTreeSet;

pub const LONGEST: usize = 4096;

pub fn work_size(m: usize, n: usize) -> usize {
    64 * (m + 1) + 8 * n
}

/// A row of a call's list: the refusals that it gives, the first of them counting.
type Row<'a> = Box<dyn Fn() -> Vec<Refused> + 'a>;

fn plain<'a>(number: u32, applies: impl Fn() -> bool + 'a) -> Row<'a> {
    Box::new(move || if applies() { vec![Refused(number, NEITHER, 0)] } else { Vec::new() })
}

fn strand<'a>(s: Strand<'a>, side: u32, most: usize) -> Row<'a> {
    Box::new(move || strand::judge_all(s, side, most))
}

pub fn first(rows: Vec<Row>) -> Option<Refused> {
    rows.iter().find_map(|row| row().first().copied())
}

pub fn all(rows: Vec<Row>) -> Vec<Refused> {
    rows.iter().flat_map(|row| row()).collect()
}

// The direct calls.

pub fn check_rows<'a>(q: Strand<'a>) -> Vec<Row<'a>> {
    vec![strand(q, strand::MOLECULE, LONGEST)]
}

fn pair_rows<'a>(p: Strand<'a>, q: Strand<'a>) -> Vec<Row<'a>> {
    vec![strand(p, strand::MOTIF, LONGEST), strand(q, strand::MOLECULE, LONGEST)]
}

fn work_row<'a>(m: usize, n: usize, work: usize) -> Row<'a> {
    plain(8, move || work < work_size(m, n))
}

pub fn length_rows<'a>(p: Strand<'a>, q: Strand<'a>, work: usize) -> Vec<Row<'a>> {
    let mut rows = pair_rows(p, q);
    rows.push(work_row(p.len(), q.len(), work));
    rows
}

pub fn show_rows<'a>(p: Strand<'a>, q: Strand<'a>, places: usize, work: usize) -> Vec<Row<'a>> {
    let mut rows = pair_rows(p, q);
    rows.push(plain(9, move || places < p.len()));
    rows.push(work_row(p.len(), q.len(), work));
    rows
}

pub fn verify_rows<'a>(p: Strand<'a>, q: Strand<'a>, places: usize) -> Vec<Row<'a>> {
    let mut rows = pair_rows(p, q);
    rows.push(plain(9, move || places != p.len()));
    rows
}

fn accepted(rows: Vec<Row>) -> Result<(), Refused> {
    first(rows).map_or(Ok(()), Err)
}

pub fn check(q: Strand) -> Result<Fold, Refused> {
    accepted(check_rows(q))?;
    Ok(strand::fold_of(q.mates))
}

/// Length: L, and the fold of the molecule.
pub fn length(p: Strand, q: Strand, work: usize) -> Result<(usize, Fold), Refused> {
    accepted(length_rows(p, q, work))?;
    Ok((rows::length(p, q), strand::fold_of(q.mates)))
}

/// Window: the tightest window, and the fold of the molecule. Its rows are those of length.
pub fn window(p: Strand, q: Strand, work: usize) -> Result<(Tightest, Fold), Refused> {
    accepted(length_rows(p, q, work))?;
    Ok((windows::tightest(p, q), strand::fold_of(q.mates)))
}

/// Verify: whether the places are an embedding, and the fold of the molecule.
pub fn verify(p: Strand, q: Strand, places: &[u16]) -> Result<(bool, Fold), Refused> {
    accepted(verify_rows(p, q, places.len()))?;
    Ok((embedding::verify_linear(p, q, places), strand::fold_of(q.mates)))
}

// Add, remove, query, batch.

/// The row 10: whole blocks, and how many.
fn buffers<'a>(catalog: &'a [u8], cache: &'a [u8]) -> Row<'a> {
    let whole = |bytes: &[u8], most: usize| bytes.len() % BLOCK == 0 && (1..=most).contains(&(bytes.len() / BLOCK));
    plain(10, move || !whole(catalog, 512) || !whole(cache, 64))
}

/// The row 11: the lowest unsound block of the catalog.
fn unsound<'a>(catalog: &'a [u8]) -> Row<'a> {
    Box::new(move || {
        let lowest = catalog.chunks_exact(BLOCK).position(|b| !block::sound(&MOLECULE, b));
        lowest.map(|place| Refused(11, NEITHER, place)).into_iter().collect()
    })
}

fn held(catalog: &[u8], d: usize) -> bool {
    catalog.chunks_exact(BLOCK).nth(d).is_some_and(|b| !block::empty(b))
}

pub fn add_rows<'a>(catalog: &'a [u8], cache: &'a [u8], d: usize, molecule: Strand<'a>) -> Vec<Row<'a>> {
    vec![
        buffers(catalog, cache),
        unsound(catalog),
        plain(12, move || d >= catalog.len() / BLOCK),
        plain(13, move || held(catalog, d)),
        strand(molecule, strand::MOLECULE, MOLECULE.most),
    ]
}

pub fn remove_rows<'a>(catalog: &'a [u8], cache: &'a [u8], d: usize) -> Vec<Row<'a>> {
    vec![buffers(catalog, cache), unsound(catalog), plain(12, move || d >= catalog.len() / BLOCK), plain(14, move || !held(catalog, d))]
}

pub fn query_rows<'a>(catalog: &'a [u8], cache: &'a [u8], motif: Strand<'a>, work: usize, hits: usize) -> Vec<Row<'a>> {
    vec![
        buffers(catalog, cache),
        unsound(catalog),
        strand(motif, strand::MOTIF, ENTRY.most),
        plain(9, move || hits < catalog.len() / BLOCK),
        work_row(motif.len(), MOLECULE.most, work),
    ]
}

pub fn batch_rows<'a>(catalog: &'a [u8], cache: &'a [u8], motifs: &'a [u8], work: usize, hits: usize) -> Vec<Row<'a>> {
    vec![
        buffers(catalog, cache),
        unsound(catalog),
        Box::new(move || motifs::bad(motifs).into_iter().collect()),
        Box::new(move || motifs::too_long(motifs).into_iter().collect()),
        plain(9, move || hits < motifs::count(motifs) * (catalog.len() / BLOCK)),
        work_row(motifs::longest(motifs), MOLECULE.most, work),
    ]
}

/// Zeroes each unsound block of the cache.
fn clean(cache: &mut [u8]) {
    for b in cache.chunks_exact_mut(BLOCK) {
        if !block::sound(&ENTRY, b) {
            b.fill(0);
        }
    }
}

pub fn add(catalog: &mut [u8], cache: &mut [u8], d: usize, molecule: Strand) -> Result<Fold, Refused> {
    accepted(add_rows(catalog, cache, d, molecule))?;
    clean(cache);
    catalog[BLOCK * d..][..BLOCK].copy_from_slice(&block::molecule_block(molecule));
    Ok(strand::fold_of(molecule.mates))
}

pub fn remove(catalog: &mut [u8], cache: &mut [u8], d: usize) -> Result<(), Refused> {
    accepted(remove_rows(catalog, cache, d))?;
    clean(cache);
    catalog[BLOCK * d..][..BLOCK].fill(0);
    for b in cache.chunks_exact_mut(BLOCK).filter(|b| !block::empty(b)) {
        block::forget(b, d);
    }
    Ok(())
}

/// The key of a motif: the sum of its base bytes and its mates.
pub fn key(motif: Strand) -> usize {
    motif.bases.iter().map(|&b| b as usize).sum::<usize>() + motif.mates.iter().map(|&k| k as usize).sum::<usize>()
}

/// What an accepted query does: it gives the count of hits and the numbers searched.
fn queried(catalog: &[u8], cache: &mut [u8], motif: Strand, hits: &mut [u16]) -> (usize, Vec<usize>) {
    clean(cache);
    let slot = BLOCK * (key(motif) % (cache.len() / BLOCK));
    let entry = &mut cache[slot..slot + BLOCK];
    let kept = !block::empty(entry) && block::decode(&ENTRY, entry).lend() == motif;
    let (mut searched, mut numbers) = (Vec::new(), Vec::new());
    for (d, b) in catalog.chunks_exact(BLOCK).enumerate().filter(|(_, b)| !block::empty(b)) {
        let hit = if kept && block::searched_bit(entry, d) {
            block::hit_bit(entry, d)
        } else {
            searched.push(d);
            rows::length(motif, block::decode(&MOLECULE, b).lend()) == motif.len()
        };
        numbers.push((d, hit));
    }
    let found = numbers.iter().filter(|(_, hit)| *hit).map(|(d, _)| *d);
    let count = hits.iter_mut().zip(found).map(|(place, d)| *place = d as u16).count();
    entry.copy_from_slice(&block::entry_block(motif, numbers.into_iter()));
    (count, searched)
}

/// Query: the count of hits and of the molecules searched.
pub fn query(catalog: &[u8], cache: &mut [u8], motif: Strand, work: usize, hits: &mut [u16]) -> Result<(usize, usize), Refused> {
    accepted(query_rows(catalog, cache, motif, work, hits.len()))?;
    let (count, searched) = queried(catalog, cache, motif, hits);
    Ok((count, searched.len()))
}

/// Batch: for each motif the count of hits and of the molecules searched, and the number of molecules read. "Counts, hits, searched numbers and the shelf
/// afterwards equal those of single queries in that order." "The answer also has the number of molecules read: those held numbers that at least one of these
/// queries would search."
pub fn batch(catalog: &[u8], cache: &mut [u8], motifs: &[u8], work: usize, hits: &mut [u16]) -> Result<(Vec<(usize, usize)>, usize), Refused> {
    accepted(batch_rows(catalog, cache, motifs, work, hits.len()))?;
    let blocks = catalog.len() / BLOCK;
    let (mut found, mut read) = (Vec::new(), BTreeSet::new());
    for (t, motif) in motifs::held(motifs).into_iter().flatten().enumerate() {
        let (count, searched) = queried(catalog, cache, motif.lend(), &mut hits[t * blocks..(t + 1) * blocks]);
        found.push((count, searched.len()));
        read.extend(searched);
    }
    Ok((found, read.len()))
}
