//! Batches against the plain implementation, which runs its own queries, and against the library's single queries on a copy of the buffers: sound motif
//! buffers and damaged ones, on catalogs and caches of any content.
use crate::blocks::{self, written};
use crate::catalog::{Shop, blocks as some_blocks, pool, told};
use crate::make;
use crate::plain::block::{self, BLOCK, ENTRY, MOLECULE, MOTIF, Owned};
use crate::plain::calls::{key, work_size};
use crate::plain::model::Found;
use crate::plain::motifs;
use crate::plain::strand::{Refused, Strand};
use crate::random::{Random, rounds, seeded};
use crate::{lent, report};

/// How many motifs: mostly few, sometimes as many as there may be.
fn some_motifs(r: &mut Random) -> usize {
    if r.one_in(8) { motifs::MOST } else { r.between(1, 5) }
}

/// A motif buffer that a batch refuses: of a length that is no number of blocks or none that may be, or with blocks that it refuses, mostly one.
pub fn refused_motifs(r: &mut Random, pool: &[Owned]) -> Vec<u8> {
    let k = some_motifs(r);
    let mut bytes = blocks::motifs(r, k, pool);
    match r.below(5) {
        0 => bytes.resize(r.pick(&[0, 1, BLOCK - 1, BLOCK * k - 1, BLOCK * k + 1, BLOCK * motifs::MOST + 1]), 0),
        1 => bytes = blocks::motifs(r, motifs::MOST + 1, pool),
        _ => {
            for _ in 0..r.pick(&[1, 1, 2, 3]) {
                let at = BLOCK * r.below(k);
                refuse_motif(r, &mut bytes[at..at + BLOCK]);
            }
        }
    }
    bytes
}

/// Makes a block one that a batch refuses: an empty one, a damaged one, a motif that is too long.
fn refuse_motif(r: &mut Random, b: &mut [u8]) {
    match r.below(3) {
        0 => b.fill(0),
        1 => damage_motif(r, b),
        _ => b.copy_from_slice(&long_motif(r)),
    }
}

/// Spoils a motif block until it is unsound or empty.
pub fn damage_motif(r: &mut Random, b: &mut [u8]) {
    while block::sound_full(&MOTIF, b) {
        blocks::spoil(r, &MOTIF, b);
    }
}

/// A sound block of a motif that no query takes.
pub fn long_motif(r: &mut Random) -> [u8; BLOCK] {
    let n = r.between(ENTRY.most + 1, MOTIF.most);
    block::molecule_block(make::strand(r, n).lend())
}

/// The library's batch and its single queries in the order of the batch, each on a copy of the buffers; a batch that is refused is passed over.
fn held_to_single_queries(shop: &Shop, motifs: &[u8]) {
    let (k, b) = (motifs::count(motifs), shop.catalog.len() / BLOCK);
    let mut work = vec![0; work_size(ENTRY.most, MOLECULE.most)];
    let old: Vec<u16> = (0..k * b + 1).map(|i| i as u16 ^ 0x5a5a).collect();
    let (mut cache, mut hits) = (shop.cache.clone(), old.clone());
    let Ok(batch) = lakhido::batch(&shop.catalog, &mut cache, motifs, &mut work, &mut hits) else { return };
    let (mut of_queries, mut lists, mut found) = (shop.cache.clone(), old, Vec::new());
    for (motif, list) in motifs::held(motifs).into_iter().flatten().zip(lists.chunks_exact_mut(b)) {
        found.push(lakhido::query(&shop.catalog, &mut of_queries, lent(motif.lend()), &mut work, list).expect("a motif of an accepted batch"));
    }
    let input = || format!("{} on {shop:?}", written(motifs));
    assert_eq!(batch.queries(), found, "counts and searched: batch, single queries; {}", input());
    assert_eq!(hits, lists, "hits: batch, single queries; {}", input());
    assert_eq!(written(&cache), written(&of_queries), "cache: batch, single queries; {}", input());
    let searched = || found.iter().map(|query| query.searched);
    let (most, sum) = (searched().max().unwrap_or(0), searched().sum());
    assert!(most <= batch.read && batch.read <= sum, "read {}, searched {:?}; {}", batch.read, searched().collect::<Vec<_>>(), input());
}

/// A batch with slices that are long enough, or a little longer.
fn run(r: &mut Random, shop: &mut Shop, motifs: &[u8]) -> Result<(Vec<Found>, usize), Refused> {
    held_to_single_queries(shop, motifs);
    let spare = if r.one_in(3) { r.below(9) } else { 0 };
    let room = motifs::count(motifs) * (shop.catalog.len() / BLOCK) + spare;
    shop.batch(motifs, work_size(motifs::longest(motifs), MOLECULE.most) + spare, room)
}

#[test]
fn on_any_content() {
    let mut r = seeded();
    let (mut count, mut accepted) = (0, 0);
    for case in 0..rounds(3_000) {
        let longest = if case % 10 == 0 { MOLECULE.most } else { 20 };
        let (molecules, motifs) = pool(&mut r, 4, longest);
        let (b, s) = (some_blocks(&mut r, 512), some_blocks(&mut r, 64));
        let spoilt = r.pick(&[0, 0, 0, 4 * b]);
        let catalog = blocks::catalog(&mut r, b, &molecules, spoilt);
        let numbers = if r.one_in(3) { 512 } else { b };
        let mut shop = Shop { cache: blocks::cache(&mut r, s, numbers, &motifs), catalog };
        for _ in 0..4 {
            let k = some_motifs(&mut r);
            let bytes = if r.one_in(5) { refused_motifs(&mut r, &motifs) } else { blocks::motifs(&mut r, k, &motifs) };
            accepted += run(&mut r, &mut shop, &bytes).is_ok() as usize;
            count += 1;
            let at = r.below(s);
            match r.below(4) {
                0 => blocks::spoil_any(&mut r, &mut shop.cache[BLOCK * at..BLOCK * (at + 1)]),
                1 => shop.cache = blocks::cache(&mut r, s, numbers, &motifs),
                _ => {}
            }
        }
    }
    report(&format!("batches on any content, {accepted} accepted"), count);
    assert!(count / 2 < accepted && accepted < count);
}

/// Each motif has an entry with random maps in its slot, so that the motifs have different molecules to search, some of them more than one motif.
#[test]
fn that_read_a_union() {
    let mut r = seeded();
    let (mut count, mut unions) = (0, 0);
    for _ in 0..rounds(600) {
        let (molecules, motifs) = pool(&mut r, 6, 20);
        let (b, slots) = (r.between(3, 40), r.between(8, 64));
        let mut cache = vec![0; BLOCK * slots];
        for motif in &motifs {
            let at = BLOCK * (key(motif.lend()) % slots);
            cache[at..at + BLOCK].copy_from_slice(&blocks::entry(&mut r, motif, b));
        }
        let mut shop = Shop { catalog: blocks::catalog(&mut r, b, &molecules, 0), cache };
        let k = r.between(2, motifs.len());
        let bytes = blocks::motifs(&mut r, k, &motifs);
        let (found, read) = run(&mut r, &mut shop, &bytes).expect("accepted");
        let searched = || found.iter().map(|of_motif| of_motif.searched);
        unions += (searched().max() < Some(read) && read < searched().sum()) as usize;
        count += 1;
    }
    report(&format!("batches with known molecules, {unions} that read more than any motif searched and less than all did"), count);
    assert!(count / 20 < unions, "{unions} of {count}");
}

/// All motifs share the one slot: one that is there already searches nothing, any other searches all.
#[test]
fn in_one_slot() {
    let mut r = seeded();
    let mut count = 0;
    for _ in 0..rounds(500) {
        let (molecules, motifs) = pool(&mut r, 3, 20);
        let b = r.between(1, 9);
        let mut shop = Shop { catalog: blocks::catalog(&mut r, b, &molecules, 0), cache: vec![0; BLOCK] };
        let held = shop.catalog.chunks_exact(BLOCK).filter(|b| !block::empty(b)).count();
        let mut kept: Option<Owned> = None;
        for k in [1, 2, r.between(3, 15), motifs::MOST] {
            let bytes = blocks::motifs(&mut r, k, &motifs);
            let (found, read) = run(&mut r, &mut shop, &bytes).expect("accepted");
            let mut searches = 0;
            for (motif, of_motif) in motifs::held(&bytes).into_iter().zip(found) {
                let known = kept == motif;
                assert_eq!(of_motif.searched, if known { 0 } else { held }, "{motif:?} behind {kept:?} in one slot");
                searches += !known as usize;
                kept = motif;
            }
            assert_eq!(read, if searches == 0 { 0 } else { held });
            count += k;
        }
    }
    report("motifs of batches in one slot", count);
}

/// The same motif in every block: the first searches what the cache does not know, the others nothing, and all have its hits.
#[test]
fn of_repeated_motifs() {
    let mut r = seeded();
    let empty = Owned { bases: Vec::new(), mates: Vec::new() };
    for case in 0..rounds(300) {
        let (molecules, motifs) = pool(&mut r, 3, 24);
        let motif = if case % 4 == 0 { &empty } else { &motifs[0] };
        let (b, k) = (r.between(1, 12), some_motifs(&mut r));
        let slots = r.between(1, 8);
        let mut shop = Shop { catalog: blocks::catalog(&mut r, b, &molecules, 0), cache: blocks::cache(&mut r, slots, b, &motifs) };
        let bytes = block::molecule_block(motif.lend()).repeat(k);
        let (found, read) = run(&mut r, &mut shop, &bytes).expect("accepted");
        assert_eq!(read, found[0].searched);
        assert!(found[1..].iter().all(|again| again.searched == 0 && again.hits == found[0].hits), "{found:?}: {motif:?} on {shop:?}");
        let (again, read) = run(&mut r, &mut shop, &bytes).expect("accepted");
        assert!(read == 0 && again.iter().all(|of_motif| of_motif.searched == 0 && of_motif.hits == found[0].hits), "{again:?}: {motif:?}");
    }
    report("batches of one motif", 2 * rounds(300));
}

/// The motif with no bases lists all that is held, wherever it stands in the batch.
#[test]
fn with_the_motif_with_no_bases() {
    let mut r = seeded();
    for _ in 0..rounds(300) {
        let (molecules, motifs) = pool(&mut r, 3, 24);
        let (b, k) = (r.between(1, 12), some_motifs(&mut r));
        let (at, slots) = (r.below(k), r.between(1, 8));
        let mut shop = Shop { catalog: blocks::catalog(&mut r, b, &molecules, 0), cache: vec![0; BLOCK * slots] };
        let mut bytes = blocks::motifs(&mut r, k, &motifs);
        bytes[BLOCK * at..BLOCK * (at + 1)].copy_from_slice(&block::molecule_block(Strand::new(&[], &[])));
        let held: Vec<u16> = (0..b as u16).filter(|&d| !block::empty(&shop.catalog[BLOCK * d as usize..][..BLOCK])).collect();
        let (found, _) = run(&mut r, &mut shop, &bytes).expect("accepted");
        assert_eq!(found[at].hits, held, "motif {at} of {} on {shop:?}", written(&bytes));
    }
    report("batches with the motif with no bases", rounds(300));
}

/// Sixteen motifs of up to 120 bases, 512 molecules of up to 160, one slot and 64; then the same again, and with some molecules more.
#[test]
fn of_the_largest_buffers() {
    let mut r = seeded();
    for slots in [64, 1, r.between(2, 63)] {
        let (molecules, mut motifs) = pool(&mut r, 20, MOLECULE.most);
        let long = make::strand(&mut r, MOLECULE.most);
        motifs[0] = make::taken_out(&mut r, &long, ENTRY.most);
        let mut shop = Shop { catalog: blocks::catalog(&mut r, 512, &molecules, 0), cache: vec![0; BLOCK * slots] };
        let bytes: Vec<u8> = motifs.iter().take(motifs::MOST).flat_map(|motif| block::molecule_block(motif.lend())).collect();
        run(&mut r, &mut shop, &bytes).expect("accepted");
        run(&mut r, &mut shop, &bytes).expect("accepted");
        for at in (0..512).step_by(5) {
            let d = r.below(molecules.len());
            shop.catalog[BLOCK * at..BLOCK * (at + 1)].fill(0);
            let _ = shop.add(at, molecules[d].lend());
        }
        run(&mut r, &mut shop, &bytes).expect("accepted");
    }
    report("batches of 16 motifs in 512 molecules", 9);
}

/// The wrapper's motif blocks: those of the plain implementation, and of a molecule those that the library writes itself.
#[test]
fn motif_blocks() {
    let mut r = seeded();
    for n in 0..=MOTIF.most + 3 {
        let s = make::strand(&mut r, n);
        let made = lakhido::motif_block(lent(s.lend()));
        assert_eq!(made, (n <= MOTIF.most).then(|| block::molecule_block(s.lend())), "{s:?}");
        let mut catalog = [0; BLOCK];
        if lakhido::add(&mut catalog, &mut [0; BLOCK], 0, lent(s.lend())).is_ok() {
            assert_eq!(made, Some(catalog), "motif_block, add; {s:?}");
        }
        let longer: Vec<u16> = s.mates.iter().copied().chain([0]).collect();
        assert_eq!(lakhido::motif_block(lakhido::Strand::new(&s.bases, &longer)), None);
    }
    report("motif blocks", MOTIF.most + 4);
}

/// Sixteen stems of 120 bases in stems of 160, in a thread with the stack that header and wrapper name.
#[test]
fn in_the_stack() {
    let molecule = Owned { bases: vec![b'G'; MOLECULE.most], mates: make::stem(MOLECULE.most) };
    let motif = Owned { bases: vec![b'G'; ENTRY.most], mates: make::stem(ENTRY.most) };
    let catalog = block::molecule_block(molecule.lend()).repeat(3);
    let motifs = block::molecule_block(motif.lend()).repeat(motifs::MOST);
    let call = move || {
        let (mut cache, mut work, mut hits) = (vec![0; BLOCK], vec![0; work_size(ENTRY.most, MOLECULE.most)], vec![0; 3 * motifs::MOST]);
        let (found, read) = told(lakhido::batch(&catalog, &mut cache, &motifs, &mut work, &mut hits).expect("accepted"));
        assert_eq!((found[0], found[1], found[15], read), ((3, 3), (3, 0), (3, 0), 3));
    };
    std::thread::Builder::new().stack_size(lakhido::STACK).spawn(call).expect("a thread").join().expect("accepted");
}
