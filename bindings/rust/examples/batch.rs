//! A family of hairpins in a small catalog, in one call: `cargo run --release --example batch`.
mod dotbracket;

use dotbracket::mates;
use lakhido::{BLOCK, MOTIF_MOST, Strand, add, batch, motif_block, query_work_size};

/// Yeast tRNA-Phe and three hand-made molecules, those of examples/trna/catalog.dbn of the repository.
const MOLECULES: [(&str, &str); 4] = [
    (
        "GCGGAUUUAGCUCAGUUGGGAGAGCGCCAGACUGAAGAUCUGGAGGUCCUGUGUUCGAUCCACAGAAUUCGCACCA",
        "(((((((..((((........)))).((((.........)))).....(((((.......))))))))))))....",
    ),
    ("AAGUAGUUACGACACUU", "..((.(......))).."),
    ("AGUGUUCACACA", "............"),
    ("GGUGUUCGCCACC", "((((.....))))"),
];
/// A loop, and the same loop in a stem of one, two and three bonds.
const FAMILY: [(&str, &str); 4] = [("UUCA", "...."), ("GUUCAC", "(....)"), ("UGUUCACA", "((....))"), ("GUGUUCACAC", "(((....)))")];

fn main() -> Result<(), lakhido::Refusal> {
    let blocks = MOLECULES.len();
    let (mut catalog, mut cache) = (vec![0; blocks * BLOCK], vec![0; 16 * BLOCK]);
    for (number, (bases, structure)) in MOLECULES.iter().enumerate() {
        add(&mut catalog, &mut cache, number, Strand::new(bases.as_bytes(), &mates(structure)))?;
    }

    let mut motifs = Vec::new();
    for (bases, structure) in FAMILY {
        motifs.extend(motif_block(Strand::new(bases.as_bytes(), &mates(structure))).expect("a mate for each base"));
    }
    let (mut work, mut hits) = (vec![0; query_work_size(MOTIF_MOST)], vec![0; FAMILY.len() * blocks]);
    let found = batch(&catalog, &mut cache, &motifs, &mut work, &mut hits)?;
    println!("{} molecules read", found.read);
    for (((bases, structure), query), list) in FAMILY.iter().zip(found.queries()).zip(hits.chunks(blocks)) {
        println!("{bases:10} {structure:10} in {:?}, searched {}", &list[..query.count], query.searched);
    }
    Ok(())
}
