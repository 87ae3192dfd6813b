//! The shortest piece of yeast tRNA-Phe that still carries a hairpin, as README shows it: `cargo run --release --example window`.
mod dotbracket;

use dotbracket::mates;
use lakhido::{Strand, window, work_size};

fn main() -> Result<(), lakhido::Refusal> {
    let bases = "GCGGAUUUAGCUCAGUUGGGAGAGCGCCAGACUGAAGAUCUGGAGGUCCUGUGUUCGAUCCACAGAAUUCGCACCA";
    let structure = "(((((((..((((........)))).((((.........)))).....(((((.......))))))))))))....";
    let (molecule_mates, motif_mates) = (mates(structure), mates("(((....)))"));
    let molecule = Strand::new(bases.as_bytes(), &molecule_mates);
    let motif = Strand::new(b"GUGUUCACAC", &motif_mates);

    let mut work = vec![0; work_size(motif.bases.len(), molecule.bases.len())];
    match window(motif, molecule, &mut work)?.window {
        Some(found) => {
            let piece = found.start..found.start + found.length;
            println!("{} bases from position {}:\n{}\n{}", found.length, found.start, &bases[piece.clone()], &structure[piece]);
        }
        None => println!("the molecule does not carry the motif"),
    }
    Ok(())
}
