//! Molecules and motifs: letters, mates, crossing arcs, the fold, and the rows 1 to 7 of the table of refusals.

/// A refusal: number, side, place.
#[derive(Clone, Copy, PartialEq, Eq, Debug)]
pub struct Refused(pub u32, pub u32, pub usize);

pub const MOTIF: u32 = 0;
pub const MOLECULE: u32 = 1;
pub const NEITHER: u32 = 2;

/// The number of arcs, and the largest number of arcs of which each lies inside the one before.
#[derive(Clone, Copy, PartialEq, Eq, Debug)]
pub struct Fold {
    pub arcs: usize,
    pub depth: usize,
}

/// A borrowed molecule or motif.
#[derive(Clone, Copy, PartialEq, Eq)]
pub struct Strand<'a> {
    pub bases: &'a [u8],
    pub mates: &'a [u16],
}

impl<'a> Strand<'a> {
    pub fn new(bases: &'a [u8], mates: &'a [u16]) -> Self {
        Strand { bases, mates }
    }

    pub fn len(&self) -> usize {
        self.bases.len()
    }

    pub fn mate(&self, i: usize) -> usize {
        self.mates[i] as usize
    }

    /// i is the left end of an arc.
    pub fn opens(&self, i: usize) -> bool {
        i < self.mate(i)
    }

    /// i and j are an arc, in either order.
    pub fn arc(&self, i: usize, j: usize) -> bool {
        i != j && self.mate(i) == j
    }
}

/// Prints as the literals that make it again.
impl std::fmt::Debug for Strand<'_> {
    fn fmt(&self, f: &mut std::fmt::Formatter) -> std::fmt::Result {
        write!(f, "Strand::new(b\"{}\", &{:?})", self.bases.escape_ascii(), self.mates)
    }
}

/// "T (byte 84) becomes a letter" (02, (vi)).
fn is_letter(b: u8) -> bool {
    matches!(b, b'A' | b'C' | b'G' | b'T' | b'U')
}

/// "Two bases now match when they are the same byte or both are among T and U" (02, (vi)).
pub fn matches(a: u8, b: u8) -> bool {
    let among_t_and_u = |base: u8| base == b'T' || base == b'U';
    a == b || among_t_and_u(a) && among_t_and_u(b)
}

/// The place where a row applies to a strand, if it does; given are its side and the most bases it may have.
type Row = fn(Strand, u32, usize) -> Option<usize>;

/// The rows 1 to 7 in their order. A later row is asked only of what it can be read from: a mate beyond the mates there are has no mate of its own. 02, (iii):
/// "Refusal 2 remains for molecules only."
const ROWS: [Row; 7] = [
    |s, _, _| (s.bases.len() != s.mates.len()).then_some(0),
    |s, side, _| (side == MOLECULE && s.bases.is_empty()).then_some(0),
    |s, _, most| (s.bases.len() > most).then_some(0),
    |s, _, _| s.bases.iter().position(|&b| !is_letter(b)),
    |s, _, _| s.mates.iter().position(|&k| k as usize >= s.bases.len()),
    |s, _, _| (0..s.mates.len()).find(|&i| s.mates.get(s.mate(i)).is_none_or(|&back| back as usize != i)),
    |s, _, _| lowest_crossing(s.mates),
];

/// The first of the rows 1 to 7 that applies.
pub fn judge(s: Strand, side: u32, most: usize) -> Option<Refused> {
    (1..).zip(ROWS).find_map(|(number, row)| row(s, side, most).map(|place| Refused(number, side, place)))
}

/// All of the rows 1 to 7 that apply.
pub fn judge_all(s: Strand, side: u32, most: usize) -> Vec<Refused> {
    (1..).zip(ROWS).filter_map(|(number, row)| row(s, side, most).map(|place| Refused(number, side, place))).collect()
}

/// The arcs, left ends rising. Mates that are not mutual are taken as no arc.
fn arcs(mates: &[u16]) -> Vec<(usize, usize)> {
    (0..mates.len()).map(|i| (i, mates[i] as usize)).filter(|&(i, j)| i < j && mates.get(j).is_some_and(|&k| k as usize == i)).collect()
}

/// The lowest i with a < i < b < j for arcs (a, b) and (i, j). The right ends of the arcs around i are on a stack, the nearest on top: until the
/// first crossing they are nested. Mates that are not mutual are taken as no arc.
pub fn lowest_crossing(mates: &[u16]) -> Option<usize> {
    let mut around: Vec<usize> = Vec::new();
    for i in 0..mates.len() {
        let j = mates[i] as usize;
        while around.last().is_some_and(|&b| b <= i) {
            around.pop();
        }
        if i < j && mates.get(j).is_some_and(|&k| k as usize == i) {
            if around.last().is_some_and(|&b| b < j) {
                return Some(i);
            }
            around.push(j);
        }
    }
    None
}

/// The same by comparing all pairs of arcs.
pub fn lowest_crossing_by_pairs(mates: &[u16]) -> Option<usize> {
    let arcs = arcs(mates);
    arcs.iter().filter(|&&(i, j)| arcs.iter().any(|&(a, b)| a < i && i < b && b < j)).map(|&(i, _)| i).min()
}

/// The arc x lies inside the arc y.
fn inside(x: (usize, usize), y: (usize, usize)) -> bool {
    y.0 < x.0 && x.1 < y.1
}

/// The fold by all pairs of arcs: the longest chain that ends with an arc has one arc more than the longest that ends with an arc around it, and the arcs
/// around it begin before it.
pub fn fold_of(mates: &[u16]) -> Fold {
    let arcs = arcs(mates);
    let mut longest: Vec<usize> = Vec::with_capacity(arcs.len());
    for &arc in &arcs {
        let around = arcs.iter().zip(&longest).filter(|(other, _)| inside(arc, **other)).map(|(_, &length)| length);
        longest.push(1 + around.max().unwrap_or(0));
    }
    Fold { arcs: arcs.len(), depth: longest.into_iter().max().unwrap_or(0) }
}

/// The depth by trying every list of arcs of which each lies inside the one before.
pub fn depth_by_trying(mates: &[u16]) -> usize {
    fn longest(arcs: &[(usize, usize)], last: Option<(usize, usize)>) -> usize {
        let next = arcs.iter().filter(|&&arc| last.is_none_or(|last| inside(arc, last)));
        next.map(|&arc| 1 + longest(arcs, Some(arc))).max().unwrap_or(0)
    }
    longest(&arcs(mates), None)
}
