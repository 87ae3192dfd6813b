//! Dot-bracket text, as RNA tools write it.

/// The mates of a structure: `.` for a base without a bond, `(` and `)` for the two ends of one.
pub fn mates(structure: &str) -> Vec<u16> {
    let mut mates: Vec<u16> = (0..structure.len() as u16).collect();
    let mut open = Vec::new();
    for (i, sign) in structure.bytes().enumerate() {
        match sign {
            b'(' => open.push(i),
            b')' => {
                let left = open.pop().expect("a bracket that opens");
                (mates[left], mates[i]) = (i as u16, left as u16);
            }
            _ => {}
        }
    }
    mates
}
