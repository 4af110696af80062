//! Pauli words letter by letter, by the table of products, apart from the packed words that are judged.

/// i^phase times one letter (I X Y Z = 0 to 3) for each qubit.
#[derive(Clone, Debug, PartialEq, Eq)]
pub struct Word {
    pub phase: i64,
    pub letters: Vec<u8>,
}

/// The product of two letters: its phase and its letter.
fn letter_product(a: u8, b: u8) -> (i64, u8) {
    match (a, b) {
        (0, p) | (p, 0) => (0, p),
        _ if a == b => (0, 0),
        // X Y = i Z and so on round the circle.
        _ => (if (b + 3 - a) % 3 == 1 { 1 } else { 3 }, 6 - a - b),
    }
}

impl Word {
    pub fn identity(qubits: usize) -> Self {
        Self {
            phase: 0,
            letters: vec![0; qubits],
        }
    }

    pub fn single(qubits: usize, qubit: usize, letter: u8) -> Self {
        let mut word = Self::identity(qubits);
        word.letters[qubit] = letter;
        word
    }

    /// The word of packed planes, l x-words and then l z-words.
    pub fn unpacked(qubits: usize, planes: &[u64]) -> Self {
        let (x, z) = planes.split_at(planes.len() / 2);
        let bit = |plane: &[u64], q: usize| (plane[q / 64] >> (q % 64)) & 1 == 1;
        let letter = |q| match (bit(x, q), bit(z, q)) {
            (false, false) => 0,
            (true, false) => 1,
            (true, true) => 2,
            (false, true) => 3,
        };
        let past_the_end = (qubits..32 * planes.len()).any(|q| letter(q) != 0);
        assert!(!past_the_end, "a letter on a qubit that is not there");
        Self {
            phase: 0,
            letters: (0..qubits).map(letter).collect(),
        }
    }

    pub fn turned(&self, phase: i64) -> Self {
        Self {
            phase: (self.phase + phase) % 4,
            letters: self.letters.clone(),
        }
    }

    pub fn times(&self, other: &Self) -> Self {
        let mut phase = self.phase + other.phase;
        let pairs = self.letters.iter().zip(&other.letters);
        let letters = pairs
            .map(|(&a, &b)| {
                let (turn, letter) = letter_product(a, b);
                phase += turn;
                letter
            })
            .collect();
        Self {
            phase: phase % 4,
            letters,
        }
    }
}

/// The words of references (node, phase) into node records. A node's word is dropped after its last use, since results
/// on many qubits can have long chains of nodes.
pub fn expand(qubits: usize, nodes: &[[i64; 5]], references: &[(i64, i64)]) -> Vec<Word> {
    let mut uses = uses(nodes, references);
    let mut values: Vec<Option<Word>> = vec![None; nodes.len()];
    for (node, record) in nodes.iter().enumerate() {
        if uses[node] == 0 {
            continue;
        }
        let [kind, a, b, c, d] = *record;
        values[node] = Some(match kind {
            0 => Word::identity(qubits),
            1 => Word::single(qubits, a as usize, b as u8),
            _ => {
                let mut child = |node: i64, phase| take(&mut values, &mut uses, node).turned(phase);
                child(a, b).times(&child(c, d))
            }
        });
    }
    let root = |&(node, phase): &(i64, i64)| take(&mut values, &mut uses, node).turned(phase);
    references.iter().map(root).collect()
}

/// For each node that a reference reaches, how many references and products name it.
fn uses(nodes: &[[i64; 5]], references: &[(i64, i64)]) -> Vec<usize> {
    let mut uses = vec![0; nodes.len()];
    for &(node, _) in references {
        uses[node as usize] += 1;
    }
    for node in (0..nodes.len()).rev() {
        let [kind, a, _, c, _] = nodes[node];
        if uses[node] > 0 && kind == 2 {
            uses[a as usize] += 1;
            uses[c as usize] += 1;
        }
    }
    uses
}

fn take(values: &mut [Option<Word>], uses: &mut [usize], node: i64) -> Word {
    let node = node as usize;
    uses[node] -= 1;
    let value = if uses[node] == 0 {
        values[node].take()
    } else {
        values[node].clone()
    };
    value.expect("children come before their product")
}

#[cfg(test)]
mod tests {
    use super::*;

    fn word(phase: i64, letters: &[u8]) -> Word {
        Word {
            phase,
            letters: letters.to_vec(),
        }
    }

    /// Document 01's starred products.
    #[test]
    fn starred_products() {
        let (x, y, z) = (word(0, &[1]), word(0, &[2]), word(0, &[3]));
        assert_eq!(x.times(&y), word(1, &[3]));
        assert_eq!(x.times(&z), word(3, &[2]));
        assert_eq!(z.times(&x), word(1, &[2]));
        assert_eq!(word(0, &[1, 1]).times(&word(0, &[3, 3])), word(2, &[2, 2]));
    }

    #[test]
    fn shared_nodes_are_expanded_once_each() {
        // X, X X with phases 1 and 1, and that times X.
        let nodes = [[0; 5], [1, 0, 1, 0, 0], [2, 1, 1, 1, 1], [2, 2, 0, 1, 0]];
        let words = expand(1, &nodes, &[(3, 0), (2, 3), (3, 2)]);
        assert_eq!(words, [word(2, &[1]), word(1, &[0]), word(0, &[1])]);
    }
}
