//! Node records together with the words they stand for.

use jobs::Word;

/// A node and a phase.
pub type Reference = (i64, i64);

pub struct Program {
    pub qubits: usize,
    pub nodes: Vec<[i64; 5]>,
    words: Vec<Word>,
}

impl Program {
    /// Node 0 is the identity.
    pub fn new(qubits: usize) -> Self {
        Self {
            qubits,
            nodes: vec![[0; 5]],
            words: vec![Word::identity(qubits)],
        }
    }

    fn push(&mut self, node: [i64; 5], word: Word) -> i64 {
        self.nodes.push(node);
        self.words.push(word);
        self.nodes.len() as i64 - 1
    }

    pub fn identity(&mut self) -> i64 {
        self.push([0; 5], Word::identity(self.qubits))
    }

    pub fn leaf(&mut self, qubit: usize, letter: u8) -> i64 {
        let word = Word::single(self.qubits, qubit, letter);
        self.push([1, qubit as i64, i64::from(letter), 0, 0], word)
    }

    pub fn product(&mut self, a: Reference, b: Reference) -> i64 {
        let word = self.word(a).times(&self.word(b));
        self.push([2, a.0, a.1, b.0, b.1], word)
    }

    /// New nodes for the product of letters on distinct qubits; no letters give node 0.
    pub fn letters(&mut self, letters: &[(usize, u8)]) -> i64 {
        let leaves: Vec<i64> = letters
            .iter()
            .map(|&(q, letter)| self.leaf(q, letter))
            .collect();
        let product = leaves
            .into_iter()
            .reduce(|a, b| self.product((a, 0), (b, 0)));
        product.unwrap_or(0)
    }

    pub fn word(&self, (node, phase): Reference) -> Word {
        self.words[node as usize].turned(phase)
    }

    /// The node with the phase that makes it plus its letters, or minus.
    pub fn signed(&self, node: i64, minus: bool) -> Reference {
        let phase = self.words[node as usize].phase;
        (node, (4 - phase + if minus { 2 } else { 0 }) % 4)
    }
}
