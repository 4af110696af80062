//! How much memory showing takes at the domain's end. One test, since all that this program allocates is counted.

use std::alloc::{GlobalAlloc, Layout, System};
use std::sync::atomic::{AtomicUsize, Ordering::SeqCst};

use werdutxa::{NONE, NodeRecord, OperationRecord, Options, Program, optimize};

struct Counting;

static HELD: AtomicUsize = AtomicUsize::new(0);
static MOST: AtomicUsize = AtomicUsize::new(0);

// SAFETY: the system's allocator, and counters beside it.
unsafe impl GlobalAlloc for Counting {
    unsafe fn alloc(&self, layout: Layout) -> *mut u8 {
        let held = HELD.fetch_add(layout.size(), SeqCst) + layout.size();
        MOST.fetch_max(held, SeqCst);
        unsafe { System.alloc(layout) }
    }

    unsafe fn dealloc(&self, place: *mut u8, layout: Layout) {
        HELD.fetch_sub(layout.size(), SeqCst);
        unsafe { System.dealloc(place, layout) }
    }
}

#[global_allocator]
static COUNTING: Counting = Counting;

/// What comes out, and how many bytes more were held at most until then.
fn counted<T>(work: impl FnOnce() -> T) -> (T, usize) {
    let before = HELD.load(SeqCst);
    MOST.store(before, SeqCst);
    let result = work();
    (result, MOST.load(SeqCst) - before)
}

const QUBITS: u32 = 4_096;
const MOST_RECORDS: usize = 65_535;

/// The identity, X and Z on every qubit, then products that lean left up to X on all, and then that times Z's: a letter on every qubit.
fn nodes() -> Vec<NodeRecord> {
    let leaves = |letter| (0..QUBITS).map(move |qubit| [1, qubit, letter, 0, 0]);
    let mut nodes: Vec<NodeRecord> = [[0; 5]].into_iter().chain(leaves(1)).chain(leaves(3)).collect();
    let first = nodes.len() as u32;
    nodes.push([2, 0, 0, 1, 0]);
    nodes.extend((1..QUBITS).map(|qubit| [2, first + qubit - 1, 0, 1 + qubit, 0]));
    let all = nodes.len() as u32 - 1;
    let left = (MOST_RECORDS - nodes.len()) as u32;
    // X before Z is -iY
    nodes.extend((0..left).map(|place| [2, all, 1, 1 + QUBITS + place % QUBITS, 0]));
    nodes
}

fn program(operations: Vec<OperationRecord>) -> Program {
    let rows = (0..2 * QUBITS).map(|row| [row / 2, row % 2, 0, 0]).collect();
    Program::from_records(QUBITS as usize, nodes(), operations, rows)
}

/// A view takes room for each record and for what is shown, however many letters the other nodes have, and however often an axis is used.
#[test]
fn memory_is_linear() {
    let last = MOST_RECORDS as u32 - 1;
    let one = program(vec![[2, last, 0, 0, 0, NONE]]);
    let many = program(vec![[1, last, 0, 1, NONE, NONE]; MOST_RECORDS]);
    for program in [&one, &many] {
        let (view, bytes) = counted(|| program.view().unwrap());
        let axis = &view.frame[0];
        assert!(axis.letters().is_empty() && bytes < 24 << 20, "{bytes} bytes");
        assert!(view.operations.len() == program.records().operation_count);
    }
    let options = Options { rounds: 0, ..Options::default() };
    let (rewritten, bytes) = counted(|| optimize(&many, &options).unwrap());
    assert_eq!(rewritten.operations.len(), MOST_RECORDS);
    assert!(rewritten.axes.iter().any(|axis| axis.letters().len() == QUBITS as usize));
    assert!(bytes < 64 << 20, "{bytes} bytes");
}
