//! Four copies of docs/src with the edit of named.txt: `plain`, and `shown` with the lines of ../shown/insertions.txt; and the same two with
//! the edit of second_first.txt.

use std::path::Path;

use sources::{Edits, Layout};

const ROOT: &str = "\
#[allow(dead_code)]
mod angle;
#[allow(dead_code)]
mod circuit;
#[allow(dead_code, unused_imports)]
mod plain { pub mod pbc; }
#[allow(dead_code)]
mod qasm;
#[allow(dead_code, unused_imports)]
mod second_plain { pub mod pbc; }
#[allow(dead_code, unused_imports)]
mod second_shown { pub mod pbc; }
#[allow(dead_code, unused_imports)]
mod shown { pub mod pbc; }
";

fn main() {
    let named = Edits::replacements(Path::new("named.txt"));
    let second_first = Edits::replacements(Path::new("second_first.txt"));
    let insertions = Edits::insertions(Path::new("../shown/insertions.txt"));
    let layout = Layout::from_env();
    layout.root(ROOT);
    layout.circuit();
    layout.pbc("plain", &[&named]);
    layout.pbc("shown", &[&insertions, &named]);
    layout.pbc("second_plain", &[&named, &second_first]);
    layout.pbc("second_shown", &[&insertions, &named, &second_first]);
}
