//! Two copies of docs/src, with its hash and with a scan.

use std::path::Path;

use sources::{Edits, Layout};

const ROOT: &str = "\
#[allow(dead_code)]
mod angle;
#[allow(dead_code)]
mod circuit;
#[allow(dead_code)]
mod qasm;
#[allow(dead_code, unused_imports)]
mod hash { pub mod pbc; }
#[allow(dead_code, unused_imports)]
mod scan { pub mod pbc; }
";

fn main() {
    let scan = Edits::replacements(Path::new("scan.txt"));
    let layout = Layout::from_env();
    layout.root(ROOT);
    layout.circuit();
    layout.pbc("hash", &[]);
    layout.pbc("scan", &[&scan]);
}
