//! Copies docs/src, byte for byte, with the stubs beside it.

const ROOT: &str = "\
#[allow(dead_code)]
mod angle;
#[allow(dead_code)]
mod circuit;
#[allow(dead_code, unused_imports)]
pub mod pbc;
#[allow(dead_code)]
mod qasm;
";

fn main() {
    let layout = sources::Layout::from_env();
    layout.root(ROOT);
    layout.circuit();
    layout.pbc("", &[]);
}
