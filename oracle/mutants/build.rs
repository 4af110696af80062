//! One more copy of the shown sources for each file of wrong/, with that wrong reading put in; they have M-112's named place, which the
//! readings `named_..` get wrong.

use std::fs;
use std::path::{Path, PathBuf};

use sources::{Edits, Layout};

const SHARED: &str = "\
#[allow(dead_code)]
mod angle;
#[allow(dead_code)]
mod circuit;
#[allow(dead_code)]
mod qasm;
";

fn main() {
    sources::rerun_if_changed(Path::new("wrong"));
    let insertions = Edits::insertions(Path::new("../shown/insertions.txt"));
    let named = Edits::replacements(Path::new("../requests/named.txt"));
    let layout = Layout::from_env();
    layout.circuit();
    let mut root = SHARED.to_string();
    let mut table = String::new();
    for file in wrong_readings() {
        let name = file
            .file_stem()
            .expect("a file")
            .to_str()
            .expect("plain letters");
        let wrong = Edits::replacements(&file);
        if name.starts_with("named_") {
            layout.pbc(name, &[&insertions, &named, &wrong]);
        } else {
            layout.pbc(name, &[&insertions, &wrong, &named]);
        }
        root += &format!("#[allow(warnings)]\nmod {name} {{ pub mod pbc; }}\n");
        table += &format!("    (\"{name}\", {name}::pbc::PbcCircuit::run_job),\n");
    }
    root += &format!(
        "/// Name and run of each wrong reading.\nconst WRONG: &[(&str, Run)] = &[\n{table}];\n"
    );
    layout.root(&root);
}

fn wrong_readings() -> Vec<PathBuf> {
    let folder = fs::read_dir("wrong").expect("the folder is there");
    let mut files: Vec<PathBuf> = folder.map(|entry| entry.expect("a file").path()).collect();
    files.sort();
    files
}
