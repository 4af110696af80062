//! Build step shared by the copies: copies of docs/src with the stub files beside them, and edits.
//! docs/src itself is only read.

mod edits;

use std::fs;
use std::path::{Path, PathBuf};

pub use edits::Edits;

/// Files of docs/src that are compiled, besides circuit.rs.
const OPTIMIZER: [&str; 7] = [
    "mod.rs",
    "pauli.rs",
    "frame.rs",
    "optimize.rs",
    "optimize/words.rs",
    "optimize/clifford.rs",
    "optimize/litinski.rs",
];

/// Stub files that stand beside them.
const STUBS: [&str; 5] = [
    "ascii.rs",
    "convert.rs",
    "pauli/materialize.rs",
    "svg.rs",
    "text.rs",
];

/// Where a crate of this workspace finds its inputs and puts its copies.
pub struct Layout {
    docs: PathBuf,
    stubs: PathBuf,
    out: PathBuf,
}

impl Layout {
    /// Reads the variables cargo sets for a build script.
    pub fn from_env() -> Self {
        let oracle = PathBuf::from(variable("CARGO_MANIFEST_DIR")).join("..");
        let layout = Self {
            docs: oracle.join("../docs/src"),
            stubs: oracle.join("stubs"),
            out: PathBuf::from(variable("OUT_DIR")).join("src"),
        };
        rerun_if_changed(&layout.docs);
        rerun_if_changed(&layout.stubs);
        if layout.out.exists() {
            fs::remove_dir_all(&layout.out).expect("the old copies can be removed");
        }
        layout
    }

    /// The root file, to be included by lib.rs: its `mod` lines are resolved beside it.
    pub fn root(&self, text: &str) {
        write(&self.out.join("root.rs"), text);
    }

    /// circuit.rs with its one missing function behind it, and the modules it names.
    pub fn circuit(&self) {
        let given = read(&self.docs.join("circuit.rs"));
        let missing = read(&self.stubs.join("circuit_qubit_operands.rs"));
        write(&self.out.join("circuit.rs"), &format!("{given}\n{missing}"));
        for stub in ["angle.rs", "qasm.rs"] {
            write(&self.out.join(stub), &read(&self.stubs.join(stub)));
        }
    }

    /// The folder pbc below `folder` (empty for the root), each given file passed through `edits` in turn.
    pub fn pbc(&self, folder: &str, edits: &[&Edits]) {
        let to = self.out.join(folder).join("pbc");
        for file in OPTIMIZER {
            let given = read(&self.docs.join("pbc").join(file));
            let edited = edits.iter().fold(given, |text, e| e.apply(file, &text));
            write(&to.join(file), &edited);
        }
        for file in STUBS {
            write(&to.join(file), &read(&self.stubs.join("pbc").join(file)));
        }
        for e in edits {
            e.check_files(&OPTIMIZER);
        }
    }
}

/// Tell cargo to build again when `path` changes.
pub fn rerun_if_changed(path: &Path) {
    println!("cargo::rerun-if-changed={}", path.display());
}

fn variable(name: &str) -> String {
    std::env::var(name).unwrap_or_else(|_| panic!("cargo sets {name}"))
}

fn read(path: &Path) -> String {
    fs::read_to_string(path).unwrap_or_else(|e| panic!("{}: {e}", path.display()))
}

fn write(path: &Path, text: &str) {
    let folder = path.parent().expect("a file has a folder");
    fs::create_dir_all(folder).unwrap_or_else(|e| panic!("{}: {e}", folder.display()));
    fs::write(path, text).unwrap_or_else(|e| panic!("{}: {e}", path.display()));
}
