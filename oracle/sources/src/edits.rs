//! Edits in the form of a diff: `@ file` opens an edit, ` ` begins a line that must be there, `+` one that is put in,
//! `-` one that is taken out. The lines that must be there have to be found exactly once.

use std::path::Path;

use super::{read, rerun_if_changed};

pub struct Edits {
    edits: Vec<Edit>,
}

struct Edit {
    file: String,
    lines: Vec<(Mark, String)>,
}

#[derive(Clone, Copy, PartialEq, Eq)]
enum Mark {
    Keep,
    Insert,
    Remove,
}

impl Edits {
    /// A file of insertions: a line taken out is an error.
    pub fn insertions(path: &Path) -> Self {
        let edits = Self::replacements(path);
        for edit in &edits.edits {
            assert!(
                edit.lines.iter().all(|(mark, _)| *mark != Mark::Remove),
                "{}: only insertions are allowed",
                path.display()
            );
        }
        edits
    }

    /// A file that may also take lines out.
    pub fn replacements(path: &Path) -> Self {
        rerun_if_changed(path);
        Self::parse(&read(path))
    }

    fn parse(text: &str) -> Self {
        let mut edits: Vec<Edit> = Vec::new();
        for line in text.lines() {
            if line.is_empty() || line.starts_with('#') {
                continue;
            }
            let (mark, rest) = line.split_at(1);
            let mark = match mark {
                "@" => {
                    edits.push(Edit {
                        file: rest.trim().to_string(),
                        lines: Vec::new(),
                    });
                    continue;
                }
                " " => Mark::Keep,
                "+" => Mark::Insert,
                "-" => Mark::Remove,
                _ => panic!("an edit's line begins with a blank, +, - or @: {line}"),
            };
            let edit = edits.last_mut().expect("@ file comes first");
            edit.lines.push((mark, rest.to_string()));
        }
        Self { edits }
    }

    /// Fails if an edit names a file that is not among `files`.
    pub fn check_files(&self, files: &[&str]) {
        for edit in &self.edits {
            assert!(
                files.contains(&edit.file.as_str()),
                "{}: no such file",
                edit.file
            );
        }
    }

    /// `text`, which is `file`'s, with the edits to that file made.
    pub fn apply(&self, file: &str, text: &str) -> String {
        let mut lines: Vec<String> = text.lines().map(str::to_string).collect();
        for edit in self.edits.iter().filter(|e| e.file == file) {
            edit.apply(&mut lines);
        }
        lines.join("\n") + "\n"
    }
}

impl Edit {
    fn without(&self, mark: Mark) -> Vec<String> {
        let kept = self.lines.iter().filter(|(m, _)| *m != mark);
        kept.map(|(_, line)| line.clone()).collect()
    }

    fn apply(&self, lines: &mut Vec<String>) {
        let old = self.without(Mark::Insert);
        assert!(!old.is_empty(), "{}: an edit without an anchor", self.file);
        let found: Vec<usize> = lines
            .windows(old.len())
            .enumerate()
            .filter(|(_, window)| *window == &old[..])
            .map(|(at, _)| at)
            .collect();
        assert!(
            found.len() == 1,
            "{}: found {} times instead of once:\n{}",
            self.file,
            found.len(),
            old.join("\n")
        );
        lines.splice(found[0]..found[0] + old.len(), self.without(Mark::Remove));
    }
}

#[cfg(test)]
mod tests {
    use super::Edits;

    const EDIT: &str = "@ a.rs\n one\n+new\n two\n";

    #[test]
    fn a_line_is_put_in() {
        let text = Edits::parse(EDIT).apply("a.rs", "zero\none\ntwo\n");
        assert_eq!(text, "zero\none\nnew\ntwo\n");
    }

    #[test]
    fn another_file_stays() {
        assert_eq!(Edits::parse(EDIT).apply("b.rs", "one\ntwo\n"), "one\ntwo\n");
    }

    #[test]
    #[should_panic(expected = "found 0 times")]
    fn an_anchor_must_be_there() {
        Edits::parse(EDIT).apply("a.rs", "one\nthree\n");
    }

    #[test]
    #[should_panic(expected = "found 2 times")]
    fn an_anchor_must_be_there_once() {
        Edits::parse(EDIT).apply("a.rs", "one\ntwo\none\ntwo\n");
    }
}
