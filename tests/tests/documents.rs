//! Holds docs/ARCHITECTURE.md, docs/SPECIFICATION.md and README.md to the sources: whatever they
//! name exists.
//!
//! A name stands in backticks and has one of these forms:
//! - `File.one two`: definitions or laws that crates/*/specs/File.antt or crates/*/proofs/File.antt
//!   declares; in a column headed 'definition' those of crates/spec/specs alone;
//! - `module::one two`: functions of crates/*/src/module.rt, or of the root of the crate `module`;
//! - `a/path`: a file or folder of the repository, from its root; `Name.antt` and the like: a file
//!   of that name anywhere. What follows a path is what a command is given. Of what is built in a
//!   crate's `out/` the crate must be there, and make a program or an archive of that name.
//!
//! In running text a string of another form is taken for no name. In the columns headed 'crate',
//! 'definition', 'function' and 'law' it must be the name of a crate.

use std::collections::BTreeMap;
use std::fs;
use std::path::{Path, PathBuf};

/// Where a string in backticks stands: in a column with this head, or elsewhere.
#[derive(Clone, Copy, Debug, PartialEq)]
enum Place {
    Text,
    Crate,
    Definition,
    Function,
    Law,
}

impl Place {
    fn headed(head: &str) -> Self {
        match head.trim() {
            "crate" => Place::Crate,
            "definition" => Place::Definition,
            "function" => Place::Function,
            "law" => Place::Law,
            _ => Place::Text,
        }
    }
}

/// A string in backticks.
#[derive(Debug, PartialEq)]
struct Quoted<'a> {
    line: usize,
    place: Place,
    text: &'a str,
}

/// The strings in backticks of a document, but for what stands between fences.
fn quoted(document: &str) -> Vec<Quoted<'_>> {
    let mut found = Vec::new();
    let mut columns = Vec::new();
    for (line, text) in (1..).zip(unfenced(document)) {
        if !text.starts_with('|') {
            columns.clear();
        } else if columns.is_empty() {
            columns = cells(text).into_iter().map(Place::headed).collect();
        }
        for (column, cell) in cells(text).into_iter().enumerate() {
            let place = columns.get(column).copied().unwrap_or(Place::Text);
            let texts = in_backticks(cell, line);
            found.extend(texts.map(|text| Quoted { line, place, text }));
        }
    }
    found
}

/// The lines of a document, with nothing in those of a block between fences.
fn unfenced(document: &str) -> Vec<&str> {
    let mut lines = Vec::new();
    let mut fenced = false;
    for line in document.lines() {
        let is_fence = line.trim_start().starts_with("```");
        lines.push(if is_fence || fenced { "" } else { line });
        fenced ^= is_fence;
    }
    assert!(!fenced, "a fence has no other");
    lines
}

/// The cells of a table's row, the empty ones at its ends too; another line is one cell.
fn cells(line: &str) -> Vec<&str> {
    let mut cells = Vec::new();
    let mut start = 0;
    for (at, _) in line.match_indices('|') {
        if line.starts_with('|') && !line[..at].ends_with('\\') {
            cells.push(&line[start..at]);
            start = at + 1;
        }
    }
    cells.push(&line[start..]);
    cells
}

fn in_backticks(cell: &str, line: usize) -> impl Iterator<Item = &str> {
    let even = cell.matches('`').count().is_multiple_of(2);
    assert!(even, "line {line}: a backtick has no other on its line");
    cell.split('`').skip(1).step_by(2)
}

/// What a string in backticks names.
#[derive(Debug, PartialEq)]
enum Form<'a> {
    Declared(&'a str, Vec<&'a str>),
    Functions(&'a str, Vec<&'a str>),
    Path(&'a str),
    File(&'a str),
    Other(&'a str),
}

/// The endings by which a file is told from a declaration.
const ENDINGS: [&str; 7] = ["antt", "c", "h", "md", "rs", "rt", "txt"];

fn form(text: &str) -> Form<'_> {
    let mut words = text.split_whitespace();
    let first = words.next().unwrap_or("");
    if let Some((module, name)) = first.rsplit_once("::") {
        if module.split("::").all(is_small_word) && is_small_word(name) {
            return Form::Functions(module, [name].into_iter().chain(words).collect());
        }
    }
    let in_path = |c: char| c.is_ascii_alphanumeric() || "/._-".contains(c);
    if first.contains('/') && first.chars().all(in_path) {
        return Form::Path(first);
    }
    match first.split_once('.') {
        Some((_, ending)) if ENDINGS.contains(&ending) => Form::File(first),
        Some((file, name)) if is_capital_word(file) && !name.is_empty() => {
            Form::Declared(file, [name].into_iter().chain(words).collect())
        }
        _ => Form::Other(text),
    }
}

/// Modules and functions begin with a small letter, files of definitions and laws with a capital.
fn is_small_word(word: &str) -> bool {
    let fits = |c: char| c.is_ascii_alphanumeric() || c == '_';
    word.starts_with(|c: char| c.is_ascii_lowercase()) && word.chars().all(fits)
}

fn is_capital_word(word: &str) -> bool {
    word.starts_with(|c: char| c.is_ascii_uppercase()) && is_small_word(&word.to_lowercase())
}

/// The files of the repository, by their paths from its root.
struct Sources(BTreeMap<String, String>);

impl Sources {
    /// The names of a string in backticks that don't exist.
    fn lacking(&self, quoted: &Quoted) -> Vec<String> {
        let lacking = |names: Vec<&str>, exists: &dyn Fn(&str) -> bool| {
            let names = names.into_iter().filter(|name| !exists(name));
            names.map(str::to_string).collect()
        };
        match form(quoted.text) {
            Form::Declared(file, names) => {
                lacking(names, &|name| self.declares(quoted.place, file, name))
            }
            Form::Functions(module, names) => {
                lacking(names, &|name| self.has_function(module, name))
            }
            Form::Path(path) => lacking(vec![path], &|path| self.has_path(path)),
            Form::File(name) => lacking(vec![name], &|name| self.has_file(name)),
            Form::Other(_) if quoted.place == Place::Text => Vec::new(),
            Form::Other(text) => lacking(vec![text], &|text| {
                self.has_path(&format!("crates/{text}/src"))
            }),
        }
    }

    fn declares(&self, place: Place, file: &str, name: &str) -> bool {
        let fits = |path: &[&str]| match *path {
            ["crates", "spec", "specs", found] => found.strip_suffix(".antt") == Some(file),
            ["crates", _, "specs" | "proofs", found] => {
                place != Place::Definition && found.strip_suffix(".antt") == Some(file)
            }
            _ => false,
        };
        self.has_line(fits, |line| declared(line) == Some(name))
    }

    fn has_function(&self, module: &str, name: &str) -> bool {
        let fits = |path: &[&str]| match *path {
            ["crates", owner, "src", file] => {
                let found = file.trim_end_matches(".rt");
                let is_root = ["lib", "main"].contains(&found) && module == owner;
                is_root || module == found || module == format!("{owner}::{found}")
            }
            _ => false,
        };
        self.has_line(fits, |line| defined(line) == Some(name))
    }

    /// Whether a file whose path fits has such a line.
    fn has_line(&self, fits: impl Fn(&[&str]) -> bool, is_such: impl Fn(&str) -> bool) -> bool {
        let fits = |path: &str| fits(&path.split('/').collect::<Vec<_>>());
        let mut files = self.0.iter().filter(|(path, _)| fits(path));
        files.any(|(_, text)| text.lines().any(&is_such))
    }

    /// Whether there is such a file or folder. What is built is in no repository and not asked for.
    fn has_path(&self, path: &str) -> bool {
        let path = path.trim_start_matches("./").trim_end_matches('/');
        let inside = format!("{path}/");
        let mut paths = self.0.keys();
        path.starts_with("target/")
            || self.makes(path)
            || paths.any(|p| p == path || p.starts_with(&inside))
    }

    /// Whether this is where a crate's program or archive is built.
    fn makes(&self, path: &str) -> bool {
        let parts: Vec<_> = path.split('/').collect();
        let ["crates", name, "out", made] = parts[..] else {
            return false;
        };
        let source = match made == name {
            true => format!("crates/{name}/src/main.rt"),
            false if made == format!("lib{name}.a") => format!("crates/{name}/src/lib.rt"),
            false => return false,
        };
        self.0.contains_key(&source)
    }

    fn has_file(&self, name: &str) -> bool {
        let mut paths = self.0.keys();
        paths.any(|path| path.rsplit('/').next() == Some(name))
    }
}

/// The name that a line of antt declares.
fn declared(line: &str) -> Option<&str> {
    let is_modifier = |word: &&str| ["abbrev", "pub", "unfoldable"].contains(word);
    let mut words = line.split_whitespace().skip_while(is_modifier);
    match (words.next()?, words.next()?) {
        ("data" | "record", name) | (name, ":") => Some(name),
        _ => None,
    }
}

/// The function that a line of Rattle begins.
fn defined(line: &str) -> Option<&str> {
    let is_modifier = |word: &&str| ["pub", "extern", "\"C\""].contains(word);
    let mut words = line.split_whitespace().skip_while(is_modifier);
    match (words.next()?, words.next()?) {
        ("fn", name) => name.split(['(', '<']).next(),
        _ => None,
    }
}

/// What a document names and the sources lack.
fn complaints(sources: &Sources, document: &str) -> Vec<String> {
    let complaint = |quoted: &Quoted| {
        let names = sources.lacking(quoted);
        let (line, text) = (quoted.line, quoted.text);
        (!names.is_empty())
            .then(|| format!("line {line}: `{text}`: there is no {}", names.join(", ")))
    };
    quoted(document).iter().filter_map(complaint).collect()
}

fn root() -> PathBuf {
    Path::new(env!("CARGO_MANIFEST_DIR")).join("..")
}

/// Reads all files of a folder of the repository, but for what is built and what git keeps.
fn read_all(folder: &str, files: &mut BTreeMap<String, String>) {
    let entries = fs::read_dir(root().join(folder)).expect("a folder");
    for entry in entries.map(|entry| entry.expect("an entry")) {
        let name = entry.file_name().into_string().expect("a plain name");
        let path = format!("{folder}{name}");
        if entry.file_type().expect("a file or a folder").is_file() {
            let bytes = fs::read(entry.path()).expect("a file");
            files.insert(path, String::from_utf8_lossy(&bytes).into_owned());
        } else if !["target", "out", ".git"].contains(&&name[..]) {
            read_all(&format!("{path}/"), files);
        }
    }
}

/// Holds a document to the sources. It must name definitions or laws in so many places, and have
/// names in these columns.
fn names_what_exists(path: &str, least: usize, columns: &[Place]) {
    let mut files = BTreeMap::new();
    read_all("", &mut files);
    let sources = Sources(files);
    let document = sources.0.get(path);
    let document = document.unwrap_or_else(|| panic!("there is no {path}"));
    let found = complaints(&sources, document);
    assert!(found.is_empty(), "{path}\n{}", found.join("\n"));
    let quoted = quoted(document);
    let is_declared = |quoted: &&Quoted| matches!(form(quoted.text), Form::Declared(..));
    let count = quoted.iter().filter(is_declared).count();
    assert!(count >= least, "{path} has {count} such places");
    for column in columns {
        let has_column = quoted.iter().any(|quoted| quoted.place == *column);
        assert!(has_column, "{path} has no names in a column {column:?}");
    }
}

#[test]
fn architecture_names_what_exists() {
    let columns = [Place::Definition, Place::Function, Place::Law];
    names_what_exists("docs/ARCHITECTURE.md", 20, &columns);
}

#[test]
fn specification_names_what_exists() {
    names_what_exists("docs/SPECIFICATION.md", 10, &[]);
}

#[test]
fn readme_names_what_exists() {
    names_what_exists("README.md", 0, &[]);
}

/// A small repository to try the rules on.
fn sample() -> Sources {
    let files = [
        (
            "crates/spec/specs/Letters.antt",
            "-- unmade : ℕ\nabbrev pub small : ℕ → ℕ\nsmall b = b\nunfoldable pub rowА : ℕ\n\
             pub record Letter (b : ℕ) : Type 0 where\n  pub byte : ℕ\n",
        ),
        ("crates/laws/proofs/Words.antt", "pub read-join : ℕ\n"),
        ("crates/laws/src/lib.rt", ""),
        ("crates/speak/src/main.rt", ""),
        (
            "crates/message/src/check.rt",
            "// fn gone(\npub fn check(m: &[u8]) -> u8\nfn pass<'a>(m: &'a [u8]) -> u8\n",
        ),
        (
            "crates/capi/src/lib.rt",
            "pub extern \"C\" fn govorun_check(m: &[u8]) -> u8\n",
        ),
        ("docs/PLAN.md", ""),
    ];
    Sources(files.map(|(path, text)| (path.into(), text.into())).into())
}

#[test]
fn names_that_exist_pass() {
    let document = "\
`Letters.small rowА Letter byte`, `Words.read-join`, `check::check pass`, `message::check::pass`,
`capi::govorun_check`, `docs/`, `./docs/PLAN.md`, `docs/PLAN.md now`, `target/bin/x`, `PLAN.md`;
`crates/speak/out/speak`, `crates/capi/out/libcapi.a`;
no names: `Д У* П`, `tape m`, `x86.64`, `Checked::Accepted`, `.ci`, `rt check laws`, ``.
```sh
`Letters.gone` and one ` more
```
| crate | definition | function | law | paper |
|---|---|---|---|---|
| `laws` | `Letters.small`, `message` | the walks, `check::pass` | `Words.read-join` | `gone` \\| `g` |

`gone`
";
    assert_eq!(complaints(&sample(), document), [""; 0]);
}

#[test]
fn wrong_names_in_running_text_are_found() {
    for (text, name) in [
        ("Letters.gone", "gone"),
        ("Letters.unmade", "unmade"),
        ("Letters.gone small lost", "gone, lost"),
        ("Gone.small", "small"),
        ("Words.small", "small"),
        ("check::gone", "gone"),
        ("check::check gone", "gone"),
        ("laws::check::pass", "pass"),
        ("gone::check", "check"),
        ("laws::govorun_check", "govorun_check"),
        ("docs/GONE.md", "docs/GONE.md"),
        ("doc/", "doc/"),
        ("docs/gone 60", "docs/gone"),
        ("crates/gone/out/gone", "crates/gone/out/gone"),
        ("crates/laws/out/laws", "crates/laws/out/laws"),
        ("crates/speak/out/libspeak.a", "crates/speak/out/libspeak.a"),
        ("crates/laws/out/gone.a", "crates/laws/out/gone.a"),
        ("GONE.md", "GONE.md"),
    ] {
        let complaint = format!("line 2: `{text}`: there is no {name}");
        let document = format!("Text\nand `{text}` in it");
        assert_eq!(complaints(&sample(), &document), [complaint]);
    }
}

#[test]
fn wrong_names_in_columns_are_found() {
    let row = |cells: &str| {
        let document =
            format!("| crate | definition | function | law |\n|---|---|---|---|\n{cells}");
        complaints(&sample(), &document)
    };
    for (cells, text, name) in [
        ("| `gone` | | | |", "gone", "gone"),
        ("| `laws`, `gone` | | | |", "gone", "gone"),
        ("| | `small` | | |", "small", "small"),
        ("| | `Letters` | | |", "Letters", "Letters"),
        (
            "| | `Words.read-join` | | |",
            "Words.read-join",
            "read-join",
        ),
        ("| | | `check` | |", "check", "check"),
        ("| | | `a b` \\| `laws` | |", "a b", "a b"),
        ("| | | | `read-join` |", "read-join", "read-join"),
        ("| | | | `Words.gone` |", "Words.gone", "gone"),
    ] {
        let complaint = format!("line 3: `{text}`: there is no {name}");
        assert_eq!(row(cells), [complaint]);
    }
}

#[test]
#[should_panic(expected = "a fence has no other")]
fn an_open_fence_is_found() {
    complaints(&sample(), "```sh\n`Letters.gone`\n");
}

#[test]
#[should_panic(expected = "line 2: a backtick has no other on its line")]
fn an_open_backtick_is_found() {
    complaints(&sample(), "`a`\n`Letters.\nsmall`");
}
