//! The files of `crates/`, what they declare, and what a name means in each of them.

use std::collections::HashMap;
use std::{fs, io, path::Path};

/// The toolchain's libraries, beside `Rattle.std`: their names are counted and not followed.
const LIBRARIES: [&str; 13] = [
    "mathlib", "lib", "native", "Prim", "borrow", "mir", "denote", "base", "contract", "prog",
    "seplogic", "sound", "types",
];

/// Of what `Prim` brings into every file with no `use` line: what is in use, and the tactics.
const PRELUDE: &str = "Unit tt ⊥ ¬◌ absurd rw rw⁻¹ simp search grw cc omega";

/// The crate whose files of `proofs/` are the frame of proofs by hand. They say nothing of a crate
/// and none of the three words, and are not read: a name in them is nothing that is known.
const FRAME: &str = "hand_proofs";

const EXPORT: &str = "pub extern \"C\" fn ";

/// What stands above an export, so that the archive has its name.
const EXPORTED: &str = "#[unsafe(no_mangle)]";

/// What a line of an export has, and no other line.
const OF_EXPORTS: [&str; 3] = ["extern \"", "no_mangle", "export_name"];

/// What requests speak of and no host calls, the listing and the digit writer: the crate, and how
/// the function or method begins.
const INTERNAL: [(&str, &str); 2] = [("listing", "pub fn list("), ("text", "pub fn put_field(")];

pub struct File {
    pub path: String,
    pub krate: String,
    /// What its first line says it is: DEFINITIONS, CLAIMS, LAWS or nothing; `src` for code.
    pub label: String,
    pub lines: Vec<String>,
    names: HashMap<String, Vec<Meaning>>,
    /// What `use PATH as x` and `use PATH` bring.
    modules: HashMap<String, String>,
}

#[derive(Clone)]
pub enum Meaning {
    /// Something that is declared, by its number.
    Item(usize),
    /// A whole path; when all is followed, one into a library.
    Path(String),
}

#[derive(Clone, Copy, PartialEq)]
pub enum Kind {
    Function,
    Record,
    Data,
    /// A struct of `src/`, which is a record of `specs.declared`, or an enum, which is data there.
    Struct,
    /// The signature of a function that a host calls, and its `requires` and `ensures`.
    Contract,
}

/// Something that is declared.
pub struct Item {
    pub file: usize,
    pub name: String,
    pub kind: Kind,
    /// In a CLAIMS file, public, and neither `abbrev` nor `unfoldable`.
    pub claim: bool,
    /// Fields or constructors.
    pub members: Vec<String>,
    /// The lines, from 1, of each `module _ (..) where` around it.
    pub outer: Vec<usize>,
    /// The lines of a function's signature, or all lines of anything else.
    pub statement: Vec<usize>,
    /// The lines of a function's clauses.
    pub body: Vec<usize>,
}

/// What a line is part of: a `module _ (..) where`, the last item, or nothing of interest.
#[derive(Clone, Copy, PartialEq)]
enum Part {
    Section,
    Statement,
    Body,
    Nothing,
}

#[derive(Default)]
pub struct Crates {
    pub files: Vec<File>,
    pub items: Vec<Item>,
    /// What could not be read.
    pub problems: Vec<String>,
    /// The sections around the line that is read: the indentation inside, the header's lines.
    sections: Vec<(usize, Vec<usize>)>,
}

impl Crates {
    pub fn load(root: &Path) -> io::Result<Crates> {
        let mut crates = Crates::default();
        for krate in sorted(&root.join("crates"))? {
            for folder in ["specs", "proofs", "src"] {
                if folder != "proofs" || krate != FRAME {
                    crates.load_folder(root, &krate, &format!("crates/{krate}/{folder}"))?;
                }
            }
        }
        // Names that are followed from nowhere would lead to nothing wrong.
        let contracts = crates.items.iter().filter(|item| item.kind == Kind::Contract);
        let (internal, exports): (Vec<_>, Vec<_>) = contracts.partition(|item| {
            INTERNAL.iter().any(|(krate, _)| crates.files[item.file].krate == *krate)
        });
        let claims = crates.items.iter().any(|item| item.claim);
        if internal.len() != INTERNAL.len() || exports.is_empty() || !claims {
            let problem = "the exports, the listing, the digit writer or the claims are not found";
            crates.problems.push(problem.to_string());
        }
        Ok(crates)
    }

    /// Of `proofs/` the files right there: in its folders are the proofs of functions.
    fn load_folder(&mut self, root: &Path, krate: &str, folder: &str) -> io::Result<()> {
        for path in sorted(&root.join(folder))?.iter().map(|name| format!("{folder}/{name}")) {
            if root.join(&path).is_dir() {
                if !folder.ends_with("/proofs") {
                    self.load_folder(root, krate, &path)?;
                }
                continue;
            }
            let text = fs::read_to_string(root.join(&path))?;
            let label = match text.split(['.', ' ', '\n']).nth(1) {
                _ if path.ends_with(".rt") => "src",
                Some(label @ ("DEFINITIONS" | "CLAIMS" | "LAWS")) => label,
                _ => "nothing",
            };
            let lines: Vec<String> = text.lines().map(String::from).collect();
            let (krate, label) = (krate.to_string(), label.to_string());
            let (names, modules) = (HashMap::new(), HashMap::new());
            self.files.push(File { path, krate, label, lines: lines.clone(), names, modules });
            self.read(&lines);
        }
        Ok(())
    }

    /// The file that is read.
    fn file(&mut self) -> &mut File {
        self.files.last_mut().expect("a file")
    }

    fn problem(&mut self, problem: &str) {
        let problem = format!("{}{problem}", self.file().path);
        self.problems.push(problem);
    }

    fn name(&mut self, name: &str, meaning: Meaning) {
        self.file().names.entry(name.to_string()).or_default().push(meaning);
    }

    fn add(&mut self, name: &str, kind: Kind, claim: bool) -> Option<Part> {
        self.name(name, Meaning::Item(self.items.len()));
        let (file, name) = (self.files.len() - 1, name.to_string());
        let outer = self.sections.iter().flat_map(|(_, lines)| lines.clone()).collect();
        let (members, statement, body) = (vec![], vec![], vec![]);
        self.items.push(Item { file, name, kind, claim, members, outer, statement, body });
        Some(Part::Statement)
    }

    /// Reads the last file. A comment belongs to the line below it.
    fn read(&mut self, lines: &[String]) {
        let (mut part, mut read) = (Part::Nothing, Vec::new());
        self.sections.clear();
        for (n, line) in lines.iter().enumerate() {
            if line.is_empty() {
                read.clear();
            } else if is_comment(line) {
                read.push(n + 1);
            } else if !line.starts_with('#') && !line.trim_start().starts_with("unfolding ") {
                let understood = match self.file().label.as_str() {
                    "src" => self.read_code(line, part),
                    _ => self.read_specification(line, part),
                };
                if understood.is_none() {
                    self.problem(&format!(":{}: this is not understood", n + 1));
                }
                part = understood.unwrap_or(Part::Nothing);
                read.push(n + 1);
                match (part, self.items.last_mut(), self.sections.last_mut()) {
                    (Part::Section, _, Some((_, lines))) => lines.append(&mut read),
                    (Part::Statement, Some(item), _) => item.statement.append(&mut read),
                    (Part::Body, Some(item), _) => item.body.append(&mut read),
                    _ => read.clear(),
                }
            }
        }
        let count = |text| lines.iter().filter(|line| line.starts_with(text)).count();
        let is_of_export =
            |line: &&String| !is_comment(line) && OF_EXPORTS.iter().any(|word| line.contains(word));
        let of_exports = lines.iter().filter(is_of_export).count();
        let (exports, exported) = (count(EXPORT), count(EXPORTED));
        if self.file().label == "src" && [exported, of_exports] != [exports, 2 * exports] {
            self.problem(": what is exported here is not understood");
        }
        let declares = self.items.last().is_some_and(|item| item.file + 1 == self.files.len());
        if declares && self.file().label == "nothing" {
            self.problem(":1: this does not say DEFINITIONS, CLAIMS or LAWS");
        }
    }

    /// A line of a specification. A declaration begins at the indentation of its block, with a
    /// line that closes no bracket.
    fn read_specification(&mut self, line: &str, part: Part) -> Option<Part> {
        let indent = line.len() - line.trim_start().len();
        let text = &line.trim_start().replace(['«', '»'], "");
        let closes = text.starts_with([')', '}', ']']);
        while !closes && self.sections.last().is_some_and(|(inside, _)| indent < *inside) {
            self.sections.pop();
        }
        let block = self.sections.last().map_or(0, |(inside, _)| *inside);
        if closes || indent > block {
            if indent == block + 2 && part == Part::Statement {
                self.read_member(text);
            }
            return Some(part);
        }
        let words: Vec<&str> = text.split(' ').collect();
        let is_mark = |word: &&&str| ["pub", "abbrev", "unfoldable"].contains(*word);
        let (marks, words) = words.split_at(words.iter().take_while(is_mark).count());
        match words {
            ["use", path @ ..] => self.import(&path.join(" ")),
            ["mod" | "ruleset", ..] => Some(Part::Nothing),
            ["module", "_", ..] => {
                self.sections.push((indent + 2, vec![]));
                Some(Part::Section)
            }
            ["record", name, ..] => self.add(name, Kind::Record, false),
            ["data", name, ..] => self.add(name, Kind::Data, false),
            [name, then, ..] if *then == ":" || then.starts_with("{ℓ") => {
                let claim = marks == ["pub"] && self.file().label == "CLAIMS";
                self.add(name, Kind::Function, claim)
            }
            [name, ..] if self.items.last()?.name == *name => Some(Part::Body),
            _ => None,
        }
    }

    /// A line of a record or a data type: `pub field : type`, `constructor : type`.
    fn read_member(&mut self, line: &str) {
        let id = self.items.len() - 1;
        let kind = self.items[id].kind;
        let names = line.trim_start_matches("pub ").split(" : ").next().unwrap_or("");
        for name in names.split(' ').filter(|_| kind == Kind::Record || kind == Kind::Data) {
            self.items[id].members.push(name.to_string());
            if kind == Kind::Data {
                self.name(name, Meaning::Item(id));
            }
        }
    }

    /// `PATH.{a, b as c}`, `PATH as x` or `PATH`.
    fn import(&mut self, line: &str) -> Option<Part> {
        if let Some((path, names)) = line.trim_end_matches(['}', ';']).split_once(".{") {
            for name in names.split(", ") {
                let (name, known_as) = name.split_once(" as ").unwrap_or((name, name));
                self.name(known_as, Meaning::Path(format!("{path}.{name}")));
            }
        } else {
            let last = line.rsplit('.').next()?;
            let (path, known_as) = line.split_once(" as ").unwrap_or((line, last));
            self.file().modules.insert(known_as.to_string(), path.to_string());
        }
        Some(Part::Nothing).filter(|_| !line.ends_with(['{', ',', '*']))
    }

    /// A line of code, of which structs and contracts are read.
    fn read_code(&mut self, line: &str, part: Part) -> Option<Part> {
        let krate = self.file().krate.clone();
        let bare = line.trim_start_matches("pub(crate) ").trim_start_matches("pub ");
        if let Some(path) = line.strip_prefix("ghost use ") {
            return self.import(path);
        }
        if let Some(path) = bare.strip_prefix("use ") {
            // A struct's path in code, `wire::reader::Header` or one of `wire::{Message, number}`,
            // as the path of its record.
            let (first, rest) = path.trim_end_matches(['}', ';']).split_once("::")?;
            let krate = if first == "crate" { &krate } else { first };
            let (module, names) = rest.split_once('{').unwrap_or(("", rest));
            for path in names.split(", ").map(|name| format!("{module}{name}").replace("::", ".")) {
                let name = path.rsplit('.').next()?;
                if name.starts_with(char::is_uppercase) {
                    let path = format!("Rattle.{krate}.specs.declared.{path}.{name}");
                    self.name(name, Meaning::Path(path));
                }
            }
            return Some(Part::Nothing);
        }
        if let Some(name) = bare.strip_prefix("const ") {
            self.add(name.split(':').next()?, Kind::Struct, false);
            return Some(Part::Nothing);
        }
        if let Some(name) = bare.strip_prefix("struct ").or(bare.strip_prefix("enum ")) {
            return self.add(name.split([' ', '<']).next()?, Kind::Struct, false);
        }
        let internal =
            |(of, begins): &(&str, &str)| krate == *of && line.trim_start().starts_with(begins);
        if line.starts_with(EXPORT) || INTERNAL.iter().any(internal) {
            return self.add(line.split('(').next()?.rsplit(' ').next()?, Kind::Contract, false);
        }
        match self.items.last_mut().filter(|_| part == Part::Statement) {
            Some(item) if item.kind == Kind::Struct && line.starts_with([' ', '}']) => {
                let field = line.trim().trim_start_matches("pub ").split_once(": ");
                item.members.extend(field.map(|field| field.0.to_string()));
                Some(part)
            }
            Some(item) if item.kind == Kind::Contract && line.trim_start() != "{" => Some(part),
            _ => Some(Part::Nothing),
        }
    }

    /// Does a file declare this name, or bring it with `use`?
    pub fn names(&self, file: usize, name: &str) -> bool {
        self.files[file].names.contains_key(name)
    }

    /// What a name stands for in a file, and how many of its parts between dots that takes.
    pub fn lookup(&self, file: usize, word: &str) -> Option<(Vec<Meaning>, usize)> {
        let file = &self.files[file];
        let parts: Vec<&str> = word.split('.').collect();
        if let (Some(path), Some(name)) = (file.modules.get(parts[0]), parts.get(1)) {
            return Some((self.find(&format!("{path}.{name}"))?, 2));
        }
        if let Some(meanings) = file.names.get(parts[0]) {
            return Some((self.follow(meanings)?, 1));
        }
        if parts.len() > 1 {
            // A whole path, or a field of something that is bound.
            let path = Some(word).filter(|_| ["Rattle", "Prim"].contains(&parts[0]))?;
            return Some((self.find(path)?, parts.len()));
        }
        // A part of an operator: `≡` of `◌≡◌`.
        let bare = word.trim_matches('◌');
        let has_part = |name: &str| name.contains('◌') && name.split('◌').any(|part| part == bare);
        let operators = file.names.iter().filter(|(name, _)| has_part(name));
        let meanings: Vec<Meaning> = operators.flat_map(|(_, meanings)| meanings.clone()).collect();
        if !meanings.is_empty() {
            return Some((self.follow(&meanings)?, 1));
        }
        let name = PRELUDE.split(' ').find(|name| *name == word || has_part(name))?;
        Some((vec![Meaning::Path(format!("Prim.{name}"))], 1))
    }

    /// Follows paths to what they stand for.
    fn follow(&self, meanings: &[Meaning]) -> Option<Vec<Meaning>> {
        let found = meanings.iter().map(|meaning| match meaning {
            Meaning::Item(_) => Some(vec![meaning.clone()]),
            Meaning::Path(path) => self.find(path),
        });
        Some(found.collect::<Option<Vec<_>>>()?.concat())
    }

    fn find(&self, path: &str) -> Option<Vec<Meaning>> {
        let parts: Vec<&str> = path.split('.').collect();
        if LIBRARIES.contains(&parts[0]) || path.starts_with("Rattle.std.") {
            return Some(vec![Meaning::Path(path.to_string())]);
        }
        let code = |module: &[&str]| match module {
            [] => "src/lib.rt".to_string(),
            _ => format!("src/{}.rt", module.join("/")),
        };
        let (krate, file, name) = match &parts[..] {
            // A variant stands in its enum.
            ["Rattle", krate, "specs", "declared", module @ .., name, "TheVariants", _] => {
                (krate, code(module), name)
            }
            ["Rattle", krate, "specs", "declared", module @ .., of, name] => {
                (krate, code(module), Some(name).filter(|_| of == name || *of == "TheConstants")?)
            }
            ["Rattle", krate, folder @ ("specs" | "proofs"), module @ .., name] => {
                (krate, format!("{folder}/{}.antt", module.join("/")), name)
            }
            _ => return None,
        };
        let path = format!("crates/{krate}/{file}");
        let file = self.files.iter().find(|file| file.path == path)?;
        self.follow(file.names.get(*name)?)
    }
}

pub fn is_comment(line: &str) -> bool {
    line.trim_start().starts_with("--") || line.trim_start().starts_with("//")
}

/// The names in a folder; none where there is no such folder.
fn sorted(folder: &Path) -> io::Result<Vec<String>> {
    let mut names = Vec::new();
    for entry in fs::read_dir(folder).into_iter().flatten() {
        names.push(entry?.file_name().to_string_lossy().into_owned());
    }
    names.sort();
    Ok(names)
}
