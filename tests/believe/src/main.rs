//! Follows the names from the contracts of what a host calls and from the statements of the claims
//! through the definitions. That is the text to believe; everything else is checked.
//!
//! Fails if a definition that is reached stands in a file that says neither DEFINITIONS nor CLAIMS,
//! and if a name is met that means nothing that is known.
//!
//!     believe DIRECTORY [--print | --library]

mod crates;
mod mentions;

use crates::{is_comment, Crates, Item, Kind, Meaning};
use std::collections::{BTreeMap, BTreeSet, VecDeque};
use std::{env, path::Path, process::ExitCode};

/// A record of the toolchain's libraries whose fields are used: a thing that is lent, what it holds,
/// where that stands and which loan it is.
const LENT: (&str, [&str; 3]) = ("Rattle.std.specs.Borrow.Bor", ["now", "ref_ptr", "ghost_name"]);

/// How an item is reached.
struct Reached {
    /// As a definition; if not, as a claim, of which only the statement counts.
    whole: bool,
    /// By what; a contract and a claim by nothing.
    from: Option<usize>,
    mentions: Vec<usize>,
}

struct Believed<'a> {
    crates: &'a Crates,
    reached: BTreeMap<usize, Reached>,
    /// Names of the toolchain's libraries.
    library: BTreeSet<String>,
    /// Fields that are used: in the text of which item, in which line.
    fields: Vec<(usize, usize, String)>,
    /// What is wrong, with the item in whose text it is.
    problems: Vec<(usize, String)>,
}

impl Believed<'_> {
    /// Follows the names from some of the items, the nearest first.
    fn follow(&mut self, is_root: impl Fn(&Item) -> bool) {
        let mut queue = VecDeque::new();
        for (id, item) in self.crates.items.iter().enumerate().filter(|(_, item)| is_root(item)) {
            let root = Reached { whole: !item.claim, from: None, mentions: vec![] };
            self.reached.entry(id).or_insert(root);
            queue.push_back(id);
        }
        while let Some(id) = queue.pop_front() {
            let item = &self.crates.items[id];
            let mentions = mentions::mentions(self.crates, item, self.reached[&id].whole);
            for meaning in mentions.meanings {
                match meaning {
                    Meaning::Path(path) => drop(self.library.insert(path)),
                    Meaning::Item(other) if other == id => {}
                    Meaning::Item(other) => {
                        self.reached.entry(id).and_modify(|reached| reached.mentions.push(other));
                        let new = Reached { whole: false, from: Some(id), mentions: vec![] };
                        let reached = self.reached.entry(other).or_insert(new);
                        if !std::mem::replace(&mut reached.whole, true) {
                            queue.push_back(other);
                        }
                    }
                }
            }
            for (name, line) in mentions.unknown {
                self.problem(id, line, &format!("`{name}` is nothing that is known here"));
            }
            self.fields.extend(mentions.fields.into_iter().map(|(name, line)| (id, line, name)));
            let label = self.crates.files[item.file].label.as_str();
            if !["DEFINITIONS", "CLAIMS", "src"].contains(&label) {
                let says = format!("`{}` is to be believed, and its file says {label}", item.name);
                self.problem(id, self.line(id), &says);
            }
        }
    }

    /// Every field that is used is a field of something that is reached.
    fn check_fields(&mut self) {
        let items = self.reached.keys().map(|id| &self.crates.items[*id]);
        let known: BTreeSet<&String> = items.flat_map(|item| &item.members).collect();
        let (lent, of_lent) = LENT;
        for (id, line, name) in std::mem::take(&mut self.fields) {
            if known.contains(&name) {
                continue;
            } else if self.library.contains(lent) && of_lent.contains(&name.as_str()) {
                self.library.insert(format!("{lent}.{name}"));
            } else {
                self.problem(id, line, &format!("`.{name}` is a field of nothing that is reached"));
            }
        }
    }

    fn problem(&mut self, id: usize, line: usize, problem: &str) {
        self.problems.push((id, format!("{}: {problem}", self.place(id, line))));
    }

    fn place(&self, id: usize, line: usize) -> String {
        format!("{}:{line}", self.crates.files[self.crates.items[id].file].path)
    }

    /// The line in which an item begins, without its comment.
    fn line(&self, id: usize) -> usize {
        let item = &self.crates.items[id];
        let is_text = |n: &&usize| !is_comment(&self.crates.files[item.file].lines[**n - 1]);
        item.statement.iter().find(is_text).map_or(1, |n| *n)
    }

    /// The names by which an item is reached, a contract or a claim first.
    fn chain(&self, id: usize) -> Vec<&str> {
        let mut names = self.reached[&id].from.map_or(vec![], |from| self.chain(from));
        names.push(&self.crates.items[id].name);
        names
    }

    /// The lines of an item that are to be read, with their numbers.
    fn text(&self, id: usize) -> impl Iterator<Item = (usize, &str)> {
        let item = &self.crates.items[id];
        let body = item.body.iter().filter(move |_| self.reached[&id].whole);
        let lines = item.outer.iter().chain(&item.statement).chain(body);
        lines.map(|n| (*n, self.crates.files[item.file].lines[n - 1].as_str()))
    }

    /// Prints the text of an item behind the texts of all that it mentions.
    fn print(&self, id: usize, printed: &mut BTreeSet<usize>) {
        if printed.insert(id) {
            self.reached[&id].mentions.iter().for_each(|other| self.print(*other, printed));
            let name = &self.crates.items[id].name;
            println!("-- ==== {}: {name}", self.place(id, self.line(id)));
            self.text(id).for_each(|(_, line)| println!("{line}"));
            println!();
        }
    }

    /// Prints the numbers, a line for each crate, and gives the number of all lines.
    fn print_counts(&self) -> usize {
        let columns = "contracts lines claims lines definitions lines all-lines comments";
        let mut counts: BTreeMap<&str, [usize; 8]> = BTreeMap::new();
        let mut all = [0; 8];
        let mut counted = BTreeSet::new();
        for (id, reached) in &self.reached {
            let item = &self.crates.items[*id];
            let column = match item.kind {
                Kind::Contract => 0,
                _ if !reached.whole => 2,
                _ => 4,
            };
            // A section's header is a line of all that stands inside.
            let text = self.text(*id).filter(|(n, _)| counted.insert((item.file, *n)));
            let (comments, text): (Vec<_>, Vec<_>) = text.partition(|(_, line)| is_comment(line));
            let (comments, lines) = (comments.len(), text.len());
            let of_crate = counts.entry(&self.crates.files[item.file].krate).or_default();
            for (at, n) in [(column, 1), (column + 1, lines), (6, lines), (7, comments)] {
                of_crate[at] += n;
                all[at] += n;
            }
        }
        let row = |name, cells: Vec<String>| {
            let cells = cells.iter().map(|cell| format!("{cell:>12}"));
            println!("{name:14}{}", cells.collect::<String>());
        };
        row("crate", columns.split(' ').map(String::from).collect());
        for (name, counts) in counts.into_iter().chain([("all", all)]) {
            row(name, counts.map(|n| n.to_string()).to_vec());
        }
        all[6]
    }

    /// Prints what the files with a label declare and nothing reaches, a line for each file.
    fn print_unreached(&self, label: &str) {
        for (file, it) in self.crates.files.iter().enumerate().filter(|(_, it)| it.label == label) {
            let items = self.crates.items.iter().enumerate().filter(|(_, item)| item.file == file);
            let unreached = items.filter(|(id, _)| !self.reached.contains_key(id));
            let names: Vec<&str> = unreached.map(|(_, item)| item.name.as_str()).collect();
            if !names.is_empty() {
                println!("    {}: {}", it.path, names.join(", "));
            }
        }
    }
}

fn main() -> ExitCode {
    let arguments: Vec<String> = env::args().skip(1).collect();
    let root = arguments.first().expect("believe DIRECTORY [--print | --library]");
    let crates = Crates::load(Path::new(root)).expect("crates/ cannot be read");
    let mut all = Believed {
        crates: &crates,
        reached: BTreeMap::new(),
        library: BTreeSet::new(),
        fields: vec![],
        problems: vec![],
    };
    all.follow(|item| item.kind == Kind::Contract);
    all.follow(|item| item.claim);
    all.check_fields();
    match arguments.get(1).map(String::as_str) {
        Some("--print") => {
            // The contracts and what they mention, then the claims and what these add.
            let mut ids: Vec<&usize> = all.reached.keys().collect();
            ids.sort_by_key(|id| crates.items[**id].kind != Kind::Contract);
            let mut printed = BTreeSet::new();
            ids.into_iter().for_each(|id| all.print(*id, &mut printed));
            return ExitCode::SUCCESS;
        }
        Some("--library") => {
            all.library.iter().for_each(|name| println!("{name}"));
            return ExitCode::SUCCESS;
        }
        _ => {}
    }
    let lines = all.print_counts();
    println!("names of the toolchain's libraries: {}", all.library.len());
    println!("in a DEFINITIONS file, reached by nothing:");
    all.print_unreached("DEFINITIONS");
    println!("in a CLAIMS file, neither a claim (pub, no abbrev) nor reached:");
    all.print_unreached("CLAIMS");
    crates.problems.iter().for_each(|problem| println!("{problem}"));
    // What stands nearest to a contract or a claim comes first.
    let mut chains: Vec<_> = all.problems.iter().map(|(id, what)| (all.chain(*id), what)).collect();
    chains.sort_by_key(|(chain, _)| chain.len());
    chains.iter().for_each(|(chain, what)| println!("{what}\n    {}", chain.join(" → ")));
    let problems = crates.problems.len() + all.problems.len();
    println!("believe: {lines} lines to believe, {problems} problems");
    ExitCode::from(u8::from(problems > 0))
}
