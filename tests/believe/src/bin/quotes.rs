//! Holds every quotation in the comments of the definitions, the claims and the code to docs/SPECIFICATION.md: what stands between
//! double quotes there must stand in the specification, word for word. " .. " in a quotation leaves words out.

use std::fs;
use std::path::{Path, PathBuf};
use std::process::ExitCode;

/// The words of a text, single spaces between them; marks of Markdown are no words.
fn words(text: &str) -> String {
    let plain = text.replace("**", "").replace('`', "").replace("\\|", "|");
    let words = plain.split_whitespace().filter(|word| *word != "-" && *word != "|");
    words.collect::<Vec<_>>().join(" ")
}

/// The comments of a file, lines that follow each other joined, with the number of the first line.
fn comments(text: &str) -> Vec<(usize, String)> {
    let mut found: Vec<(usize, String)> = Vec::new();
    let mut inside = false;
    for (number, line) in text.lines().enumerate() {
        let line = line.trim();
        let said = line.strip_prefix("--").or(line.strip_prefix("//"));
        match said {
            Some(said) if inside => {
                let last = found.last_mut().expect("inside a comment");
                last.1.push(' ');
                last.1.push_str(said.trim());
            }
            Some(said) => found.push((number + 1, said.trim().to_string())),
            None => {}
        }
        inside = said.is_some();
    }
    found
}

/// Does the specification have the quotation's pieces, one behind the other?
fn stands(quotation: &str, specification: &str) -> bool {
    let mut rest = specification;
    for piece in quotation.split(" .. ") {
        let piece = piece.trim_matches(['.', ',', ':', ';', ' ']);
        match rest.find(piece) {
            Some(place) => rest = &rest[place + piece.len()..],
            None => return false,
        }
    }
    true
}

/// The files of a folder and of the folders in it.
fn files(folder: &Path, found: &mut Vec<PathBuf>) {
    let entries = fs::read_dir(folder).into_iter().flatten().flatten();
    for path in entries.map(|entry| entry.path()) {
        if path.is_dir() {
            files(&path, found);
        } else {
            found.push(path);
        }
    }
}

/// Definitions, claims and code; laws and proofs quote nothing that is believed.
fn is_read(path: &Path, text: &str) -> bool {
    match path.extension().and_then(|extension| extension.to_str()) {
        Some("rt") => true,
        Some("antt") => text.starts_with("-- DEFINITIONS") || text.starts_with("-- CLAIMS"),
        _ => false,
    }
}

fn main() -> ExitCode {
    let root = PathBuf::from(std::env::args().nth(1).expect("quotes: the repository's folder"));
    let path = root.join("docs/SPECIFICATION.md");
    let specification = words(&fs::read_to_string(path).expect("quotes: docs/SPECIFICATION.md"));
    let mut paths = Vec::new();
    files(&root.join("crates"), &mut paths);
    paths.sort();
    let (mut quotations, mut wrong) = (0, 0);
    for path in paths {
        let Ok(text) = fs::read_to_string(&path) else { continue };
        if !is_read(&path, &text) {
            continue;
        }
        for (line, comment) in comments(&text) {
            for quotation in comment.split('"').skip(1).step_by(2) {
                quotations += 1;
                if !stands(&words(quotation), &specification) {
                    wrong += 1;
                    let path = path.strip_prefix(&root).unwrap_or(&path).display();
                    println!("{path}:{line}: the specification does not say: {quotation}");
                }
            }
        }
    }
    println!("quotes: {quotations} quotations, {wrong} not in docs/SPECIFICATION.md");
    if quotations > 100 && wrong == 0 { ExitCode::SUCCESS } else { ExitCode::FAILURE }
}
