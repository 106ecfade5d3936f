//! What the text of an item mentions.
//!
//! A name that is known in the file counts, also where the item binds that name: so what is followed
//! is never too little. A name that is not known must be one that the item binds somewhere.

use crate::crates::{is_comment, Crates, Item, Kind, Meaning};
use std::collections::BTreeSet;

/// Words and signs of the language.
const LANGUAGE: &str = "( ) { } [ ] | ; , . _ : = → × ↦ λ let in elim as record data module where \
                        Type pub abbrev unfoldable";

/// What a contract says besides.
const OF_CONTRACTS: &str = "requires ensures result";

/// What a contract says of a parameter: what a thing that is lent holds, and what was passed.
const OF_PARAMETERS: &str = "now old new entry";

const OF_STRUCTS: &str = "u8 u16 u32 u64 usize bool mut";

#[derive(Default)]
pub struct Mentions {
    pub meanings: Vec<Meaning>,
    /// Fields that are read or given, with the line.
    pub fields: BTreeSet<(String, usize)>,
    /// Names that mean nothing that is known, with the line.
    pub unknown: BTreeSet<(String, usize)>,
}

/// A bracket, a sign, a `.field`, or names joined by dots.
struct Token {
    text: String,
    line: usize,
    first_on_line: bool,
}

/// Of the whole item, or of its statement alone.
pub fn mentions(crates: &Crates, item: &Item, whole: bool) -> Mentions {
    let mut mentions = Mentions::default();
    let mut bound = BTreeSet::new();
    let mut tokens = tokens(crates, item, whole);
    if item.kind == Kind::Contract {
        // The parameters, and a label between `ensures` and its brace.
        let is_clause = |t: &Token| t.text == "requires" || t.text == "ensures";
        let clauses = tokens.iter().position(is_clause).unwrap_or(0);
        bound.extend(tokens.drain(..clauses).map(|t| t.text.trim_end_matches(':').to_string()));
        bound.extend(tokens.windows(2).filter(|t| is_clause(&t[0])).map(|t| t[1].text.clone()));
    }
    bind(&tokens, &mut bound);
    for (i, token) in tokens.iter().enumerate() {
        let (text, line) = (token.text.as_str(), token.line);
        let of_language = match item.kind {
            Kind::Contract => is_one_of(LANGUAGE, text) || is_one_of(OF_CONTRACTS, text),
            Kind::Struct => is_one_of(OF_STRUCTS, text) || text.starts_with('\''),
            _ => is_one_of(LANGUAGE, text),
        };
        if of_language || is_number(text) {
            continue;
        }
        // record { field = ..; field = .. }, f {argument = ..}
        let word = |at: usize| tokens.get(at).map_or("", |token| token.text.as_str());
        let before = word(i.wrapping_sub(1));
        if word(i + 1) == "=" && (before == "{" || before == ";") {
            if before == ";" || word(i.wrapping_sub(2)) == "record" {
                mentions.fields.insert((text.to_string(), line));
            }
            continue;
        }
        let head = text.split('.').next().unwrap_or("");
        let parts = match crates.lookup(item.file, text) {
            Some((meanings, parts)) => {
                mentions.meanings.extend(meanings);
                parts
            }
            None if head.is_empty() => 1,
            None if bound.contains(head) && !crates.names(item.file, head) => 1,
            None => {
                mentions.unknown.insert((text.to_string(), line));
                continue;
            }
        };
        let of_parameter =
            |field: &str| item.kind == Kind::Contract && is_one_of(OF_PARAMETERS, field);
        let fields = text.split('.').skip(parts);
        let fields = fields.filter(|field| !is_number(field) && !of_parameter(field));
        mentions.fields.extend(fields.map(|field| (field.to_string(), line)));
    }
    mentions
}

/// The names that are bound: between `λ` and its dot; before a `:`, a `=` or a `↦`, back to what
/// opens the group around, to a `;`, to `let`, to `[` or `|`, or to the begin of the line. A group
/// before a `:` binds names by a `:` of its own, or it is a name's levels, `{ℓ ℓ'}`.
fn bind(tokens: &[Token], bound: &mut BTreeSet<String>) {
    for (i, token) in tokens.iter().enumerate() {
        if token.text == "λ" {
            bound.extend(tokens[i..].iter().map(|t| t.text.clone()).take_while(|text| text != "."));
        }
        if [":", "=", "↦"].contains(&token.text.as_str()) {
            let (mut depth, is_type) = (0, token.text == ":");
            for token in tokens[..i].iter().rev() {
                match token.text.as_str() {
                    ")" | "}" => depth += 1,
                    "(" | "{" => depth -= 1,
                    _ => {}
                }
                let begins = [";", "let", "[", "|"].contains(&token.text.as_str());
                if depth == 0 || !is_type || token.text.starts_with('ℓ') {
                    bound.insert(token.text.clone());
                }
                if depth < 0 || (depth == 0 && (begins || token.first_on_line)) {
                    break;
                }
            }
        }
    }
}

fn is_one_of(words: &str, text: &str) -> bool {
    words.split(' ').any(|word| word == text)
}

fn is_number(word: &str) -> bool {
    let digits = word.chars().all(|c| c.is_ascii_alphanumeric() || c == '_');
    digits && word.starts_with(|c: char| c.is_ascii_digit())
}

fn tokens(crates: &Crates, item: &Item, whole: bool) -> Vec<Token> {
    let mut tokens = Vec::new();
    let body = item.body.iter().filter(|_| whole);
    for &line in item.outer.iter().chain(&item.statement).chain(body) {
        let text = &crates.files[item.file].lines[line - 1];
        let text: Vec<char> = match item.kind {
            _ if is_comment(text) => continue,
            // Of a field its type alone.
            Kind::Struct => match text.split_once(": ") {
                Some((_, kind)) => kind.replace(['&', '[', ']', ';', ','], " ").chars().collect(),
                None => continue,
            },
            _ => text.chars().collect(),
        };
        // "A name is any run of characters other than spaces and `( ) { } . ; , @ " « »`."
        let in_name = |at: usize| {
            text.get(at).is_some_and(|c| !c.is_whitespace() && !"(){}.;,@\"".contains(*c))
        };
        let dot = |at: usize| text.get(at) == Some(&'.') && in_name(at + 1);
        let (mut at, mut first_on_line) = (0, true);
        while at < text.len() && !text[at..].starts_with(&['-', '-']) {
            let begin = at;
            // Names joined by dots, as long as no space stands between.
            while in_name(at) || dot(at) {
                at += 1;
            }
            at = at.max(begin + 1);
            if !text[begin].is_whitespace() {
                let word: String = text[begin..at].iter().collect();
                // «name» is the name, but no word of the language.
                let bare = word.replace(['«', '»'], "");
                let text = if is_one_of(LANGUAGE, &bare) { word } else { bare };
                tokens.push(Token { text, line, first_on_line });
                first_on_line = false;
            }
        }
    }
    tokens
}
