//! The documents held to the tree: rules, names, fields, widths and links. Run by make host-docs, from the root.

use std::collections::{HashMap, HashSet};
use std::fs;

/// What is no part of the repository.
const OUTSIDE: [&str; 3] = [".git", "target", "build"];

/// Where a name of the code occurs. This file is not asked: it has the names that no code has.
const CODE: [&str; 6] = ["crates/", "host/", "include/", ".ci/", "Makefile", "crates.txt"];
const THIS: &str = "host/tests/docs.rs";

const RULES: &str = "docs/RULES.md";

/// They speak of what was, so their names need not be there now.
const PAST: [&str; 4] = ["docs/CHANGES.md", "docs/DESIGN-PASS.md", "docs/LOOK-BACK.md", "docs/PORT.md"];

/// Their tables and their edits are as wide as they are.
const WIDE: [&str; 3] = ["docs/BENCHMARKS.md", "docs/DESIGN-PASS.md", "docs/PORT.md"];

/// Names in code type that are the kit's or somebody else's, or an example.
const OTHER_NAMES: [&str; 4] = ["Tie.antt", "tools/pretty.py", "cryptography", "proofs/Judge.antt"];

/// The most characters in a line.
const README_WIDTH: usize = 110;
const PAGE_WIDTH: usize = 130;

fn main() {
    let mut tree = Tree { paths: vec![], files: vec![] };
    tree.read("");
    let pages: Vec<Page> = tree.files.iter().filter(|file| is_page(&file.path)).map(Page::new).collect();
    let mut failures = vec![];
    let rules = check_rules(&tree, &pages, &mut failures);
    let names = check_names(&tree, &pages, &mut failures);
    check_widths(&pages, &mut failures);
    let links = check_links(&tree, &pages, &mut failures);
    check_sources(&tree, &pages, &mut failures);
    check_fields(&tree, &pages, &mut failures);
    for failure in &failures {
        eprintln!("{failure}");
    }
    if !failures.is_empty() {
        eprintln!("docs: FAILED; lines above: {}", failures.len());
        std::process::exit(1);
    }
    println!("docs: {} pages; {rules}, {names} names and {links} links lead somewhere", pages.len());
}

struct File {
    path: String,
    text: String,
}

impl File {
    /// A failure's line; lines count from 1.
    fn at(&self, line: usize, what: String) -> String {
        format!("{}:{line}: {what}", self.path)
    }
}

/// All paths of the repository, folders too, and its files.
struct Tree {
    paths: Vec<String>,
    files: Vec<File>,
}

impl Tree {
    fn read(&mut self, folder: &str) {
        let entries = fs::read_dir(format!("./{folder}")).unwrap_or_else(|error| panic!("{folder}: {error}"));
        let names = entries.flatten().map(|entry| entry.file_name().to_string_lossy().to_string());
        let mut names: Vec<String> = names.collect();
        names.sort();
        for name in names {
            let path = format!("{folder}{name}");
            if OUTSIDE.contains(&&*path) || is_made(&path) {
                continue;
            }
            match fs::metadata(&path).is_ok_and(|meta| meta.is_dir()) {
                true => self.read(&format!("{path}/")),
                false => {
                    let bytes = fs::read(&path).unwrap_or_else(|error| panic!("{path}: {error}"));
                    self.files.push(File { path: path.clone(), text: String::from_utf8_lossy(&bytes).into_owned() });
                }
            }
            self.paths.push(path);
        }
    }

    fn code(&self) -> impl Iterator<Item = &File> {
        self.files.iter().filter(|file| file.path != THIS && CODE.iter().any(|place| file.path.starts_with(place)))
    }
}

/// What rt keeps of a crate.
fn is_made(path: &str) -> bool {
    path.strip_prefix("crates/").and_then(|path| path.split_once('/')).is_some_and(|(_, rest)| rest == "out")
}

fn is_page(path: &str) -> bool {
    let folder = path.strip_prefix("docs/").unwrap_or(path);
    folder.ends_with(".md") && !folder.contains('/')
}

/// A page in Markdown. Blanks stand for what is taken out, so lines stay where they are.
struct Page<'a> {
    file: &'a File,
    /// without blocks of code
    prose: String,
    /// without code at all
    bare: String,
    /// code within lines: its first line and what it says
    spans: Vec<(usize, String)>,
}

impl Page<'_> {
    fn new(file: &File) -> Page<'_> {
        let mut fenced = false;
        let mut prose = String::new();
        for line in file.text.lines() {
            let fence = line.trim_start().starts_with("```");
            fenced ^= fence;
            prose += &if fenced || fence { String::new() } else { line.to_string() };
            prose.push('\n');
        }
        let (mut bare, mut spans, mut rest) = (String::new(), vec![], &*prose);
        while let Some(start) = rest.find('`') {
            bare += &rest[..start];
            rest = &rest[start..];
            let ticks = rest.find(|c| c != '`').unwrap_or(rest.len());
            let paragraph = &rest[ticks..rest.find("\n\n").unwrap_or(rest.len()).max(ticks)];
            let length = paragraph.find(&rest[..ticks]).map_or(0, |end| {
                let line = 1 + bare.matches('\n').count();
                spans.push((line, paragraph[..end].split_whitespace().collect::<Vec<_>>().join(" ")));
                end + ticks
            });
            bare.extend(rest[..ticks + length].chars().map(|c| if c == '\n' { c } else { ' ' }));
            rest = &rest[ticks + length..];
        }
        bare += rest;
        Page { file, prose, bare, spans }
    }

    /// The anchors of its headings, by GitHub's rule.
    fn anchors(&self) -> HashSet<String> {
        let mut anchors = HashSet::new();
        let mut counts: HashMap<String, usize> = HashMap::new();
        for line in self.prose.lines() {
            let heading = line.trim_start_matches('#');
            if heading.len() == line.len() || !heading.starts_with(' ') {
                continue;
            }
            let mut heading = heading.trim().to_lowercase();
            while let Some(start) = heading.find("](") {
                let end = heading[start..].find(')').map_or(heading.len(), |length| start + length + 1);
                heading.replace_range(start..end, "");
            }
            let kept = heading.chars().filter(|&c| c.is_alphanumeric() || "-_ ".contains(c));
            let anchor: String = kept.map(|c| if c == ' ' { '-' } else { c }).collect();
            let count = counts.entry(anchor.clone()).or_default();
            anchors.insert(if *count == 0 { anchor } else { format!("{anchor}-{count}") });
            *count += 1;
        }
        anchors
    }
}

/// The words of a text with their lines, without what opens a line of comment, quotation or table.
fn words(text: &str) -> Vec<(usize, &str)> {
    let lines = text.lines().enumerate();
    let words = lines.flat_map(|(i, line)| line.split_whitespace().enumerate().map(move |(place, word)| (i + 1, place, word)));
    let marks = ["//", "///", "//!", "--", "#", "*", "/*", ">", "|"];
    words.filter(|(_, place, word)| *place > 0 || !marks.contains(word)).map(|(line, _, word)| (line, word)).collect()
}

/// A word without the punctuation around it.
fn plain(word: &str) -> &str {
    word.trim_matches(|c: char| !c.is_alphanumeric())
}

/// A rule's number: its section and its place there.
type Number = (u32, u32);

/// The number that a text begins with.
fn number(text: &str) -> Option<Number> {
    let digits = |text: &str| text.find(|c: char| !c.is_ascii_digit()).unwrap_or(text.len());
    let (section, rest) = text.split_at(digits(text));
    let rest = rest.strip_prefix('.')?;
    let (place, rest) = rest.split_at(digits(rest));
    let mut after = rest.chars();
    let ends = match after.next() {
        Some('.') => !after.next().is_some_and(|c| c.is_ascii_digit()),
        other => !other.is_some_and(|c| c.is_alphanumeric()),
    };
    if ends { Some((section.parse().ok()?, place.parse().ok()?)) } else { None }
}

/// The rules that a text cites, with their lines: one, several, or the two ends of a range.
fn cited(text: &str) -> Vec<(usize, Number)> {
    let words = words(text);
    let mut found = vec![];
    for (i, (_, word)) in words.iter().enumerate() {
        if !["rule", "rules"].contains(&&*plain(word).to_lowercase()) {
            continue;
        }
        for (line, word) in words[i + 1..].iter().filter(|(_, word)| !["and", "or", "to"].contains(word)) {
            let parts = word.split(['-', '–', '/']).map(|part| part.trim_start_matches(|c: char| !c.is_alphanumeric()));
            let numbers: Vec<Number> = parts.map_while(number).collect();
            if numbers.is_empty() {
                break;
            }
            found.extend(numbers.into_iter().map(|number| (*line, number)));
        }
    }
    found
}

/// Rules have numbers that ascend, and each that is cited is there.
fn check_rules(tree: &Tree, pages: &[Page], failures: &mut Vec<String>) -> String {
    let mut rules: Vec<Number> = vec![];
    for page in pages.iter().filter(|page| page.file.path == RULES) {
        for (i, line) in page.prose.lines().enumerate() {
            let line = line.trim_start().trim_start_matches("- ");
            let Some((section, place)) = line.strip_prefix("**").and_then(number) else { continue };
            if let Some(last) = rules.iter().max().filter(|last| **last >= (section, place)) {
                let what = format!("rule {section}.{place} stands behind rule {}.{}", last.0, last.1);
                failures.push(page.file.at(i + 1, what));
            }
            rules.push((section, place));
        }
    }
    if rules.is_empty() {
        failures.push(format!("{RULES}:1: it has no rules"));
    }
    let mut count = 0;
    for file in tree.code().chain(pages.iter().map(|page| page.file)) {
        for (line, number) in cited(&file.text) {
            count += 1;
            if !rules.contains(&number) {
                failures.push(file.at(line, format!("{RULES} has no rule {}.{}", number.0, number.1)));
            }
        }
    }
    format!("{} rules, {count} citations", rules.len())
}

/// Characters of names, hyphens among them.
fn in_name(c: char) -> bool {
    c.is_ascii_alphanumeric() || c == '_' || c == '-'
}

/// The names in a piece of code: `b` of `A::b(c)`, both of `A .b`; none where it is something else.
/// What a page leaves open, by two dots or in capitals, is a star.
fn names(span: &str) -> Vec<String> {
    let head = if span.ends_with(')') { span.split('(').next().unwrap_or(span) } else { span };
    let mut words = head.split_whitespace();
    let first = words.next().unwrap_or_default();
    let fields: Option<Vec<&str>> = words.map(|word| word.strip_prefix('.')).collect();
    let Some(fields) = fields else { return vec![] };
    let pattern = |word: &str| {
        let word = word.rsplit("::").next().unwrap_or(word);
        let word = word.replace("..", "*").replace("WHAT_IS_WRONG", "*").replace("NAME", "*");
        let field = word.strip_prefix('.').filter(|field| field.chars().all(in_name));
        field.unwrap_or(&word).trim_end_matches('/').to_string()
    };
    let all: Vec<String> = std::iter::once(first).chain(fields).map(pattern).collect();
    let is_name = |word: &String| {
        word.starts_with(|c: char| c.is_ascii_alphabetic() || "_.*".contains(c))
            && word.chars().all(|c| in_name(c) || "./*".contains(c))
            && word.contains(|c: char| c.is_ascii_alphabetic())
    };
    if all.iter().all(is_name) { all } else { vec![] }
}

/// Whether a text has the form of a pattern, in which a star stands for anything.
fn matches(pattern: &str, text: &str) -> bool {
    let Some((before, rest)) = pattern.split_once('*') else { return pattern == text };
    let fits = |text: &str| (0..=text.len()).any(|i| text.is_char_boundary(i) && matches(rest, &text[i..]));
    text.strip_prefix(before).is_some_and(fits)
}

/// A text, and what follows each separator in it.
fn ends(text: &str, separator: char) -> impl Iterator<Item = &str> {
    std::iter::once(text).chain(text.match_indices(separator).map(|(i, _)| &text[i + 1..]))
}

/// Names in code type are words of the code or ends of paths; a wrong program's path is its crate and name.
/// Of a name with dots that is no file's, each part is a word.
fn check_names(tree: &Tree, pages: &[Page], failures: &mut Vec<String>) -> usize {
    let edits = tree.paths.iter().filter_map(|path| path.strip_suffix(".edit"));
    let edits: Vec<String> = edits.map(|path| path.replace("/must-fail", "")).collect();
    let mut known: HashSet<&str> = OTHER_NAMES.into_iter().collect();
    for file in tree.code() {
        for word in file.text.split(|c| !in_name(c) && c != '.') {
            known.extend(ends(word.trim_matches('.'), '.'));
            known.extend(word.split(['.', '-']));
            known.extend(word.split('.'));
        }
    }
    for path in tree.paths.iter().chain(&edits) {
        known.extend(ends(path, '/'));
    }
    let kinds: HashSet<&str> = tree.files.iter().filter_map(|file| file.path.rsplit(['.', '/']).next()).collect();
    let in_parts = |name: &str| {
        let parts: Vec<&str> = name.split('.').collect();
        parts.last().is_some_and(|last| !kinds.contains(last)) && parts.iter().all(|part| known.contains(part))
    };
    let by_pattern = |name: &str| name.contains('*') && known.iter().any(|word| matches(name, word));
    let made = |name: &str| OUTSIDE.iter().any(|place| name.starts_with(&format!("{place}/")));
    let mut count = 0;
    for page in pages.iter().filter(|page| !PAST.contains(&&*page.file.path)) {
        for (line, span) in &page.spans {
            for name in names(span) {
                count += 1;
                if !known.contains(&*name) && !in_parts(&name) && !by_pattern(&name) && !made(&name) {
                    failures.push(page.file.at(*line, format!("`{name}` is no name in the tree")));
                }
            }
        }
    }
    count
}

fn check_widths(pages: &[Page], failures: &mut Vec<String>) {
    for page in pages.iter().filter(|page| !WIDE.contains(&&*page.file.path)) {
        let most = if page.file.path == "README.md" { README_WIDTH } else { PAGE_WIDTH };
        for (i, line) in page.file.text.lines().enumerate() {
            let width = line.chars().count();
            if width > most {
                failures.push(page.file.at(i + 1, format!("{width} characters, and at most {most} are wanted")));
            }
        }
    }
}

/// A link within the repository leads to a file, or a heading, that is there.
fn check_links(tree: &Tree, pages: &[Page], failures: &mut Vec<String>) -> usize {
    let anchors: HashMap<&str, HashSet<String>> = pages.iter().map(|page| (&*page.file.path, page.anchors())).collect();
    let mut count = 0;
    for page in pages {
        let folder = page.file.path.rfind('/').map_or("", |i| &page.file.path[..=i]);
        for (i, line) in page.bare.lines().enumerate() {
            for opening in ["](", "]: ", "src=\"", "href=\""] {
                for (at, _) in line.match_indices(opening).filter(|_| opening != "]: " || line.starts_with('[')) {
                    let target = line[at + opening.len()..].split([')', ' ', '"']).next().unwrap_or_default();
                    if target.contains("://") || target.starts_with("mailto:") {
                        continue;
                    }
                    count += 1;
                    let (file, anchor) = target.split_once('#').map_or((target, None), |(file, anchor)| (file, Some(anchor)));
                    let path = if file.is_empty() { page.file.path.clone() } else { joined(folder, file) };
                    if !tree.paths.contains(&path) {
                        failures.push(page.file.at(i + 1, format!("the link {target} leads to no file")));
                    } else if anchor.is_some_and(|a| !anchors.get(&*path).is_some_and(|known| known.contains(a))) {
                        failures.push(page.file.at(i + 1, format!("the link {target} leads to no heading")));
                    }
                }
            }
        }
    }
    count
}

/// The path of a link from a page's folder.
fn joined(folder: &str, link: &str) -> String {
    let mut parts: Vec<&str> = vec![];
    for part in folder.split('/').chain(link.split('/')) {
        match part {
            "" | "." => {}
            ".." => drop(parts.pop()),
            part => parts.push(part),
        }
    }
    parts.join("/")
}

/// Pages and comments cite rules, and not the owner's documents, which are not in the repository. A comment may name
/// a term of theirs: "the hold" of the owner's document 01.
fn check_sources(tree: &Tree, pages: &[Page], failures: &mut Vec<String>) {
    for file in tree.code().chain(pages.iter().map(|page| page.file)) {
        let words = words(&file.text);
        for (i, pair) in words.windows(2).enumerate() {
            let (word, next) = (plain(pair[0].1).to_lowercase(), plain(pair[1].1));
            let named = !is_page(&file.path) && i > 0 && words[i - 1].1 == "owner's";
            let digits = next.bytes().take_while(u8::is_ascii_digit).count();
            let cites = match &*word {
                "document" | "documents" => !named && digits > 1 && next.starts_with('0'),
                "slip" | "slips" => digits > 0,
                _ => false,
            };
            if cites {
                failures.push(file.at(pair[0].0, format!("{word} {} is not in the repository", &next[..digits])));
            }
        }
    }
}

/// The fields of each record of the definitions.
fn records(tree: &Tree) -> HashMap<&str, HashSet<&str>> {
    let mut records: HashMap<&str, HashSet<&str>> = HashMap::new();
    for file in tree.files.iter().filter(|file| file.path.contains("/specs/")) {
        let mut inside = None;
        for line in file.text.lines() {
            let mut words = line.split_whitespace().filter(|word| *word != "pub");
            let (first, second) = (words.next().unwrap_or_default(), words.next().unwrap_or_default());
            if first == "record" {
                records.entry(second).or_default();
                inside = Some((second, line.len() - line.trim_start().len()));
            } else if let Some((name, indent)) = inside.filter(|_| !first.is_empty()) {
                if line.len() - line.trim_start().len() <= indent {
                    inside = None;
                } else if second == ":" {
                    records.entry(name).or_default().insert(first);
                }
            }
        }
    }
    records
}

/// Where a page says `a`, `b` of `R`, and R is a record, these are its fields.
fn check_fields(tree: &Tree, pages: &[Page], failures: &mut Vec<String>) {
    let records = records(tree);
    for page in pages.iter().filter(|page| !PAST.contains(&&*page.file.path)) {
        let parts: Vec<&str> = page.prose.split('`').collect();
        let between = |i: usize| parts[i].split_whitespace().collect::<Vec<_>>().join(" ");
        for i in (3..parts.len()).step_by(2).filter(|&i| between(i - 1) == "of") {
            let Some(fields) = records.get(parts[i]) else { continue };
            let mut at = i - 2;
            loop {
                if !fields.contains(parts[at]) {
                    let line = 1 + parts[..at].iter().map(|part| part.matches('\n').count()).sum::<usize>();
                    failures.push(page.file.at(line, format!("`{}` is no field of `{}`", parts[at], parts[i])));
                }
                if at < 3 || ![",", "and"].contains(&&*between(at - 1)) {
                    break;
                }
                at -= 2;
            }
        }
    }
}
