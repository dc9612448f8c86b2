// Follows the imports of the demands' statements, definition by definition, and compares with docs/READING.md: the table of what has to
// be believed has exactly the files that are reached and their reached lines, the other table the lines of all other definitions. A
// contract as the check reads it (`Reads`) is where the way ends: what is said of its calls is said of whatever it allows.
// Lines are counted without comments, blank lines and `use` lines.
use std::collections::{BTreeMap, BTreeSet};
use std::fs;

// What a name of a file means: a definition of some file, or a whole file under another name.
#[derive(Clone)]
enum Meaning {
    Definition(String, String),
    File(String),
}

#[derive(Default)]
struct Text {
    // the lines of each definition, and the definition that each of its names stands in
    lines: BTreeMap<String, Vec<String>>,
    names: BTreeMap<String, String>,
    imports: BTreeMap<String, Meaning>,
}

// The file of a module such as Rattle.store.specs.History. None for the library's, for what is declared in src/, and for a contract.
fn file_of(module: &str) -> Option<String> {
    let (name, tail) = module.strip_prefix("Rattle.")?.split_once(".specs.")?;
    if name == "std" || name.contains('.') || tail.contains('.') {
        return None;
    }
    Some(format!("crates/{name}/specs/{tail}.antt"))
}

fn code(line: &str) -> &str {
    match line.find("--") {
        Some(0) => "",
        Some(at) if line[..at].ends_with(' ') => &line[..at],
        _ => line,
    }
}

fn words(line: &str) -> Vec<String> {
    line.split(|c: char| c.is_whitespace() || "(){}[],;⌜⌝".contains(c))
        .filter(|w| !w.is_empty() && !w.starts_with('.'))
        .map(|w| w.trim_end_matches('.').to_string())
        .collect()
}

fn read(path: &str) -> Text {
    let mut text = Text::default();
    let mut current = String::new();
    let source = fs::read_to_string(path).unwrap_or_else(|e| panic!("{path}: {e}"));
    for line in source.lines() {
        let line = code(line).trim_end();
        if line.trim().is_empty() {
            continue;
        }
        if let Some(rest) = line.strip_prefix("use ") {
            if let Some((module, alias)) = rest.split_once(" as ") {
                if let Some(file) = file_of(module.trim()) {
                    text.imports.insert(alias.trim().to_string(), Meaning::File(file));
                }
            } else if let Some((module, names)) = rest.split_once(".{") {
                if let Some(file) = file_of(module.trim()) {
                    for name in names.trim_end_matches('}').split(',') {
                        let name = name.trim().to_string();
                        text.imports.insert(name.clone(), Meaning::Definition(file.clone(), name));
                    }
                }
            }
            continue;
        }
        if !line.starts_with(' ') {
            let mut parts = words(line).into_iter().skip_while(|w| ["abbrev", "unfoldable", "pub", "record", "data"].contains(&w.as_str()));
            let name = parts.next().unwrap_or_default();
            let begins = line.starts_with("abbrev ") || line.starts_with("unfoldable ") || line.starts_with("pub ") || line.starts_with("record ") || line.starts_with("data ");
            if begins || name != current {
                current = name.clone();
                text.names.insert(name.clone(), name);
            }
        } else if let Some((names, _)) = line.split_once(" : ") {
            // constructors and fields
            if !names.contains('=') && !names.contains('→') && !names.contains('(') {
                for name in words(names) {
                    if name != "pub" && !text.names.contains_key(&name) {
                        text.names.insert(name, current.clone());
                    }
                }
            }
        }
        text.lines.entry(current.clone()).or_default().push(line.to_string());
    }
    text
}

fn main() {
    let mut texts: BTreeMap<String, Text> = BTreeMap::new();
    let mut all: BTreeSet<String> = BTreeSet::new();
    for krate in fs::read_dir("crates").unwrap() {
        let specs = krate.unwrap().path().join("specs");
        let Ok(files) = fs::read_dir(&specs) else { continue };
        for file in files {
            let path = file.unwrap().path();
            let path = path.to_str().unwrap().to_string();
            if path.ends_with(".antt") && !path.ends_with("/Lib.antt") {
                texts.insert(path.clone(), read(&path));
                all.insert(path);
            }
        }
    }

    // everything from the demands on
    let root = "crates/demands/specs/Demands.antt".to_string();
    let mut reached: BTreeSet<(String, String)> = BTreeSet::new();
    let mut open: Vec<(String, String)> = texts[&root].lines.keys().map(|d| (root.clone(), d.clone())).collect();
    while let Some((file, name)) = open.pop() {
        let text = texts.get(&file).unwrap_or_else(|| panic!("{file} is not there"));
        let Some(definition) = text.names.get(&name) else {
            eprintln!("{file}: no definition of {name} was found");
            std::process::exit(1);
        };
        if !reached.insert((file.clone(), definition.clone())) {
            continue;
        }
        for line in &text.lines[definition] {
            for word in words(line) {
                // a field is written behind its value
                let mut parts = word.split('.');
                let first = parts.next().unwrap_or_default().to_string();
                let rest = parts.next().unwrap_or_default().to_string();
                let word = if text.imports.contains_key(&word) || text.names.contains_key(&word) { word } else { first.clone() };
                match text.imports.get(&word) {
                    Some(Meaning::Definition(f, n)) => open.push((f.clone(), n.clone())),
                    Some(Meaning::File(f)) if !rest.is_empty() => open.push((f.clone(), rest)),
                    _ => {
                        if text.names.contains_key(&word) && text.names[&word] != *definition && text.lines.contains_key(&word) {
                            open.push((file.clone(), word));
                        } else if let Some(d) = text.names.get(&word) {
                            // a constructor of this file
                            if d != definition && text.lines[d][0].contains("data ") {
                                open.push((file.clone(), word));
                            }
                        }
                    }
                }
            }
        }
    }

    let mut believed: BTreeMap<String, usize> = BTreeMap::new();
    let mut other: BTreeMap<String, usize> = BTreeMap::new();
    for (file, text) in &texts {
        for (definition, lines) in &text.lines {
            let into = if reached.contains(&(file.clone(), definition.clone())) { &mut believed } else { &mut other };
            *into.entry(file.clone()).or_default() += lines.len();
        }
    }

    if std::env::args().nth(1).as_deref() == Some("show") {
        for (file, text) in &texts {
            let (yes, no): (Vec<_>, Vec<_>) = text.lines.keys().partition(|d| reached.contains(&(file.clone(), (*d).clone())));
            println!("{file}: {} believed, {} other\n    {yes:?}\n    not {no:?}", believed.get(file).unwrap_or(&0), other.get(file).unwrap_or(&0));
        }
    }

    // the two tables
    let doc = fs::read_to_string("docs/READING.md").unwrap();
    let mut section = String::new();
    let mut told: [BTreeMap<String, usize>; 2] = [BTreeMap::new(), BTreeMap::new()];
    for line in doc.lines() {
        if let Some(head) = line.strip_prefix("## ") {
            section = head.to_string();
        }
        let cells: Vec<&str> = line.split('|').map(|c| c.trim()).collect();
        if cells.len() > 3 && cells[1].starts_with("`crates/") {
            let n = cells[2].parse().unwrap_or(usize::MAX);
            told[if section == "What one has to believe" { 0 } else { 1 }].insert(cells[1].trim_matches('`').to_string(), n);
        }
    }
    let mut wrong = 0;
    for (should, is, name) in [(&believed, &told[0], "What one has to believe"), (&other, &told[1], "What one need not believe")] {
        for (file, n) in should {
            if is.get(file) != Some(n) {
                println!("docs/READING.md, {name}, does not have: | `{file}` | {n} |");
                wrong += 1;
            }
        }
        for file in is.keys() {
            if !should.contains_key(file) {
                println!("docs/READING.md, {name}, has {file}, of which nothing belongs there");
                wrong += 1;
            }
        }
    }
    let (a, b): (usize, usize) = (believed.values().sum(), other.values().sum());
    for (n, text) in [(a, format!("{a} lines")), (b, format!("{b} lines"))] {
        if !doc.contains(&text) {
            println!("docs/READING.md does not say: {n} lines");
            wrong += 1;
        }
    }
    if wrong > 0 {
        std::process::exit(1);
    }
    println!("definitions: {a} lines are reached from the demands, {b} are not, as docs/READING.md says");
}
