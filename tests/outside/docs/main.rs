//! What the pages name is there, and what must be on them is. From the pages to the crates: each definition and theorem that a
//! page names is declared in the file that it says, and each edit, function or law that docs/PROMISES.md writes in backquotes is
//! declared somewhere. From the crates to the pages: docs/DEFINITIONS.md has each definition that a public promise reaches, and
//! docs/PROMISES.md each public function and each must-fail edit; and specs/ holds what public promises reach, specs/Inside the rest.

use std::collections::{BTreeMap, BTreeSet};
use std::fs;
use std::path::{Path, PathBuf};

type Names = BTreeSet<String>;

/// A definition: its file, as crate/specs/File.antt, and its name.
type Definition = (String, String);

/// A file of definitions or laws.
#[derive(Default)]
struct File {
    /// Whatever it declares: definitions, laws, fields and constructors.
    declared: Names,
    /// The words in what each definition says.
    words: BTreeMap<String, Names>,
    /// For a constructor, the definition that it is part of.
    part_of: BTreeMap<String, String>,
    /// Names from other files, and files under other names.
    names: BTreeMap<String, Definition>,
    files: BTreeMap<String, String>,
}

fn words_of(line: &str) -> impl Iterator<Item = &str> {
    line.split(|c: char| c.is_whitespace() || "(){}[],;".contains(c)).filter(|w| !w.is_empty())
}

/// `Rattle.rule.specs.Tree` is the file rule/specs/Tree.antt.
fn file_of(module: &str) -> Option<String> {
    let (name, rest) = module.strip_prefix("Rattle.")?.split_once('.')?;
    Some(format!("{name}/{}.antt", rest.replace('.', "/")))
}

/// One `use`, of a law's file or behind `ghost` in the code.
fn read_use(text: &str, file: &mut File) {
    let text = text.trim().trim_end_matches(';');
    if let Some((module, name)) = text.split_once(" as ").filter(|_| !text.contains('{')) {
        if let Some(path) = file_of(module) {
            file.files.insert(name.trim().to_string(), path);
        }
    } else if let Some((module, list)) = text.split_once(".{") {
        let Some(path) = file_of(module) else { return };
        for name in list.trim_end_matches('}').split(',').map(str::trim).filter(|n| !n.is_empty()) {
            let (theirs, ours) = name.split_once(" as ").unwrap_or((name, name));
            file.names.insert(ours.to_string(), (path.clone(), theirs.to_string()));
        }
    }
}

/// The text up to where its braces are closed, and the lines that it takes.
fn closed(lines: &[&str]) -> (String, usize) {
    let mut text = String::new();
    for (n, line) in lines.iter().enumerate() {
        text.push_str(line);
        text.push(' ');
        if text.matches('{').count() == text.matches('}').count() {
            return (text, n + 1);
        }
    }
    (text, lines.len())
}

/// Not the beginning of an argument or of a value.
fn is_name(word: &str) -> bool {
    !word.starts_with(['(', '{', 'λ', '→'])
}

/// A long type stands on the lines behind its name.
fn next_is_type(lines: &[&str], next: usize) -> bool {
    lines.get(next).is_some_and(|line| line.trim_start().starts_with(": "))
}

fn read_antt(text: &str) -> File {
    let lines: Vec<&str> = text.lines().collect();
    let mut file = File::default();
    let mut current = String::new();
    // the record or data type that is open, and its indent
    let mut open: Option<(String, usize)> = None;
    // where the definitions begin: a line further in goes on with the one before it
    let mut indents: BTreeMap<String, usize> = BTreeMap::new();
    let mut n = 0;
    while n < lines.len() {
        let line = lines[n];
        n += 1;
        let trimmed = line.trim_start();
        let indent = line.len() - trimmed.len();
        if trimmed.is_empty() || trimmed.starts_with("--") || trimmed.starts_with("infix") || trimmed == "mutual" {
            continue;
        }
        if let Some(what) = trimmed.strip_prefix("use ") {
            let mut rest = vec![what];
            rest.extend(&lines[n..]);
            let (text, taken) = closed(&rest);
            n += taken - 1;
            read_use(&text, &mut file);
            continue;
        }
        if open.as_ref().is_some_and(|(_, at)| indent <= *at) {
            open = None;
        }
        let mut words = trimmed.split_whitespace().peekable();
        while words.peek().is_some_and(|w| ["abbrev", "unfoldable", "pub"].contains(w)) {
            words.next();
        }
        let Some(first) = words.next() else { continue };
        let second = words.next();
        if (first == "record" || first == "data") && second.is_some_and(is_name) {
            current = second.unwrap_or_default().to_string();
            open = Some((current.clone(), indent));
            indents.insert(current.clone(), indent);
            file.declared.insert(current.clone());
        } else if let (Some((whole, at)), Some(":")) = (&open, second) {
            if indent == at + 2 && is_name(first) {
                file.declared.insert(first.to_string());
                // a field is written `pub`, and its name alone does not say whose it is
                if !trimmed.starts_with("pub ") {
                    file.part_of.insert(first.to_string(), whole.clone());
                }
            }
        } else if open.is_none() && is_name(first) && (second == Some(":") || (second.is_none() && next_is_type(&lines, n))) {
            current = first.to_string();
            indents.insert(current.clone(), indent);
            file.declared.insert(current.clone());
        } else if open.is_none() && indents.get(first) == Some(&indent) {
            current = first.to_string();
        }
        let said = file.words.entry(current.clone()).or_default();
        said.extend(words_of(line.split(" --").next().unwrap_or(line)).map(str::to_string));
    }
    file
}

fn files_below(folder: &Path, ending: &str, found: &mut Vec<PathBuf>) {
    let Ok(entries) = fs::read_dir(folder) else { return };
    for entry in entries.map(|e| e.expect("a folder that can be listed").path()) {
        if entry.is_dir() {
            files_below(&entry, ending, found);
        } else if entry.to_string_lossy().ends_with(ending) {
            found.push(entry);
        }
    }
    found.sort();
}

fn read(path: &Path) -> String {
    fs::read_to_string(path).unwrap_or_else(|e| panic!("{}: {e}", path.display()))
}

/// The definition that a word of a file stands for. `◌then◌` is written `then`.
fn meant(word: &str, path: &str, file: &File) -> Option<Definition> {
    let infix = format!("◌{word}◌");
    for name in [word, &infix] {
        if file.words.contains_key(name) {
            return Some((path.to_string(), name.to_string()));
        }
        if let Some(whole) = file.part_of.get(name) {
            return Some((path.to_string(), whole.clone()));
        }
        if let Some(theirs) = file.names.get(name) {
            return Some(theirs.clone());
        }
    }
    let (alias, name) = word.split_once('.')?;
    Some((file.files.get(alias)?.clone(), name.to_string()))
}

/// Functions of the code: the public ones with what their promises say, and the names of all.
struct Code {
    public: Vec<(String, File, Names)>,
    all: Names,
}

fn function_name(line: &str) -> Option<&str> {
    let rest = line.trim_start();
    let rest = rest.strip_prefix("pub ").unwrap_or(rest);
    let rest = rest.strip_prefix("extern \"C\" ").unwrap_or(rest);
    rest.strip_prefix("fn ").map(|r| r.split(|c: char| !(c.is_alphanumeric() || c == '_')).next().unwrap_or(r))
}

/// Whether the crate's root lets others see this function of a module.
fn shows(root: &str, module: &str, name: &str) -> bool {
    let uses = root.lines().filter_map(|l| l.strip_prefix("pub use ")?.trim_end_matches(';').split_once("::"));
    let mut shown = uses.filter(|(from, _)| *from == module).flat_map(|(_, list)| list.trim_matches(['{', '}']).split(','));
    root.contains(&format!("pub mod {module};")) || shown.any(|n| n.trim() == name)
}

fn read_code(folder: &Path, code: &mut Code) {
    let mut paths = Vec::new();
    files_below(&folder.join("src"), ".rt", &mut paths);
    let root = folder.join("src/lib.rt");
    let lib = if root.exists() { read(&root) } else { String::new() };
    for path in paths {
        let module = path.file_stem().unwrap().to_string_lossy().to_string();
        let text = read(&path);
        let lines: Vec<&str> = text.lines().collect();
        for (n, line) in lines.iter().enumerate() {
            let Some(name) = function_name(line) else { continue };
            code.all.insert(name.to_string());
            let open = module == "lib" || shows(&lib, &module, name);
            if !open || !line.trim_start().starts_with("pub ") {
                continue;
            }
            let mut said = Names::new();
            for line in lines[n..].iter().take_while(|l| !l.ends_with('{')) {
                if let Some((_, promise)) = line.split_once("ensures") {
                    said.extend(words_of(promise).map(str::to_string));
                }
            }
            let mut uses = File::default();
            for line in lines.iter().filter_map(|l| l.strip_prefix("ghost use ")) {
                read_use(line, &mut uses);
            }
            code.public.push((name.to_string(), uses, said));
        }
    }
}

/// What stands between backquotes on a page.
fn quoted(page: &str) -> impl Iterator<Item = &str> {
    page.split('`').skip(1).step_by(2)
}

fn main() {
    let mut faults = Vec::new();
    let mut cases = 0;
    let mut files: BTreeMap<String, File> = BTreeMap::new();
    let mut code = Code { public: Vec::new(), all: Names::new() };
    let mut edits = Names::new();
    let mut crates: Vec<PathBuf> = fs::read_dir("crates").expect("the crates").map(|e| e.unwrap().path()).collect();
    crates.sort();
    for folder in &crates {
        let mut paths = Vec::new();
        files_below(&folder.join("specs"), ".antt", &mut paths);
        files_below(&folder.join("proofs"), ".antt", &mut paths);
        for path in paths {
            let name = path.strip_prefix("crates").unwrap().to_string_lossy().to_string();
            files.insert(name, read_antt(&read(&path)));
        }
        read_code(folder, &mut code);
        let mut found = Vec::new();
        files_below(&folder.join("must-fail"), ".edit", &mut found);
        edits.extend(found.iter().map(|p| p.file_stem().unwrap().to_string_lossy().to_string()));
    }

    // from the pages to the crates
    let mut pages: Vec<PathBuf> = vec!["README.md".into()];
    files_below(Path::new("docs"), ".md", &mut pages);
    // it names what was, too
    pages.retain(|page| !page.ends_with("PORT.md"));
    let mut defined: BTreeSet<Definition> = BTreeSet::new();
    for page in &pages {
        for name in quoted(&read(page)) {
            let (path, names) = name.split_once(": ").unwrap_or((name, ""));
            if !path.ends_with(".antt") || !path.contains('/') {
                continue;
            }
            cases += 1;
            let Some(file) = files.get(path) else {
                faults.push(format!("{} names {path}, which is not there", page.display()));
                continue;
            };
            for name in names.split(", ").flat_map(|n| n.split('.')).filter(|n| !n.is_empty()) {
                cases += 1;
                if !file.declared.contains(name) {
                    faults.push(format!("{} names {name} of {path}, which does not declare it", page.display()));
                }
                if page.ends_with("DEFINITIONS.md") {
                    defined.insert((path.to_string(), name.to_string()));
                }
            }
        }
    }
    let promises = read(Path::new("docs/PROMISES.md"));
    let plain = |w: &&str| w.contains(['_', '-']) && w.chars().all(|c| c.is_ascii_alphanumeric() || c == '_' || c == '-');
    let laws: Names = files.values().flat_map(|f| f.declared.iter().cloned()).collect();
    for word in quoted(&promises).filter(plain) {
        cases += 1;
        if ![&edits, &code.all, &laws].iter().any(|set| set.contains(word)) {
            faults.push(format!("docs/PROMISES.md names {word}, which is no edit, function or law"));
        }
    }

    // from the crates to the pages
    let named: Names = quoted(&promises).flat_map(|q| q.split([':', ' ', ','])).map(str::to_string).collect();
    for name in edits.iter().chain(code.public.iter().map(|(name, _, _)| name)) {
        cases += 1;
        if !named.contains(name) {
            faults.push(format!("docs/PROMISES.md does not name {name}"));
        }
    }
    let mut reached: BTreeSet<Definition> = BTreeSet::new();
    let mut pending: Vec<Definition> = Vec::new();
    for (_, uses, said) in &code.public {
        pending.extend(said.iter().filter_map(|w| meant(w, "", uses)));
    }
    while let Some((path, name)) = pending.pop() {
        let Some(file) = files.get(&path) else { continue };
        let name = file.part_of.get(&name).unwrap_or(&name).clone();
        if !path.contains("/specs/") || !reached.insert((path.clone(), name.clone())) {
            continue;
        }
        let Some(words) = file.words.get(&name) else { continue };
        pending.extend(words.iter().filter_map(|w| meant(w, &path, file)));
    }
    for (path, name) in &reached {
        cases += 1;
        if !defined.contains(&(path.clone(), name.clone())) {
            faults.push(format!("docs/DEFINITIONS.md does not name {path}: {name}, which a public promise reaches"));
        }
    }

    // what a reader must believe, and what only functions say of each other, stand apart; the definitions of `whole` and `samples`
    // are reached by theorems, and the form of an image stands whole in one file
    for (path, file) in files.iter().filter(|(path, _)| path.contains("/specs/")) {
        let inside = path.contains("/specs/Inside");
        let other_reasons = path.starts_with("whole/") || path.starts_with("samples/") || path == "table/specs/Form.antt";
        for name in file.words.keys().filter(|name| !name.is_empty()) {
            cases += 1;
            match (inside, reached.contains(&(path.clone(), name.clone()))) {
                (true, true) => faults.push(format!("{path}: {name} stands inside, and a public promise reaches it")),
                (false, false) if !other_reasons => faults.push(format!("{path}: {name} is reached by no public promise, and stands not inside")),
                _ => {}
            }
        }
    }

    for fault in &faults {
        eprintln!("{fault}");
    }
    println!("docs: {cases} names, {} of them definitions that a public promise reaches", reached.len());
    std::process::exit(i32::from(!faults.is_empty()));
}
