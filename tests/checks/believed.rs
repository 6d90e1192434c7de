//! What a reader must believe: follows the contracts of the public calls, definition by definition,
//! through `crates/*/specs/`. It fails where
//! - a public call has a `requires`, or no `ensures`;
//! - a public call, or the proved table, reaches a definition of a file `Inner*.antt`;
//! - a definition of any other file is reached by none of them.
//!
//! Public are the functions that a crate marked PUBLIC in docs/ARCHITECTURE.md shows to other crates. A
//! definition is its signature with its clauses, or a whole `record` or `data`. Lines are counted without
//! imports, comments and blank lines.

use std::collections::{BTreeMap, HashMap, HashSet, VecDeque};
use std::fs::read_to_string;
use std::path::Path;
use std::sync::OnceLock;

/// How the files of a crate's specs begin that only inner functions' contracts may cite: what names a struct
/// of the code that has an invariant stands apart from what the invariant cites.
const INNER: &str = "Inner";
/// The crate whose one statement stands over all public definitions of its specs.
const TABLE: &str = "proved_table";

fn text_of(path: &str) -> String {
    read_to_string(path).unwrap_or_else(|e| panic!("{path}: {e}"))
}

// ---- words

#[derive(Clone, Debug, PartialEq)]
struct Word {
    text: String,
    /// Stands directly after a point: a field, or a part of a path.
    member: bool,
}

fn is_mark(c: char) -> bool {
    "(){};,⌜⌝λ".contains(c)
}

/// The words of a text without comments: names, and marks of one character. A point that no name
/// follows directly is a mark.
fn words(text: &str) -> Vec<Word> {
    let mut all = Vec::new();
    let chars: Vec<char> = text.chars().collect();
    let (mut i, mut member) = (0, false);
    while i < chars.len() {
        let c = chars[i];
        let start = i;
        i += 1;
        if c.is_whitespace() {
            member = false;
        } else if c == '.' {
            member = chars.get(i).is_some_and(|n| !n.is_whitespace() && !is_mark(*n) && *n != '.');
            if !member {
                all.push(Word { text: ".".into(), member: false });
            }
        } else {
            while !is_mark(c) && i < chars.len() && !chars[i].is_whitespace() && !is_mark(chars[i]) && chars[i] != '.' {
                i += 1;
            }
            all.push(Word { text: chars[start..i].iter().collect(), member });
            member = false;
        }
    }
    all
}

/// The names that some words cite, those that they bind left out.
fn cited(words: &[Word], bound: &[String]) -> Vec<String> {
    let mut names = Vec::new();
    let mut depth = 0;
    let mut scope: Vec<(String, i32)> = bound.iter().map(|name| (name.clone(), -1)).collect();
    let at = |i: usize| words.get(i).map_or("", |word| word.text.as_str());
    let opens = |i: usize| ["(", "{", ";"].contains(&at(i));
    let is_name = |i: usize| i < words.len() && !at(i).starts_with(is_mark) && ![".", ":", "="].contains(&at(i));
    let mut i = 0;
    while i < words.len() {
        let word = &words[i];
        match word.text.as_str() {
            "(" | "{" => depth += 1,
            ")" | "}" => {
                depth -= 1;
                scope.retain(|(_, at)| *at <= depth);
            }
            "λ" => {
                // the binder's names, up to the point; the types among them are cited
                let (mut inner, mut typed) = (0, false);
                while i + 1 < words.len() && at(i + 1) != "." {
                    i += 1;
                    match at(i) {
                        "(" | "{" => (inner, typed) = (inner + 1, false),
                        ")" | "}" => (inner, typed) = (inner - 1, false),
                        ":" if inner > 0 => typed = true,
                        name if typed => names.push(name.to_string()),
                        name => scope.push((name.to_string(), depth)),
                    }
                }
            }
            "let" => scope.push((at(i + 1).to_string(), depth)),
            _ if word.member || !is_name(i) => {}
            name => {
                let mut end = i;
                while is_name(end) && !words[end].member {
                    end += 1;
                }
                // `(x y : T)` binds, and `{ x = .. }` names fields
                let binds = i > 0 && opens(i - 1) && at(end) == ":";
                let label = i > 0 && opens(i - 1) && end == i + 1 && at(end) == "=";
                if binds {
                    scope.extend((i..end).map(|k| (at(k).to_string(), depth - 1)));
                    i = end - 1;
                } else if !label && !scope.iter().any(|(x, _)| x == name) {
                    names.push(name.to_string());
                }
            }
        }
        i += 1;
    }
    names
}

// ---- spec files

/// A module of specs: its crate and its file's name.
type Place = (String, String);

#[derive(Clone)]
enum Import {
    Spec(Place, String),
    /// A type of the code.
    Declared,
}

struct Definition {
    name: String,
    public: bool,
    lines: usize,
    cites: Vec<String>,
}

#[derive(Default)]
struct Module {
    imports: HashMap<String, Import>,
    definitions: Vec<Definition>,
    /// Names, those of a `data`'s constructors and an operator's parts too, to definitions.
    names: HashMap<String, usize>,
}

/// The name itself, and an operator's parts.
fn parts(name: &str) -> Vec<String> {
    let mut all = vec![name.to_string()];
    if name.contains('◌') {
        all.extend(name.split('◌').filter(|part| !part.is_empty()).map(str::to_string));
    }
    all
}

/// The crates of crates.txt.
fn crates() -> &'static [String] {
    static CRATES: OnceLock<Vec<String>> = OnceLock::new();
    CRATES.get_or_init(|| {
        let lines = text_of("crates.txt");
        let lines = lines.lines().filter(|line| !line.starts_with('#')).filter_map(|line| line.split_once(':'));
        lines.map(|(name, _)| name.split_whitespace().next().expect("a crate's name").to_string()).collect()
    })
}

/// Adds the names of `use PATH.{a, b as c}`, where PATH is one of the repository's modules.
fn import(line: &str, file: &str, imports: &mut HashMap<String, Import>) {
    let Some(path) = line.trim().strip_prefix("Rattle.") else { return };
    let path = path.trim_end_matches(';');
    let owner = path.split('.').next().expect("a crate").to_string();
    if !crates().contains(&owner) {
        return; // of the toolchain's library
    }
    let (path, list) =
        path.split_once(".{").unwrap_or_else(|| panic!("{file}: an import without a list of names: {path}"));
    let mut steps = path.split('.').skip(1);
    assert!(steps.next() == Some("specs"), "{file}: an import of what is no spec: {path}");
    let rest: Vec<&str> = steps.collect();
    for entry in list.trim_end_matches('}').split(',').map(str::trim).filter(|entry| !entry.is_empty()) {
        let (name, local) = entry.split_once(" as ").unwrap_or((entry, entry));
        for (name, local) in parts(name).into_iter().zip(parts(local)) {
            let found = match rest[..] {
                ["declared", ..] => Import::Declared,
                [module] => Import::Spec((owner.clone(), module.to_string()), name),
                _ => panic!("{file}: the path {path} cannot be followed"),
            };
            imports.insert(local, found);
        }
    }
}

fn indent(line: &str) -> usize {
    line.len() - line.trim_start().len()
}

/// The line without its comment.
fn code(line: &str) -> &str {
    if line.trim_start().starts_with("--") {
        return "";
    }
    line.split_once(" --").map_or(line, |(code, _)| code).trim_end()
}

const MODIFIERS: [&str; 5] = ["pub", "unfoldable", "abbrev", "opaque", "irreducible"];

/// Statements: a line with the lines that are further in after it, and the brace that closes one.
fn statements(lines: &[String]) -> Vec<Vec<String>> {
    let mut all: Vec<Vec<String>> = Vec::new();
    let base = lines.iter().map(|line| indent(line)).min().unwrap_or(0);
    for line in lines {
        let closes = line.trim_start().starts_with('}');
        if (indent(line) == base && !closes) || all.is_empty() {
            all.push(Vec::new());
        }
        all.last_mut().expect("a statement").push(line.clone());
    }
    all
}

impl Module {
    fn read(file: &str) -> Module {
        let mut module = Module::default();
        let text = text_of(file);
        let lines: Vec<String> =
            text.lines().map(|line| code(line).to_string()).filter(|line| !line.is_empty()).collect();
        module.block(&lines, file, 0);
        module
    }

    /// Reads the declarations of a file or of a `module .. where`, which itself has `extra` lines.
    fn block(&mut self, lines: &[String], file: &str, extra: usize) {
        let mut extra = extra;
        for statement in statements(lines) {
            let joined = statement.join("\n");
            let all = words(&joined);
            if let Some(path) = joined.trim_start().strip_prefix("use ") {
                import(&path.replace('\n', " "), file, &mut self.imports);
                continue;
            }
            if let Some(path) = joined.trim_start().strip_prefix("pub use ") {
                import(&path.replace('\n', " "), file, &mut self.imports);
                continue;
            }
            if ["mod", "infix", "infixl", "infixr"].contains(&all[0].text.as_str()) || joined.starts_with("pub mod ") {
                continue;
            }
            if all[0].text == "unfolding" {
                self.last().lines += statement.len();
                continue;
            }
            if all[0].text == "module" {
                self.block(&statement[1..], file, 1);
                continue;
            }
            let first = all.iter().position(|word| !MODIFIERS.contains(&word.text.as_str())).expect("a name");
            let public = all[..first].iter().any(|word| word.text == "pub");
            match all[first].text.as_str() {
                "record" | "data" => self.group(&statement, &all[first..], public, file, extra),
                _ if all.get(first + 1).is_some_and(|word| word.text == ":") => {
                    self.define(&all[first].text, public, statement.len() + extra, file);
                    let cites = cited(&all[first + 2..], &[]);
                    self.last().cites.extend(cites);
                }
                _ => self.clause(&all, statement.len(), file),
            }
            extra = 0;
        }
    }

    fn last(&mut self) -> &mut Definition {
        self.definitions.last_mut().expect("a definition")
    }

    fn define(&mut self, name: &str, public: bool, lines: usize, file: &str) {
        let definition = Definition { name: name.to_string(), public, lines, cites: Vec::new() };
        self.definitions.push(definition);
        for part in parts(name) {
            let before = self.names.insert(part, self.definitions.len() - 1);
            assert!(before.is_none(), "{file}: {name} is defined twice");
        }
    }

    /// A clause of the definition last seen: its left side binds all that is no constructor.
    fn clause(&mut self, all: &[Word], lines: usize, file: &str) {
        assert!(!self.definitions.is_empty(), "{file}: a clause without a signature: {}", all[0].text);
        let mut depth = 0;
        let equals = all.iter().position(|word| {
            match word.text.as_str() {
                "(" | "{" => depth += 1,
                ")" | "}" => depth -= 1,
                _ => {}
            }
            depth == 0 && word.text == "="
        });
        let (left, right) = all.split_at(equals.unwrap_or_else(|| panic!("{file}: not understood: {}", all[0].text)));
        let left: Vec<String> = left.iter().map(|word| word.text.clone()).collect();
        let (constructors, bound): (Vec<String>, Vec<String>) = left.into_iter().partition(|name| {
            let own = self.names.get(name).map(|&k| self.definitions[k].name != *name);
            own.unwrap_or_else(|| self.imports.contains_key(name))
        });
        let cites = cited(&right[1..], &bound);
        let last = self.last();
        last.cites.extend(constructors);
        last.cites.extend(cites);
        last.lines += lines;
    }

    /// A `record` or `data`.
    fn group(&mut self, statement: &[String], all: &[Word], public: bool, file: &str, extra: usize) {
        let head_end = all.iter().position(|word| word.text == "where").unwrap_or(all.len());
        let head = &all[1..head_end];
        self.define(&head[0].text, public, statement.len() + extra, file);
        let mine = self.definitions.len() - 1;
        let mut bound: Vec<String> = Vec::new();
        let mut open = None;
        for (i, word) in head.iter().enumerate() {
            match word.text.as_str() {
                "(" | "{" => open = Some(i),
                ":" => {
                    bound.extend(open.take().into_iter().flat_map(|k| head[k + 1..i].iter().map(|w| w.text.clone())))
                }
                _ => {}
            }
        }
        let mut cites = cited(&head[1..], &bound);
        let body_at =
            statement.iter().position(|line| line.trim_end().ends_with("where")).map_or(statement.len(), |k| k + 1);
        for part in statements(&statement[body_at..]) {
            let field = words(&part.join("\n"));
            let first = field.iter().position(|word| word.text != "pub").expect("a name");
            if all[0].text == "data" {
                self.names.insert(field[first].text.clone(), mine);
            } else {
                bound.push(field[first].text.clone());
            }
            cites.extend(cited(&field[first + 1..], &bound));
        }
        self.last().cites.extend(cites);
    }
}

// ---- the public calls

struct Call {
    name: String,
    requires: usize,
    ensures: usize,
    cites: Vec<String>,
}

/// Where the bracket at `open` is closed.
fn closing(text: &[char], open: usize) -> usize {
    let mut depth = 0;
    for (i, c) in text.iter().enumerate().skip(open) {
        match c {
            '(' | '{' | '[' => depth += 1,
            ')' | '}' | ']' => depth -= 1,
            _ => {}
        }
        if depth == 0 {
            return i;
        }
    }
    panic!("a bracket is not closed");
}

/// The word at a place, and the place after it.
fn word_at(text: &[char], mut i: usize) -> (String, usize) {
    while text.get(i).is_some_and(|c| c.is_whitespace()) {
        i += 1;
    }
    let start = i;
    while text.get(i).is_some_and(|c| c.is_alphanumeric() || *c == '_') {
        i += 1;
    }
    (text[start..i].iter().collect(), i)
}

/// The function whose name starts at a place: its clauses stand between its type and its body.
fn call(text: &[char], at: usize, file: &str) -> Call {
    let (name, mut i) = word_at(text, at);
    while text[i] != '(' {
        i += 1;
    }
    let end = closing(text, i);
    let parameters: String = text[i + 1..end].iter().collect();
    let bound: Vec<String> = parameters
        .split(',')
        .filter_map(|part| part.split_once(':'))
        .map(|(name, _)| name.trim().trim_start_matches("mut ").to_string())
        .collect();
    let mut found = Call { name, requires: 0, ensures: 0, cites: Vec::new() };
    i = end + 1;
    loop {
        let (word, after) = word_at(text, i);
        if word == "requires" || word == "ensures" {
            i = after;
            while text[i] != '{' {
                i += 1;
            }
            let end = closing(text, i);
            let clause: String = text[i + 1..end].iter().collect();
            assert!(!clause.contains("Rattle."), "{file}: a contract names a module by its path: import it");
            found.cites.extend(cited(&words(&clause), &bound));
            *(if word == "requires" { &mut found.requires } else { &mut found.ensures }) += 1;
            i = end + 1;
        } else if word.is_empty() {
            match text.get(after) {
                Some('{') | None => return found,
                Some('[' | '(') => i = closing(text, after) + 1,
                _ => i = after + 1,
            }
        } else {
            i = after;
        }
    }
}

/// A public call with its path and the names that its file imports.
type Found = (String, Call, HashMap<String, Import>);

/// The functions that a source file shows to other crates, its public modules' too, and what it takes over
/// from the others by `pub use`.
fn calls(file: &str, path: &str) -> Vec<Found> {
    let text = text_of(file);
    let lines: Vec<&str> = text.lines().filter(|line| !line.trim_start().starts_with("//")).collect();
    let source = lines.join("\n");
    let mut imports = HashMap::new();
    for statement in format!("\n{source}").split("\nghost use ").skip(1) {
        let path = statement.split(';').next().expect("an import");
        import(&path.replace('\n', " "), file, &mut imports);
    }
    let chars: Vec<char> = source.chars().collect();
    let mut found = Vec::new();
    for (at, _) in source.match_indices("fn ") {
        let before = source[..at].lines().last().unwrap_or("");
        if before == "pub " || before == "pub extern \"C\" " {
            let name_at = source[..at].chars().count() + 3;
            found.push((path.to_string(), call(&chars, name_at, file), imports.clone()));
        }
    }
    let folder = Path::new(file).parent().expect("a folder").display().to_string();
    for line in lines {
        if let Some(name) = line.strip_prefix("pub mod ").and_then(|rest| rest.strip_suffix(';')) {
            found.extend(calls(&format!("{folder}/{name}.rt"), &format!("{path}::{name}")));
        }
        // one name, or several in braces
        let taken = line.strip_prefix("pub use ").and_then(|rest| rest.strip_suffix(';')?.rsplit_once("::"));
        if let Some((module, names)) = taken {
            let inner = format!("{folder}/{module}.rt");
            if Path::new(&inner).exists() {
                let names: Vec<&str> = names.trim_matches(['{', '}']).split(',').map(str::trim).collect();
                found.extend(calls(&inner, path).into_iter().filter(|(_, call, _)| names.contains(&call.name.as_str())));
            }
        }
    }
    found
}

// ---- what is reached

struct Specs {
    modules: BTreeMap<Place, Module>,
}

fn shown((owner, module): &Place, name: &str) -> String {
    format!("{name} ({owner}/specs/{module}.antt)")
}

impl Specs {
    fn read(crates: &[String]) -> Specs {
        let mut modules = BTreeMap::new();
        for owner in crates {
            let Ok(folder) = std::fs::read_dir(format!("crates/{owner}/specs")) else { continue };
            for entry in folder {
                let path = entry.expect("a file").path();
                let module = path.file_stem().expect("a name").to_string_lossy().into_owned();
                if module != "Lib" {
                    modules.insert((owner.clone(), module), Module::read(&path.display().to_string()));
                }
            }
        }
        Specs { modules }
    }

    /// The definition that a name stands for in a module.
    fn find(&self, place: &Place, name: &str) -> Option<(Place, usize)> {
        let module = &self.modules[place];
        match (module.names.get(name), module.imports.get(name)) {
            (Some(k), _) => Some((place.clone(), *k)),
            (None, Some(import)) => self.follow(import, &shown(place, name)),
            (None, None) => None,
        }
    }

    /// The definition that is imported; `from` says where.
    fn follow(&self, import: &Import, from: &str) -> Option<(Place, usize)> {
        match import {
            Import::Declared => None,
            Import::Spec(place, name) => {
                let file = format!("crates/{}/specs/{}.antt", place.0, place.1);
                assert!(self.modules.contains_key(place), "{from}: there is no {file}");
                let found = self.find(place, name);
                assert!(found.is_some(), "{from}: {file} does not define {name}");
                found
            }
        }
    }

    fn name(&self, (place, k): &(Place, usize)) -> String {
        shown(place, &self.modules[place].definitions[*k].name)
    }
}

fn main() {
    let crates = crates();
    let public: Vec<String> = text_of("docs/ARCHITECTURE.md")
        .lines()
        .filter(|line| line.starts_with("| ") && line.contains("| PUBLIC: "))
        .map(|line| line.split('`').nth(1).expect("a crate's name").to_string())
        .collect();
    assert!(!public.is_empty(), "docs/ARCHITECTURE.md marks no crate PUBLIC");
    let specs = Specs::read(crates);
    let mut failures: Vec<String> = Vec::new();

    // the roots: each public call, and the proved table
    let mut roots: Vec<(String, Vec<(Place, usize)>)> = Vec::new();
    for owner in &public {
        let found = calls(&format!("crates/{owner}/src/lib.rt"), owner);
        assert!(!found.is_empty(), "the crate {owner} has no public function");
        for (path, call, imports) in found {
            let name = format!("{path}::{}", call.name);
            if call.requires > 0 {
                failures.push(format!("{name} has a `requires`"));
            }
            if call.ensures == 0 {
                failures.push(format!("{name} has no `ensures`"));
            }
            let cites = call.cites.iter().filter_map(|cite| specs.follow(imports.get(cite)?, &name)).collect();
            roots.push((name, cites));
        }
    }
    let number = roots.len();
    let tables: Vec<(Place, usize)> = specs
        .modules
        .iter()
        .filter(|((owner, _), _)| owner == TABLE)
        .flat_map(|(place, module)| {
            let all = module.definitions.iter().enumerate().filter(|(_, d)| d.public);
            all.map(|(k, _)| (place.clone(), k)).collect::<Vec<_>>()
        })
        .collect();
    roots.push((format!("the statement of {TABLE}"), tables));

    // what they reach, each with the way to it; the calls first
    let mut way: HashMap<(Place, usize), String> = HashMap::new();
    let mut by_table: HashSet<(Place, usize)> = HashSet::new();
    for (i, (root, cites)) in roots.iter().enumerate() {
        let mut queue: VecDeque<((Place, usize), String)> = cites.iter().map(|c| (c.clone(), root.clone())).collect();
        while let Some((definition, from)) = queue.pop_front() {
            if way.contains_key(&definition) {
                continue;
            }
            let path = format!("{from} -> {}", specs.name(&definition));
            let (place, k) = &definition;
            if place.1.starts_with(INNER) {
                failures.push(format!("reaches what is not to be believed: {path}"));
            }
            for cite in &specs.modules[place].definitions[*k].cites {
                queue.extend(specs.find(place, cite).map(|next| (next, path.clone())));
            }
            if i >= number {
                by_table.insert(definition.clone());
            }
            way.insert(definition, path);
        }
    }

    // the lines, and what nobody reaches
    let mut unreached: BTreeMap<&Place, Vec<&str>> = BTreeMap::new();
    let mut lines: BTreeMap<&str, [usize; 3]> = BTreeMap::new();
    for (place, module) in &specs.modules {
        let sums = lines.entry(&place.0).or_default();
        for (k, definition) in module.definitions.iter().enumerate() {
            let key = (place.clone(), k);
            let column = match (way.contains_key(&key), by_table.contains(&key)) {
                (true, false) => 0,
                (true, true) => 1,
                (false, _) => 2,
            };
            sums[column] += definition.lines;
            if column == 2 && !place.1.starts_with(INNER) {
                unreached.entry(place).or_default().push(&definition.name);
            }
        }
    }
    for ((owner, module), names) in &unreached {
        failures.push(format!("{owner}/specs/{module}.antt: no public contract reaches {}", names.join(", ")));
    }
    println!("believed: {number} public calls of {}, followed through crates/*/specs/", public.join(", "));
    println!("believed: lines of specs that they reach, that only {TABLE} reaches, and that are inner:");
    let mut total = [0; 3];
    for owner in crates {
        let Some(sums) = lines.get(owner.as_str()) else { continue };
        println!("believed: {owner:16} {:5} {:5} {:5}", sums[0], sums[1], sums[2]);
        (0..3).for_each(|i| total[i] += sums[i]);
    }
    println!("believed: {:16} {:5} {:5} {:5}", "in all", total[0], total[1], total[2]);
    for failure in &failures {
        eprintln!("believed: {failure}");
    }
    if !failures.is_empty() {
        eprintln!("believed: FAILED");
        std::process::exit(1);
    }
    println!("believed: ok");
}
