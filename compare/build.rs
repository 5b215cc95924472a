//! Finds just's sources in JUST_SRC, cuts the items that the parser calls out of its large files,
//! and, for the feature `marked`, writes a copy of all of it that counts the branches taken.
use std::{
    env, fs,
    path::{Path, PathBuf},
};

/// Files that are compiled whole.
const WHOLE: [&str; 13] = [
    "alias",
    "disabled",
    "invocation_parser",
    "modulepath",
    "name",
    "namepath",
    "parameter",
    "parameter_kind",
    "positional",
    "switch",
    "table",
    "token",
    "value",
];

/// Files of which only these items are cut out.
const CUT: [(&str, &[&str]); 3] = [
    (
        "justfile",
        &[
            "pub(crate) struct Justfile<",
            "fn find_suggestion(",
            "pub(crate) fn suggest_recipe(",
            "pub(crate) fn suggest_submodule(",
            "pub(crate) fn recipe(",
            "pub(crate) fn submodule(",
            "pub(crate) fn name(",
            "impl<'src> Keyed<'src> for Justfile<",
        ],
    ),
    (
        "recipe",
        &[
            "pub(crate) struct Recipe<",
            "pub(crate) fn name(",
            "pub(crate) fn recipe_path(",
            "pub(crate) fn min_arguments(",
            "pub(crate) fn check_can_be_default_recipe(",
            "pub(crate) fn is_public(",
            "impl<'src, D> Keyed<'src> for Recipe<",
        ],
    ),
    ("lexer", &["pub(crate) fn is_identifier_start(", "pub(crate) fn is_identifier_continue("]),
];

/// Files whose branches are those of the port.
const MARKED: [&str; 8] = [
    "invocation_parser",
    "switch",
    "modulepath",
    "parameter",
    "parameter_kind",
    "justfile",
    "recipe",
    "lexer",
];

/// Functions of those files that are not ported: the parser does not call them, or only to word an error.
const NOT_PORTED: [&str; 13] = [
    "fn starts_with(",
    "fn serialize<",
    "fn deserialize<",
    "fn from(",
    "fn fmt(",
    "fn prefix(",
    "fn find_suggestion(",
    "fn suggest_recipe(",
    "fn suggest_submodule(",
    "fn recipe_path(",
    "fn is_public(",
    "fn key(",
    "fn name(",
];

fn main() {
    println!("cargo::rerun-if-env-changed=JUST_SRC");
    println!("cargo::rerun-if-env-changed=DOTMUSLIN_LIB");
    println!("cargo::rustc-check-cfg=cfg(library)");
    let source = PathBuf::from(env::var("JUST_SRC").expect("JUST_SRC names src/ of just 1.58.0"));
    let source = fs::canonicalize(source).expect("JUST_SRC is a folder");
    let out = PathBuf::from(env::var("OUT_DIR").unwrap());
    let marked = env::var("CARGO_FEATURE_MARKED").is_ok();

    let mut marks = Marks::default();
    let mut print = Print::default();
    for name in WHOLE {
        let text = read(&source, name, &mut print);
        if marked {
            fs::write(out.join(format!("{name}.rs")), marks.mark(name, &text)).unwrap();
        }
    }
    for (name, items) in CUT {
        let text = cut(name, &read(&source, name, &mut print), items);
        let text = if marked { marks.mark(name, &text) } else { text };
        fs::write(out.join(format!("cut_{name}.rs")), text).unwrap();
    }
    fs::write(out.join("marks.txt"), marks.names.join("\n")).unwrap();

    let folder = if marked { &out } else { &source };
    println!("cargo::rustc-env=JUST_DIR={}", folder.display());
    println!("cargo::rustc-env=JUST_PRINT={:016x}", print.0);
    link();
}

/// Links the product's static library, where one is named.
fn link() {
    let Ok(library) = env::var("DOTMUSLIN_LIB") else {
        return;
    };
    let library = fs::canonicalize(library).expect("DOTMUSLIN_LIB is a static library");
    let stem = library.file_stem().unwrap().to_str().unwrap();
    println!("cargo::rerun-if-changed={}", library.display());
    println!("cargo::rustc-link-search=native={}", library.parent().unwrap().display());
    println!("cargo::rustc-link-lib=static={}", stem.strip_prefix("lib").unwrap());
    println!("cargo::rustc-cfg=library");
}

fn read(source: &Path, name: &str, print: &mut Print) -> String {
    let path = source.join(format!("{name}.rs"));
    println!("cargo::rerun-if-changed={}", path.display());
    let text = fs::read_to_string(&path).unwrap_or_else(|e| panic!("{}: {e}", path.display()));
    print.add(text.as_bytes());
    text
}

/// A fingerprint (FNV-1a) of the files used, shown with each result.
struct Print(u64);

impl Default for Print {
    fn default() -> Self {
        Self(0xcbf2_9ce4_8422_2325)
    }
}

impl Print {
    fn add(&mut self, bytes: &[u8]) {
        for &byte in bytes {
            self.0 = (self.0 ^ u64::from(byte)).wrapping_mul(0x100_0000_01b3);
        }
    }
}

/// The items that start with these words, verbatim, each inside the header of its own `impl`.
fn cut(name: &str, text: &str, items: &[&str]) -> String {
    let lines = text.lines().collect::<Vec<&str>>();
    let mut out = String::from("use super::*;\n");
    for item in items {
        let (start, end) = find(&lines, item).unwrap_or_else(|| panic!("{name}.rs has no `{item}`"));
        let body = lines[start..=end].join("\n");
        if lines[start].starts_with(' ') {
            let header = lines[..start].iter().rfind(|l| l.starts_with("impl")).unwrap();
            out += &format!("\n{header}\n{body}\n}}\n");
        } else {
            out += &format!("\n{body}\n");
        }
    }
    out
}

/// First and last line of an item, with the attributes before it. The sources are laid out by
/// rustfmt, so an item ends at the next closing brace of its own indentation.
fn find(lines: &[&str], item: &str) -> Option<(usize, usize)> {
    let at = lines.iter().position(|l| l.trim_start().starts_with(item))?;
    let indent = lines[at].len() - lines[at].trim_start().len();
    let close = format!("{}}}", " ".repeat(indent));
    let end = at + lines[at..].iter().position(|l| *l == close)?;
    let before = lines[..at].iter().rev().take_while(|l| l.trim_start().starts_with("#[")).count();
    Some((at - before, end))
}

/// The function in which a line stands.
#[derive(Default)]
struct Function {
    name: String,
    start: usize,
    ported: bool,
}

impl Function {
    fn new(code: &str, start: usize) -> Self {
        let name = code.split_once("fn ").unwrap().1;
        Self {
            name: name.split(['(', '<']).next().unwrap().into(),
            start,
            ported: !NOT_PORTED.iter().any(|f| code.contains(f)),
        }
    }
}

/// Puts a call that counts into each branch of a text.
#[derive(Default)]
struct Marks {
    names: Vec<String>,
}

impl Marks {
    fn mark(&mut self, file: &str, text: &str) -> String {
        if !MARKED.contains(&file) {
            return text.into();
        }
        let mut out = String::new();
        let mut function = Function::default();
        for (number, line) in text.lines().enumerate() {
            let code = line.trim();
            let is_code = !code.starts_with("//");
            if is_code && code.contains("fn ") {
                function = Function::new(code, number);
            }
            if is_code && function.ported {
                let place = format!("{file} {} +{}", function.name, number - function.start);
                out += &self.mark_line(&place, line);
            } else {
                out += line;
            }
            out += "\n";
        }
        out
    }

    fn mark_line(&mut self, place: &str, line: &str) -> String {
        let code = line.trim();
        if let Some(condition) = plain_condition(code) {
            let marked = self.mark_condition(place, condition);
            return line.replacen(condition, &marked, 1);
        }
        if let Some(condition) = code.strip_prefix("&& ").filter(|c| !c.ends_with('{')) {
            return line.replacen(condition, &self.both(place, condition), 1);
        }
        if opens_block(code) {
            return format!("{line} crate::marks::hit({});", self.name(place, code));
        }
        line.into()
    }

    /// Each operand of a condition counts both its answers.
    fn mark_condition(&mut self, place: &str, condition: &str) -> String {
        let operator = if condition.contains(" || ") { " || " } else { " && " };
        condition
            .split(operator)
            .map(|operand| self.both(place, operand))
            .collect::<Vec<String>>()
            .join(operator)
    }

    fn both(&mut self, place: &str, operand: &str) -> String {
        let yes = self.name(place, &format!("{operand} is true"));
        let no = self.name(place, &format!("{operand} is false"));
        format!("crate::marks::both({yes}, {no}, {operand})")
    }

    fn name(&mut self, place: &str, what: &str) -> usize {
        self.names.push(format!("{place} {what}"));
        self.names.len() - 1
    }
}

/// The condition of an `if` that binds nothing.
fn plain_condition(code: &str) -> Option<&str> {
    let rest = &code[code.find("if ")?..];
    let before = &code[..code.len() - rest.len()];
    let starts = ["", "} else ", "= "].iter().any(|s| before == *s || before.ends_with("= "));
    let condition = rest.strip_prefix("if ")?;
    let condition = condition.split_once(" {")?.0;
    (starts && !condition.starts_with("let ")).then_some(condition)
}

/// Whether a line opens a block of statements.
fn opens_block(code: &str) -> bool {
    let opens = ["if let ", "else {", "while let ", "for ", "fn ", "loop {"];
    code == "{" || code.ends_with('{') && !code.starts_with("impl") && opens.iter().any(|o| code.contains(o))
}
