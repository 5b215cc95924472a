//! The replay list: a sample of just's answers, with every refusal and every branch of the port.
use crate::{
    comparison::random_case, fixed, image::Tree, judge::Judge, line, marks, product::Product, side::Side,
    tally::Tally,
};
use std::{
    collections::{BTreeMap, BTreeSet},
    fs, io,
};

/// Cases with the same outcome and the same branches that are kept in all.
const ALIKE: usize = 2;
/// The same for lines that overstep a limit: these never reach the parser.
const ALIKE_OVER_LIMIT: usize = 12;
const OF_ONE_IMAGE: usize = 40;
const IMAGES: u64 = 80;
const CANDIDATES: usize = 1500;
/// Larger images are left out, so that the list stays small.
const IMAGE_BYTES: usize = 1500;

/// Branches of just's text that no call of the parser takes, and why.
const NEVER: [(&str, &str); 3] = [
    ("path.len() == 1 is false", "the parser hands a single word to Modulepath::try_from"),
    ("modulepath try_from +14 } else {", "the same"),
    (
        "justfile submodule +6 } else {",
        "the target of a module alias is a path of modules, with no alias in it",
    ),
];

#[derive(Default)]
pub struct List {
    /// a call a line
    calls: String,
    /// the answer to each
    answers: String,
    cases: usize,
    tally: Tally,
    seen: BTreeMap<(String, Vec<usize>), usize>,
    branches: BTreeSet<usize>,
}

impl List {
    /// Collects cases over the fixed trees and over random images.
    pub fn collect(seed: u64) -> Self {
        let mut list = Self::default();
        list.tally.part("cases");
        for fixed in fixed::all() {
            let lines = fixed::lines(&fixed.words);
            list.add(&fixed.tree, Judge::Either, &lines, usize::MAX);
        }
        list.add(&fixed::wide(), Judge::Either, &fixed::limits(), usize::MAX);
        for number in 0..IMAGES {
            let (tree, judge, lines) = random_case(seed, number, CANDIDATES);
            if tree.encode().len() <= IMAGE_BYTES {
                list.add(&tree, judge, &lines, OF_ONE_IMAGE);
            }
        }
        list
    }

    fn add(&mut self, tree: &Tree, judge: Judge, lines: &[Vec<u8>], most: usize) {
        let image = tree.encode();
        let tree = Tree::decode(&image).unwrap();
        let side = Side::new(&tree, judge);
        let mut kept = 0;
        for bytes in lines {
            marks::drain();
            side.probe(bytes);
            let branches = marks::drain();
            let answer = side.answer(bytes);
            if kept < most && self.is_wanted(&answer, &branches) {
                if kept == 0 {
                    self.image(&tree, judge, &image);
                }
                self.case(bytes, &answer, branches);
                kept += 1;
            }
        }
    }

    /// Whether few cases like it are in the list.
    fn is_wanted(&mut self, answer: &str, branches: &[usize]) -> bool {
        let number = answer.split(' ').take(2).collect::<String>();
        let most = if branches.is_empty() { ALIKE_OVER_LIMIT } else { ALIKE };
        let seen = self.seen.entry((number, branches.into())).or_default();
        *seen += 1;
        *seen <= most
    }

    fn image(&mut self, tree: &Tree, judge: Judge, image: &[u8]) {
        let sizes = [tree.modules.len(), tree.rows.len(), tree.recipes.len(), tree.patterns.len()];
        let sizes = sizes.map(|n| n.to_string()).join(" ");
        self.calls += &format!("image {} {}\n", judge.name(), line::hex(image));
        self.answers += &format!("image ok {sizes}\n");
    }

    fn case(&mut self, bytes: &[u8], answer: &str, branches: Vec<usize>) {
        self.calls += format!("readx {}", line::hex(bytes)).trim_end();
        self.calls += "\n";
        self.answers += answer;
        self.answers += "\n";
        self.cases += 1;
        self.tally.add(answer);
        self.branches.extend(branches);
    }

    pub fn write(&self, calls: &str, answers: &str) -> io::Result<()> {
        fs::write(calls, &self.calls)?;
        fs::write(answers, &self.answers)
    }

    /// Prints what is in the list; true if every refusal and every branch is.
    pub fn report(&self) -> bool {
        println!("{}", self.tally);
        println!("cases {} bytes {}", self.cases, self.calls.len() + self.answers.len());
        println!("branches {} of {}", self.branches.len(), marks::NAMES.len());
        let all = 0..marks::NAMES.len();
        let missed = all.filter(|mark| !self.branches.contains(mark)).map(|mark| marks::NAMES[mark]);
        let unexplained = missed.filter(|name| !is_explained(name)).count();
        self.tally.unmet().is_empty() && unexplained == 0
    }
}

/// Says that a branch was not taken, and why it cannot be; false if there is no reason.
fn is_explained(branch: &str) -> bool {
    let reason = NEVER.iter().find(|(name, _)| branch.ends_with(name)).map(|(_, why)| *why);
    println!("not taken: {branch} ({})", reason.unwrap_or("NO REASON"));
    reason.is_some()
}

/// Replays a list on just's unchanged text, and on the product if there is one; the mismatches.
pub fn check(calls: &str, answers: &str, mut product: Option<Box<dyn Product>>) -> io::Result<usize> {
    let (calls, answers) = (fs::read_to_string(calls)?, fs::read_to_string(answers)?);
    assert_eq!(calls.lines().count(), answers.lines().count(), "each call has its answer");
    let pairs = calls.lines().zip(answers.lines()).collect::<Vec<(&str, &str)>>();
    let mut cases = 0;
    let mut mismatches = 0;
    for part in pairs.chunk_by(|_, next| !next.0.starts_with("image ")) {
        let part = Part::parse(part).ok_or_else(|| io::Error::other("no replay list"))?;
        cases += part.lines.len();
        mismatches += part.mismatches("just", &part.just());
        if let Some(product) = &mut product {
            mismatches += part.mismatches("ours", &product.answers(&part.image, part.judge, &part.lines)?);
        }
    }
    println!("cases {cases} mismatches {mismatches}");
    Ok(mismatches)
}

/// The lines over one image, with the listed answers.
struct Part<'a> {
    judge: Judge,
    image: Vec<u8>,
    lines: Vec<Vec<u8>>,
    listed: Vec<&'a str>,
}

impl<'a> Part<'a> {
    fn parse(pairs: &[(&str, &'a str)]) -> Option<Self> {
        let ((head, _), cases) = pairs.split_first()?;
        let (judge, image) = head.strip_prefix("image ")?.split_once(' ')?;
        let read = |(call, _): &(&str, &str)| line::unhex(call.strip_prefix("readx")?.trim());
        Some(Self {
            judge: Judge::named(judge)?,
            image: line::unhex(image)?,
            lines: cases.iter().map(read).collect::<Option<Vec<Vec<u8>>>>()?,
            listed: cases.iter().map(|(_, answer)| *answer).collect(),
        })
    }

    fn just(&self) -> Vec<String> {
        let tree = Tree::decode(&self.image).expect("the image says a tree");
        let side = Side::new(&tree, self.judge);
        self.lines.iter().map(|line| side.answer(line)).collect()
    }

    fn mismatches(&self, side: &str, answers: &[String]) -> usize {
        let mut mismatches = 0;
        for ((line, listed), got) in self.lines.iter().zip(&self.listed).zip(answers) {
            if listed != got {
                println!("readx {}\n  listed {listed}\n  {side}   {got}", line::hex(line));
                mismatches += 1;
            }
        }
        mismatches
    }
}
