//! The comparison: every line goes to just and to the product, over one image.
use crate::{
    dice::Dice,
    fixed,
    image::Tree,
    judge::Judge,
    line,
    lines::{Lines, damage},
    product::Product,
    side::Side,
    tally::Tally,
    trees,
};
use std::io;

/// Lines for each random image.
const LINES: usize = 250;
/// Every so many lines, a damaged copy is sent too.
const DAMAGED: usize = 4;

pub struct Comparison {
    product: Option<Box<dyn Product>>,
    tally: Tally,
    mismatches: usize,
}

impl Comparison {
    pub fn new(product: Option<Box<dyn Product>>) -> Self {
        Self { product, tally: Tally::default(), mismatches: 0 }
    }

    /// Random lines over random images, and damaged copies of them.
    pub fn random(&mut self, seed: u64, count: usize) -> io::Result<()> {
        let images = count.div_ceil(LINES) as u64;
        self.tally.part("random");
        for number in 0..images {
            let (tree, judge, lines) = random_case(seed, number, LINES);
            self.send(&tree, judge, &lines)?;
        }
        self.tally.part("damaged");
        for number in 0..images {
            let (tree, judge, lines) = random_case(seed, number, LINES);
            let dice = &mut Dice::new(!seed ^ number);
            let lines = lines.iter().step_by(DAMAGED).map(|line| damage(dice, line));
            self.send(&tree, judge, &lines.collect::<Vec<Vec<u8>>>())?;
        }
        Ok(())
    }

    /// All lines of up to three words over the small trees.
    pub fn short(&mut self) -> io::Result<()> {
        self.tally.part("short");
        for fixed in fixed::all() {
            self.send(&fixed.tree, Judge::Either, &fixed::lines(&fixed.words))?;
        }
        Ok(())
    }

    pub fn limits(&mut self) -> io::Result<()> {
        self.tally.part("limits");
        self.send(&fixed::wide(), Judge::Either, &fixed::limits())
    }

    /// Prints the counts; true if nothing is wrong.
    pub fn finish(self) -> bool {
        println!("\n{}", self.tally);
        match self.product {
            Some(_) => println!("mismatches {}", self.mismatches),
            None => println!("just's side alone: nothing was compared"),
        }
        let unmet = self.tally.unmet();
        if !unmet.is_empty() {
            println!("never met: {unmet:?}");
        }
        self.mismatches == 0 && unmet.is_empty()
    }

    fn send(&mut self, tree: &Tree, judge: Judge, lines: &[Vec<u8>]) -> io::Result<()> {
        let image = tree.encode();
        let tree = Tree::decode(&image).expect("the image says a tree");
        let side = Side::new(&tree, judge);
        let just = lines.iter().map(|line| side.answer(line)).collect::<Vec<String>>();
        just.iter().for_each(|answer| self.tally.add(answer));
        let Some(product) = &mut self.product else {
            return Ok(());
        };
        let ours = product.answers(&image, judge, lines)?;
        for (line, (just, ours)) in lines.iter().zip(just.iter().zip(&ours)) {
            if just != ours {
                self.mismatch(&image, judge, line, just, ours);
            }
        }
        Ok(())
    }

    fn mismatch(&mut self, image: &[u8], judge: Judge, bytes: &[u8], just: &str, ours: &str) {
        self.mismatches += 1;
        let words = String::from_utf8_lossy(bytes).replace('\0', "⏹");
        println!("mismatch {}: {words}", self.mismatches);
        println!("  image {} {}", judge.name(), line::hex(image));
        println!("  readx {}", line::hex(bytes));
        println!("  just  {just}\n  ours  {ours}");
    }
}

/// The tree, judge and lines of a random image: they depend on the seed and its number alone.
pub fn random_case(seed: u64, number: u64, count: usize) -> (Tree, Judge, Vec<Vec<u8>>) {
    let mut dice = Dice::new(seed.wrapping_mul(1_000_003).wrapping_add(number));
    let tree = trees::random(&mut dice);
    let judge = Judge::ALL[[0, 1, 2, 2][dice.below(4)]];
    let mut lines = Lines { dice: &mut dice, tree: &tree };
    let lines = (0..count).map(|_| lines.line()).collect();
    (tree, judge, lines)
}
