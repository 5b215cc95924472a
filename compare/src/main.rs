//! Compares the product's reader with just's parser. See README.md.
mod bench;
mod comparison;
mod dice;
mod examples;
mod fixed;
mod grow;
mod image;
mod judge;
mod just;
mod line;
mod lines;
mod marks;
mod product;
mod replay;
mod side;
mod tally;
mod trees;

use comparison::Comparison;
use product::{Product, Program};
use std::{error::Error, process::ExitCode};

const USAGE: &str = "\
compare run [--seed N] [--lines N] [--program FILE]
compare replay CALLS ANSWERS [--seed N]     (built with the feature `marked`)
compare check CALLS ANSWERS [--program FILE]
compare ask JUDGE IMAGE LINE                (both in hexadecimal digits)
compare bench

The product is the library named by DOTMUSLIN_LIB at build time, or a program; without either,
just's side runs alone.";

struct Options {
    seed: u64,
    lines: usize,
    product: Option<Box<dyn Product>>,
    words: Vec<String>,
}

fn options(mut arguments: impl Iterator<Item = String>) -> Result<Options, Box<dyn Error>> {
    let mut options = Options { seed: 1, lines: 1_000_000, product: library(), words: Vec::new() };
    while let Some(word) = arguments.next() {
        let mut value = || arguments.next().ok_or(USAGE);
        match word.as_str() {
            "--seed" => options.seed = value()?.parse()?,
            "--lines" => options.lines = value()?.parse()?,
            "--program" => options.product = Some(Box::new(Program { path: value()?.into() })),
            _ => options.words.push(word),
        }
    }
    Ok(options)
}

#[cfg(library)]
fn library() -> Option<Box<dyn Product>> {
    Some(Box::new(product::Library))
}

#[cfg(not(library))]
fn library() -> Option<Box<dyn Product>> {
    None
}

fn run(options: Options) -> Result<bool, Box<dyn Error>> {
    println!("just's files: fingerprint {}", env!("JUST_PRINT"));
    println!("examples as documented: {}", examples::check());
    let side = if options.product.is_some() { "both sides" } else { "just's side alone" };
    println!("seed {} lines {} {side}", options.seed, options.lines);
    let mut comparison = Comparison::new(options.product);
    comparison.random(options.seed, options.lines)?;
    comparison.short()?;
    comparison.limits()?;
    Ok(comparison.finish())
}

fn replay(seed: u64, calls: &str, answers: &str) -> Result<bool, Box<dyn Error>> {
    if !cfg!(feature = "marked") {
        return Err("built without the feature `marked`".into());
    }
    println!("seed {seed}");
    let list = replay::List::collect(seed);
    list.write(calls, answers)?;
    Ok(list.report())
}

fn ask(judge: &str, image: &str, bytes: &str) -> Option<String> {
    let tree = image::Tree::decode(&line::unhex(image)?)?;
    let side = side::Side::new(&tree, judge::Judge::named(judge)?);
    Some(side.answer(&line::unhex(bytes)?))
}

fn start() -> Result<bool, Box<dyn Error>> {
    let options = options(std::env::args().skip(1))?;
    let words = options.words.iter().map(String::as_str).collect::<Vec<&str>>();
    match words.as_slice() {
        ["run"] => run(options),
        ["replay", calls, answers] => replay(options.seed, calls, answers),
        ["check", calls, answers] => Ok(replay::check(calls, answers, options.product)? == 0),
        ["ask", judge, image, line] => {
            println!("{}", ask(judge, image, line).ok_or(USAGE)?);
            Ok(true)
        }
        ["bench"] => {
            bench::run();
            Ok(true)
        }
        _ => Err(USAGE.into()),
    }
}

fn main() -> ExitCode {
    match start() {
        Ok(true) => ExitCode::SUCCESS,
        Ok(false) => ExitCode::FAILURE,
        Err(error) => {
            eprintln!("{error}");
            ExitCode::from(2)
        }
    }
}
