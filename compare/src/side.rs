//! just's side: its answer to a line, in the program's format.
use crate::{
    grow::{Grower, PARAMETERS},
    image::{ABSENT_MODULE, Tree},
    judge::Judge,
    just::{
        Error, Invocation, InvocationParser, Justfile, Modulepath, Parameter, Positional, RunResult, Switch,
        invocation_parser::order,
    },
    line,
};
use std::{collections::BTreeSet, fmt::Write};

pub struct Side<'src> {
    tree: &'src Tree,
    root: Justfile<'src>,
    lax: Justfile<'src>,
}

/// The layer, word and figures of a refusal.
struct Told(usize, usize, usize, usize);

impl<'src> Side<'src> {
    pub fn new(tree: &'src Tree, judge: Judge) -> Self {
        let grow = |lax| Grower { tree, judge, lax }.root();
        Self { tree, root: grow(false), lax: grow(true) }
    }

    pub fn root(&self) -> &Justfile<'src> {
        &self.root
    }

    pub fn answer(&self, line: &[u8]) -> String {
        match line::cut(line) {
            Ok(words) => self.answer_words(&words),
            Err(refusal) => refusal,
        }
    }

    /// Only parses a line, so that the branches taken can be counted.
    pub fn probe(&self, line: &[u8]) {
        if let Ok(words) = line::cut(line) {
            let _ = InvocationParser::parse_invocations(&self.root, &words);
        }
    }

    fn answer_words(&self, words: &[&str]) -> String {
        let whole = InvocationParser::parse_invocations(&self.root, words);
        let mut orders = Vec::new();
        let mut first = 0;
        loop {
            let (result, next) = order(&self.root, words, first);
            match result {
                Ok(invocation) => orders.push((first, next - first, invocation)),
                Err(error) => {
                    assert_eq!(whole.err(), Some(error), "parse_invocations gives the same error");
                    return self.refused(words, first);
                }
            }
            first = next;
            if next == words.len() {
                break;
            }
        }
        check_orders(&whole, &orders);
        check_front(words);
        reading(&orders)
    }

    /// The refusal of the order that starts at this word.
    fn refused(&self, words: &[&str], first: usize) -> String {
        let refused = Refused { side: self, words, first };
        let (number, Told(layer, word, a, b)) = refused.told();
        format!("refused {number} {layer} {word} {a} {b}")
    }
}

/// Both ways of calling the parser must give the same.
fn check_orders(whole: &RunResult<Vec<Invocation>>, orders: &[(usize, usize, Invocation)]) {
    let whole = whole.as_ref().expect("parse_invocations accepts the line too");
    assert_eq!(whole.len(), orders.len());
    for (a, (_, _, b)) in whole.iter().zip(orders) {
        assert_eq!(a.recipe.number, b.recipe.number);
        assert_eq!(a.arguments, b.arguments);
    }
}

/// just's command line takes overrides and a search directory off its front before it parses; a
/// line that is read has neither.
fn check_front(words: &[&str]) {
    let front = Positional::from_values(words.iter().copied());
    assert_eq!(front.arguments, words);
}

fn reading(orders: &[(usize, usize, Invocation)]) -> String {
    let mut out = format!("reading {}", orders.len());
    for (first, words, invocation) in orders {
        write!(out, " | {} {first} {words}", invocation.recipe.number.0).unwrap();
        for (place, group) in invocation.arguments.iter().enumerate() {
            let texts = group.iter().map(|text| shown(text)).collect::<Vec<String>>();
            if !texts.is_empty() {
                write!(out, " {place}:{}", texts.join(",")).unwrap();
            }
        }
    }
    out
}

fn shown(text: &str) -> String {
    if text.is_empty() { "-".into() } else { line::hex(text.as_bytes()) }
}

/// An order that just refuses. Its error does not say at which word; that is found by asking the
/// parser again about shorter lines.
struct Refused<'a, 'src> {
    side: &'a Side<'src>,
    words: &'a [&'a str],
    first: usize,
}

impl<'src> Refused<'_, 'src> {
    fn told(&self) -> (usize, Told) {
        let error = self.error(self.words).expect("the order is refused");
        let first = self.first;
        let position = |switch, rule| self.position(&error, switch, rule);
        match &error {
            Error::UnknownRecipe { .. } => (14, Told(2, self.name_word(&error), 0, 0)),
            Error::UnknownSubmodule { .. } => (15, Told(2, first, 0, 0)),
            Error::ExpectedSubmoduleButFoundRecipe { .. } => (16, Told(2, first, 0, 0)),
            Error::RecipeDisabled { modules, .. } => (17, Told(2, self.name_word(&error), label(modules), 0)),
            Error::AliasDisabled { modules, .. } => (18, Told(2, self.name_word(&error), label(modules), 0)),
            Error::ModuleAbsent { module } => (19, Told(2, self.name_word(&error), self.absent(module), 0)),
            Error::NoRecipes => (20, Told(2, first, 0, 0)),
            Error::NoDefaultRecipe => (21, Told(2, first, 0, 0)),
            Error::DefaultRecipeRequiresArguments { min_arguments, .. } => {
                (22, Told(2, first, *min_arguments, 0))
            }
            Error::InvalidOption { .. } => (23, Told(3, self.switch_word(&error), 0, 0)),
            Error::UnknownOption { switch, .. } => (24, position(switch, Place::Own)),
            Error::FlagWithValue { switch, .. } => (25, position(switch, Place::Last)),
            Error::NonFinalOptionWithValue { switch, .. } => (26, position(switch, Place::Before)),
            Error::OptionMissingValue { switch, .. } => (27, position(switch, Place::Last)),
            Error::DuplicateOption { switch, .. } => (28, position(switch, Place::Own)),
            Error::MissingOption { switch, .. } => (29, Told(4, first, self.option(switch), 0)),
            Error::PositionalArgumentCountMismatch { found, min, .. } => (30, Told(4, first, *found, *min)),
            Error::ArgumentTooFewValues { parameter, found, .. } => {
                (31, Told(4, first, place(parameter), *found))
            }
            Error::ArgumentTooManyValues { parameter, found, .. } => {
                (32, Told(4, first, place(parameter), *found))
            }
            Error::ArgumentPatternMismatch { argument, parameter, .. } => {
                let parameter = place(parameter);
                (33, Told(4, self.value_word(parameter, argument), parameter, 0))
            }
            Error::ListOperation { .. } => unreachable!("the parser joins no lists"),
        }
    }

    /// What just says to the order in these words, which agree with the line up to its first word.
    fn error(&self, words: &[&str]) -> Option<Error<'src>> {
        let (result, _) = order(&self.side.root, words, self.first);
        result.err()
    }

    /// The number of words of the shortest line with the same error.
    fn shortest(&self, error: &Error) -> usize {
        let same = |n: &usize| self.error(&self.words[..*n]).as_ref() == Some(error);
        (self.first..=self.words.len()).find(same).unwrap()
    }

    /// A word with a colon is the whole path; else the name is the last word of the shortest line
    /// with the same error.
    fn name_word(&self, error: &Error) -> usize {
        if self.words[self.first].contains(':') {
            return self.first;
        }
        let word = self.shortest(error) - 1;
        let path = self.words[self.first..=word].join(" ");
        match error {
            Error::UnknownRecipe { recipe, .. } => assert_eq!(*recipe, path),
            Error::RecipeDisabled { recipe, .. } => assert_eq!(recipe.to_string(), path),
            Error::AliasDisabled { alias, .. } => assert_eq!(alias.to_string(), path),
            _ => {}
        }
        word
    }

    /// The row of an absent module, by the module in which it was looked up.
    fn absent(&self, path: &Modulepath) -> usize {
        let (name, within) = path.components.split_last().unwrap();
        let tree = self.side.tree;
        let row = |row: &crate::image::Row| {
            row.kind == ABSENT_MODULE && row.text == *name && tree.path(row.module) == within
        };
        tree.rows.iter().position(row).unwrap()
    }

    /// A missing value is told at the line's last word. Any other fault of a switch is in the last
    /// word of the shortest line with the same error, or, if that word is the switch's value, in
    /// the word before: without its value the switch has none.
    fn switch_word(&self, error: &Error) -> usize {
        if let Error::OptionMissingValue { .. } = error {
            return self.words.len() - 1;
        }
        let last = self.shortest(error) - 1;
        match (error, self.error(&self.words[..last])) {
            (Error::DuplicateOption { switch: a, .. }, Some(Error::OptionMissingValue { switch: b, .. }))
                if *a == b =>
            {
                last - 1
            }
            _ => last,
        }
    }

    fn position(&self, error: &Error, switch: &Switch, place: Place) -> Told {
        let word = self.switch_word(error);
        let position = match switch {
            Switch::Long(_) => 0,
            Switch::Short(letter) => self.letter(error, word, *letter, place),
        };
        Told(3, word, position, 0)
    }

    /// The letter's position: the parser is asked about the word cut short behind each letter.
    fn letter(&self, error: &Error, word: usize, letter: char, place: Place) -> usize {
        let name = self.words[word][1..].split('=').next().unwrap();
        let letters = name.chars().collect::<Vec<char>>();
        let last = letters.len() - 1;
        let position = match place {
            Place::Last => last,
            Place::Own => self.first_cut(error, word, &letters).unwrap_or(last),
            Place::Before => self.first_cut(error, word, &letters).unwrap() - 1,
        };
        assert_eq!(letters[position], letter);
        position
    }

    /// The last letter of the shortest such word with the same error.
    fn first_cut(&self, error: &Error, word: usize, letters: &[char]) -> Option<usize> {
        (0..letters.len()).find(|&last| {
            let cut = format!("-{}", letters[..=last].iter().collect::<String>());
            let words = [&self.words[..word], &[&cut]].concat();
            self.error(&words).as_ref() == Some(error)
        })
    }

    /// The order in the first so many words, by the lax tree.
    fn lax(&self, words: usize) -> RunResult<'src, Invocation<'src, '_>> {
        order(&self.side.lax, &self.words[..words], self.first).0
    }

    /// The whole order: nothing but a path or a switch can be at fault in the lax tree.
    fn whole(&self) -> Invocation<'src, '_> {
        self.lax(self.words.len()).expect("the lax tree reads the order")
    }

    /// The parameter that a switch names.
    fn option(&self, switch: &Switch) -> usize {
        let is = |p: &Parameter| match switch {
            Switch::Long(name) => p.long.as_ref() == Some(name),
            Switch::Short(letter) => p.short == Some(*letter),
        };
        self.whole().recipe.parameters.iter().position(is).unwrap()
    }

    /// The word in which a value stands: the last word of the shortest line whose group holds the
    /// value, or, if that word is the value of another switch, the switch word before it.
    fn value_word(&self, parameter: usize, text: &str) -> usize {
        let whole = self.whole();
        let index = whole.arguments[parameter].iter().position(|element| element == text).unwrap();
        let holds = |words: &usize| {
            self.lax(*words).is_ok_and(|order| {
                order.recipe.number == whole.recipe.number && order.arguments[parameter].len() > index
            })
        };
        let last = (self.first + 1..=self.words.len()).find(holds).unwrap() - 1;
        match self.lax(last) {
            Err(Error::OptionMissingValue { switch, .. }) if self.option(&switch) != parameter => last - 1,
            _ => last,
        }
    }
}

/// Where the letter of an error is, seen from the end of the shortest word with the same error.
enum Place {
    /// its last letter; the word's last if no shorter word has the error
    Own,
    /// the letter before: it is a fault only if one stands behind it
    Before,
    /// the last letter of the whole word, since only that one can have a value
    Last,
}

/// The label that the tree put into the modules of a disabled name.
fn label(modules: &BTreeSet<Modulepath>) -> usize {
    modules.first().unwrap().components[0].parse().unwrap()
}

fn place(parameter: &str) -> usize {
    PARAMETERS.iter().position(|name| *name == parameter).unwrap()
}
