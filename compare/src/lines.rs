//! Random lines that are nearly right for a tree, and damaged copies of them.
use crate::{
    dice::Dice,
    image::{Kind, MODULE_ALIAS, Parameter, RECIPE, RECIPE_ALIAS, Row, Tree},
    line,
    trees::{TAME, VALUES},
};

const STRAY: [&str; 26] = [
    "-", "--", "-q", "-b", "-qb", "-bq", "-qq", "-q=1", "--by", "--by=1", "--by=", "--=", "-=1", "--x", "-x",
    "-é", "---", "-a-", "::", ":", "a:b", ":::", "nothing", "a::", "::a", "",
];

/// Names, and the recipe to which they probably lead.
struct Path {
    names: Vec<String>,
    recipe: Option<usize>,
    ends_at_module: bool,
}

pub struct Lines<'a> {
    pub dice: &'a mut Dice,
    pub tree: &'a Tree,
}

impl Lines<'_> {
    pub fn line(&mut self) -> Vec<u8> {
        let mut words = Vec::new();
        for _ in 0..self.orders() {
            self.order(&mut words);
        }
        if self.dice.one_in(4) {
            for _ in 0..self.dice.within(1, 2) {
                self.change(&mut words);
            }
        }
        line::join(&words)
    }

    fn orders(&mut self) -> usize {
        match self.dice.below(100) {
            0 => 0,
            1..=55 => 1,
            56..=80 => 2,
            81..=92 => 3,
            93..=97 => self.dice.within(4, 8),
            _ => self.dice.within(9, 40),
        }
    }

    fn order(&mut self, words: &mut Vec<String>) {
        let Path { names, recipe, ends_at_module } = self.path();
        let joined = names.len() > 1 && self.dice.one_in(if ends_at_module { 2 } else { 3 });
        let takes_arguments = joined || !ends_at_module || self.dice.one_in(20);
        let recipe = recipe.filter(|_| takes_arguments);
        let arguments = recipe.map_or(Vec::new(), |number| self.arguments(&self.tree.recipes[number]));
        if joined {
            let closes = self.dice.one_in(if arguments.is_empty() { 5 } else { 60 });
            words.push(names.join("::") + if closes { "::" } else { "" });
        } else {
            words.extend(names);
        }
        words.extend(arguments);
    }

    /// A walk from the root on.
    fn path(&mut self) -> Path {
        let mut names = Vec::new();
        let mut module = 0;
        loop {
            let stops = self.dice.one_in(if names.is_empty() { 30 } else { 10 });
            let Some(row) = self.row(module).filter(|_| !stops) else {
                if self.dice.one_in(8) {
                    names.push((*self.dice.pick(&VALUES)).into());
                }
                return Path { names, recipe: self.tree.modules[module], ends_at_module: true };
            };
            names.push(row.text.clone());
            let recipe = match row.kind {
                RECIPE | RECIPE_ALIAS => Some(row.number),
                0..=MODULE_ALIAS if names.len() < 12 => {
                    module = row.number;
                    continue;
                }
                _ => None,
            };
            return Path { names: self.beyond(names), recipe, ends_at_module: false };
        }
    }

    fn beyond(&mut self, mut path: Vec<String>) -> Vec<String> {
        if self.dice.one_in(60) {
            path.push("beyond".into());
        }
        path
    }

    /// A row of a module, mostly one that leads to a recipe; none at times.
    fn row(&mut self, module: usize) -> Option<Row> {
        let rows = self.tree.rows.iter().filter(|row| row.module == module);
        let rows = rows.filter(|row| row.kind <= RECIPE_ALIAS || self.dice.one_in(8));
        let rows = rows.collect::<Vec<&Row>>();
        let ends = rows.iter().filter(|row| matches!(row.kind, RECIPE | RECIPE_ALIAS));
        let ends = ends.copied().collect::<Vec<&Row>>();
        if rows.is_empty() || self.dice.one_in(80) {
            return None;
        }
        let among = if ends.is_empty() || self.dice.one_in(2) { rows } else { ends };
        let text = &self.dice.pick(&among).text;
        self.tree.rows.iter().find(|row| row.module == module && row.text == *text).cloned()
    }

    fn arguments(&mut self, recipe: &[Parameter]) -> Vec<String> {
        let mut words = Vec::new();
        let mut plain = Vec::new();
        for parameter in recipe {
            for _ in 0..self.count(parameter) {
                if parameter.is_option() {
                    let switch = self.switch(recipe, parameter);
                    let at = if self.dice.one_in(4) { 0 } else { words.len() };
                    words.splice(at..at, [switch]);
                } else {
                    plain.push(self.value(parameter));
                }
            }
        }
        let has_options = recipe.iter().any(Parameter::is_option);
        let ends = self.dice.one_in(if has_options { 8 } else { 80 });
        self.mix(words, plain, ends)
    }

    /// Plain words keep their sequence, and stand anywhere among the switches.
    fn mix(&mut self, switches: Vec<Vec<String>>, plain: Vec<String>, ends: bool) -> Vec<String> {
        let mut words = Vec::new();
        let mut plain = plain.into_iter();
        for switch in switches {
            while self.dice.one_in(2) {
                words.extend(plain.next());
            }
            words.extend(switch);
        }
        if ends {
            words.push("--".into());
        }
        words.extend(plain);
        words
    }

    /// How often to give a parameter: mostly a lawful number.
    fn count(&mut self, p: &Parameter) -> usize {
        let optional = p.default.is_some() || p.flag || p.kind == Kind::Star;
        if self.dice.one_in(if optional { 3 } else { 25 }) {
            return 0;
        }
        let many = p.multiple || p.kind != Kind::Singular;
        if !many || !p.is_option() && p.kind == Kind::Singular {
            return if p.is_option() && self.dice.one_in(30) { 2 } else { 1 };
        }
        let low = p.min.unwrap_or(1).clamp(1, 4) as usize;
        let high = p.max.unwrap_or(3).clamp(1, 4) as usize;
        match self.dice.below(10) {
            0 => self.dice.within(1, 4),
            _ => self.dice.within(low, low.max(high)),
        }
    }

    fn value(&mut self, p: &Parameter) -> String {
        let pattern = p.pattern.map(|n| &self.tree.patterns[usize::from(n)]);
        let Some(pattern) = pattern.filter(|_| !self.dice.one_in(20)) else {
            let among = if self.dice.one_in(5) { &VALUES } else { &VALUES[..TAME] };
            return (*self.dice.pick(among)).into();
        };
        match (&pattern.texts, pattern.gauge) {
            (Some(texts), None) => self.dice.pick(texts).clone(),
            (Some(texts), Some(_)) if self.dice.one_in(2) => self.dice.pick(texts).clone(),
            (_, Some((low, high))) => self.reading(low, high),
            (None, None) => (*self.dice.pick(&VALUES)).into(),
        }
    }

    /// A reading in or about a range of centimetres.
    fn reading(&mut self, low: u32, high: u32) -> String {
        let high = high.min(low.saturating_add(500)).min(999_000);
        let low = low.min(high);
        let at = match self.dice.below(6) {
            0 => low as usize * 10,
            1 => high as usize * 10 + 4,
            2 => high as usize * 10 + 5,
            3 => (low as usize * 10).saturating_sub(6),
            _ => self.dice.within(low as usize, high as usize) * 10,
        };
        let (metres, rest) = (at / 1000, at % 1000);
        match self.dice.below(4) {
            0 => format!("{metres}.{rest:03}"),
            1 if rest % 100 == 0 => format!("{metres}.{}", rest / 100),
            _ if rest == 0 => format!("{metres}"),
            _ => format!("{metres}.{rest:03}").trim_end_matches('0').into(),
        }
    }

    /// The words that give an option once.
    fn switch(&mut self, recipe: &[Parameter], p: &Parameter) -> Vec<String> {
        let bare = p.flag || p.value;
        let by_letter = p.long.is_none() || p.letter.is_some() && self.dice.one_in(2);
        let head = match (by_letter, p.letter, &p.long) {
            (true, Some(letter), _) => format!("-{}{letter}", self.flags(recipe)),
            (_, _, Some(long)) => format!("--{long}"),
            _ => unreachable!(),
        };
        if bare != self.dice.one_in(40) {
            return vec![head];
        }
        let value = self.value(p);
        if self.dice.one_in(2) { vec![head, value] } else { vec![format!("{head}={value}")] }
    }

    /// Letters to join before another, mostly of flags.
    fn flags(&mut self, recipe: &[Parameter]) -> String {
        let mut letters = String::new();
        for p in recipe {
            let odds = if p.flag || p.value { 4 } else { 60 };
            if self.dice.one_in(odds) {
                letters.extend(p.letter);
            }
        }
        letters
    }

    fn change(&mut self, words: &mut Vec<String>) {
        let at = self.dice.below(words.len() + 1);
        let other = self.dice.below(words.len() + 1);
        match self.dice.below(7) {
            0 if at < words.len() => drop(words.remove(at)),
            1 if at < words.len() => words.insert(other, words[at].clone()),
            2 if at.max(other) < words.len() => words.swap(at, other),
            3 if at < words.len() => words[at] = self.stray(),
            4 => words.insert(at, self.stray()),
            5 if at < words.len() => self.touch(&mut words[at]),
            6 => words.truncate(at),
            _ => words.push(self.stray()),
        }
    }

    fn stray(&mut self) -> String {
        match self.dice.below(3) {
            0 => (*self.dice.pick(&VALUES)).into(),
            1 => {
                self.tree.rows.first().map_or(String::new(), |_| self.dice.pick(&self.tree.rows).text.clone())
            }
            _ => (*self.dice.pick(&STRAY)).into(),
        }
    }

    /// Changes one character of a word.
    fn touch(&mut self, word: &mut String) {
        let mut letters = word.chars().collect::<Vec<char>>();
        let at = self.dice.below(letters.len() + 1);
        let new = *self.dice.pick(&['-', '=', ':', 'q', 'b', 'é', '1', ' ']);
        match self.dice.below(3) {
            0 if at < letters.len() => drop(letters.remove(at)),
            1 if at < letters.len() => letters[at] = new,
            _ => letters.insert(at, new),
        }
        *word = letters.into_iter().collect();
    }
}

/// A copy of a line with some of its bytes changed.
pub fn damage(dice: &mut Dice, line: &[u8]) -> Vec<u8> {
    let mut line = line.to_vec();
    for _ in 0..dice.within(1, 3) {
        let at = dice.below(line.len() + 1);
        let good = [0, 0x2d, 0x3a, 0x3d, 0x61, 0x71, 0x31, 0x20];
        let bad = [0x80, 0xbf, 0xc3, 0xe4, 0xed, 0xf0, 0xff];
        let among = if dice.one_in(12) { &bad[..] } else { &good };
        let byte = *dice.pick(among);
        match dice.below(4) {
            0 if at < line.len() => drop(line.remove(at)),
            1 if at < line.len() => line[at] = byte,
            2 if at < line.len() => line[at] ^= 1 << dice.below(7),
            3 if dice.one_in(8) => line.truncate(at),
            _ => line.insert(at, byte),
        }
    }
    if dice.below(8) > 0 && line.last().is_some_and(|byte| *byte != 0) {
        line.push(0);
    }
    line
}
