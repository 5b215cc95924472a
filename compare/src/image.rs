//! Tree images: the tree that an image says, read and written.
use crate::judge::Pattern;

pub const MODULE: u8 = 0;
pub const MODULE_ALIAS: u8 = 1;
pub const RECIPE: u8 = 2;
pub const RECIPE_ALIAS: u8 = 3;
pub const DISABLED_RECIPE: u8 = 4;
pub const DISABLED_ALIAS: u8 = 5;
pub const ABSENT_MODULE: u8 = 6;

#[derive(Clone, Debug, Default, PartialEq)]
pub struct Tree {
    /// each module's default recipe
    pub modules: Vec<Option<usize>>,
    pub rows: Vec<Row>,
    pub recipes: Vec<Vec<Parameter>>,
    pub patterns: Vec<Pattern>,
}

#[derive(Clone, Debug, PartialEq)]
pub struct Row {
    pub module: usize,
    pub kind: u8,
    pub text: String,
    /// where a row of kind 0 to 3 leads
    pub number: usize,
}

#[derive(Clone, Copy, Debug, Default, PartialEq)]
pub enum Kind {
    #[default]
    Singular,
    Plus,
    Star,
}

#[derive(Clone, Debug, Default, PartialEq)]
pub struct Parameter {
    pub default: Option<String>,
    pub flag: bool,
    pub multiple: bool,
    pub value: bool,
    pub kind: Kind,
    pub long: Option<String>,
    pub letter: Option<char>,
    pub min: Option<u32>,
    pub max: Option<u32>,
    pub pattern: Option<u8>,
}

impl Parameter {
    pub fn is_option(&self) -> bool {
        self.long.is_some() || self.letter.is_some()
    }
}

impl Tree {
    /// Reads an image. `None` if it is no image; laws over the whole tree are not tested.
    pub fn decode(image: &[u8]) -> Option<Self> {
        let mut bytes = Bytes(image);
        let counts = [bytes.u16()?, bytes.u16()?, bytes.u16()?, bytes.u16()?];
        let tree = Self {
            modules: repeat(counts[0], || bytes.module())?,
            rows: repeat(counts[1], || bytes.row())?,
            recipes: repeat(counts[2], || bytes.recipe())?,
            patterns: repeat(counts[3], || bytes.pattern())?,
        };
        bytes.0.is_empty().then_some(tree)
    }

    pub fn encode(&self) -> Vec<u8> {
        let mut out = Vec::new();
        let counts = [self.modules.len(), self.rows.len(), self.recipes.len(), self.patterns.len()];
        counts.into_iter().for_each(|n| put_u16(&mut out, n));
        for default in &self.modules {
            out.push(u8::from(default.is_some()));
            default.iter().for_each(|&n| put_u16(&mut out, n));
        }
        self.rows.iter().for_each(|row| put_row(&mut out, row));
        self.recipes.iter().for_each(|recipe| put_recipe(&mut out, recipe));
        self.patterns.iter().for_each(|pattern| put_pattern(&mut out, pattern));
        out
    }

    /// The names that lead from the root to a module.
    pub fn path(&self, module: usize) -> Vec<String> {
        let mut path = Vec::new();
        let mut at = module;
        while let Some(row) = self.rows.iter().find(|r| r.kind == MODULE && r.number == at) {
            path.insert(0, row.text.clone());
            at = row.module;
        }
        path
    }

    /// Puts the rows into the sequence of an image, without those that are alike.
    pub fn sort(&mut self) {
        let key = |row: &Row| (row.module, row.kind, row.text.clone());
        self.rows.sort_by_key(key);
        self.rows.dedup_by_key(|row| key(row));
    }
}

fn repeat<T>(count: usize, mut read: impl FnMut() -> Option<T>) -> Option<Vec<T>> {
    (0..count).map(|_| read()).collect()
}

struct Bytes<'a>(&'a [u8]);

impl Bytes<'_> {
    fn take<const N: usize>(&mut self) -> Option<[u8; N]> {
        let (head, rest) = self.0.split_first_chunk::<N>()?;
        self.0 = rest;
        Some(*head)
    }

    fn byte(&mut self) -> Option<u8> {
        Some(self.take::<1>()?[0])
    }

    fn u16(&mut self) -> Option<usize> {
        Some(u16::from_le_bytes(self.take()?).into())
    }

    fn u32(&mut self) -> Option<u32> {
        Some(u32::from_le_bytes(self.take()?))
    }

    fn text(&mut self) -> Option<String> {
        let length = self.byte()?;
        let (text, rest) = self.0.split_at_checked(length.into())?;
        self.0 = rest;
        String::from_utf8(text.into()).ok()
    }

    fn module(&mut self) -> Option<Option<usize>> {
        Some(if self.byte()? & 1 != 0 { Some(self.u16()?) } else { None })
    }

    fn row(&mut self) -> Option<Row> {
        let bits = self.byte()?;
        Some(Row {
            module: self.u16()?,
            kind: self.byte()?,
            text: self.text()?,
            number: if bits & 1 != 0 { self.u16()? } else { 0 },
        })
    }

    fn recipe(&mut self) -> Option<Vec<Parameter>> {
        let count = if self.byte()? & 1 != 0 { self.byte()? } else { 0 };
        repeat(count.into(), || self.parameter())
    }

    fn parameter(&mut self) -> Option<Parameter> {
        let bits = self.u16()?;
        let has = |bit: u32| bits >> bit & 1 != 0;
        Some(Parameter {
            default: if has(0) { Some(self.text()?) } else { None },
            flag: has(1),
            multiple: has(2),
            value: has(3),
            kind: if has(4) { self.kind()? } else { Kind::Singular },
            long: if has(5) { Some(self.text()?) } else { None },
            letter: if has(6) { Some(char::from_u32(self.u32()?)?) } else { None },
            min: if has(7) { Some(self.u32()?) } else { None },
            max: if has(8) { Some(self.u32()?) } else { None },
            pattern: if has(9) { Some(self.byte()?) } else { None },
        })
    }

    fn kind(&mut self) -> Option<Kind> {
        match self.byte()? {
            1 => Some(Kind::Plus),
            2 => Some(Kind::Star),
            _ => None,
        }
    }

    fn pattern(&mut self) -> Option<Pattern> {
        let bits = self.byte()?;
        let mut pattern = Pattern::default();
        if bits & 1 != 0 {
            let count = self.byte()?;
            pattern.texts = Some(repeat(count.into(), || self.text())?);
        }
        if bits & 2 != 0 {
            pattern.gauge = Some((self.u32()?, self.u32()?));
        }
        Some(pattern)
    }
}

fn put_u16(out: &mut Vec<u8>, n: usize) {
    out.extend(u16::try_from(n).unwrap().to_le_bytes());
}

fn put_text(out: &mut Vec<u8>, text: &str) {
    out.push(u8::try_from(text.len()).unwrap());
    out.extend(text.bytes());
}

fn put_row(out: &mut Vec<u8>, row: &Row) {
    let leads = row.kind <= RECIPE_ALIAS;
    out.push(u8::from(leads));
    put_u16(out, row.module);
    out.push(row.kind);
    put_text(out, &row.text);
    if leads {
        put_u16(out, row.number);
    }
}

fn put_recipe(out: &mut Vec<u8>, recipe: &[Parameter]) {
    out.push(u8::from(!recipe.is_empty()));
    if !recipe.is_empty() {
        out.push(u8::try_from(recipe.len()).unwrap());
    }
    recipe.iter().for_each(|parameter| put_parameter(out, parameter));
}

fn put_parameter(out: &mut Vec<u8>, p: &Parameter) {
    let stands = [
        p.default.is_some(),
        p.flag,
        p.multiple,
        p.value,
        p.kind != Kind::Singular,
        p.long.is_some(),
        p.letter.is_some(),
        p.min.is_some(),
        p.max.is_some(),
        p.pattern.is_some(),
    ];
    put_u16(out, stands.iter().rev().fold(0, |bits, &stands| bits * 2 + usize::from(stands)));
    p.default.iter().for_each(|text| put_text(out, text));
    match p.kind {
        Kind::Singular => {}
        Kind::Plus => out.push(1),
        Kind::Star => out.push(2),
    }
    p.long.iter().for_each(|text| put_text(out, text));
    p.letter.iter().for_each(|&c| out.extend(u32::from(c).to_le_bytes()));
    p.min.iter().for_each(|n| out.extend(n.to_le_bytes()));
    p.max.iter().for_each(|n| out.extend(n.to_le_bytes()));
    out.extend(p.pattern);
}

fn put_pattern(out: &mut Vec<u8>, pattern: &Pattern) {
    out.push(u8::from(pattern.texts.is_some()) + 2 * u8::from(pattern.gauge.is_some()));
    if let Some(texts) = &pattern.texts {
        out.push(u8::try_from(texts.len()).unwrap());
        texts.iter().for_each(|text| put_text(out, text));
    }
    if let Some((low, high)) = pattern.gauge {
        out.extend(low.to_le_bytes());
        out.extend(high.to_le_bytes());
    }
}

#[cfg(test)]
mod tests {
    use super::*;
    use crate::{dice::Dice, fixed, line, trees};

    /// The example tree of the documentation, byte by byte.
    const EXAMPLE: &str = "0200040002000000000001000000046561737401000100000101650100010000\
        02056c6f7765720000010100020572616973650100010300006000026279620000004200710000000101100001";

    #[test]
    fn the_example_is_the_documented_image() {
        assert_eq!(fixed::example().encode(), line::unhex(EXAMPLE).unwrap());
    }

    #[test]
    fn what_is_written_is_read() {
        let mut dice = Dice::new(1);
        for _ in 0..500 {
            let tree = trees::random(&mut dice);
            assert_eq!(Tree::decode(&tree.encode()), Some(tree));
        }
    }
}
