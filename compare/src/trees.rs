//! Random trees that an image may say.
use crate::{
    dice::Dice,
    image::{Kind, MODULE, MODULE_ALIAS, Parameter, RECIPE, RECIPE_ALIAS, Row, Tree},
    judge::Pattern,
};

/// Few names, so that they meet often: in several kinds, several modules, and as arguments.
const NAMES: [&str; 14] =
    ["a", "b", "e", "up", "east", "west", "lower", "raise", "hold", "_x", "A9", "x-y", "by", "true"];

const LONGS: [&str; 12] =
    ["by", "b", "quiet", "to", "a", "a=b", "-", "é", "中文", "x y", "true", "long-name"];

const LETTERS: [char; 16] =
    ['b', 'q', 'a', 't', 'é', '中', '😀', '-', '=', ' ', '1', ':', '\u{7ff}', '\u{800}', 'ß', '\0'];

/// The first of the values are plain words wherever they stand.
pub const TAME: usize = 13;

pub const VALUES: [&str; 24] = [
    "1", "2", "3", "10", "0.5", "3.454", "3.455", "0", "00", "1.", "true", "slow", "fast", "", "-", "--",
    "-1", "é", "a", "east", "x=y", "a::b", "-q", "--by",
];

const IMAGE_BYTES: usize = 32_768;

pub fn random(dice: &mut Dice) -> Tree {
    loop {
        let size = match dice.below(200) {
            0..=90 => 3,
            91..=189 => 7,
            190..=197 => 24,
            _ => 64,
        };
        let tree = of_size(dice, size);
        if tree.encode().len() <= IMAGE_BYTES {
            return tree;
        }
    }
}

fn of_size(dice: &mut Dice, size: usize) -> Tree {
    let mut tree = Tree { modules: vec![None; dice.within(1, size)], ..Tree::default() };
    let patterns = dice.below(if size == 64 { 257 } else { size });
    tree.patterns = (0..patterns).map(|_| pattern(dice)).collect();
    let recipes = if dice.one_in(12) { 0 } else { dice.within(1, size) };
    tree.recipes = (0..recipes).map(|_| recipe(dice, patterns)).collect();
    name_modules(dice, &mut tree);
    name_recipes(dice, &mut tree);
    for _ in 0..dice.below(size * 3) {
        other_row(dice, &mut tree);
    }
    for module in 0..tree.modules.len() {
        tree.modules[module] = (recipes > 0 && dice.below(5) < 2).then(|| dice.below(recipes));
    }
    tree.sort();
    tree
}

fn name(dice: &mut Dice) -> String {
    match dice.below(40) {
        0 => "n".repeat(dice.within(1, 32)),
        _ => (*dice.pick(&NAMES)).into(),
    }
}

fn name_modules(dice: &mut Dice, tree: &mut Tree) {
    let chain = dice.one_in(3);
    for number in 1..tree.modules.len() {
        let module = if chain { number - 1 } else { dice.below(number) };
        let mut text = name(dice);
        while tree.rows.iter().any(|r| r.module == module && r.text == text) {
            text = format!("m{}", dice.below(100));
        }
        tree.rows.push(Row { module, kind: MODULE, text, number });
    }
}

fn name_recipes(dice: &mut Dice, tree: &mut Tree) {
    for number in 0..tree.recipes.len() {
        if !dice.one_in(10) {
            let module = dice.below(tree.modules.len());
            push_row(dice, tree, module, RECIPE, number);
        }
    }
}

fn other_row(dice: &mut Dice, tree: &mut Tree) {
    let kind = dice.within(1, 6) as u8;
    let among = match kind {
        MODULE_ALIAS => tree.modules.len(),
        RECIPE | RECIPE_ALIAS => tree.recipes.len(),
        _ => 1,
    };
    if among > 0 {
        let module = dice.below(tree.modules.len());
        let number = dice.below(among);
        push_row(dice, tree, module, kind, number);
    }
}

fn push_row(dice: &mut Dice, tree: &mut Tree, module: usize, kind: u8, number: usize) {
    tree.rows.push(Row { module, kind, text: name(dice), number });
}

fn recipe(dice: &mut Dice, patterns: usize) -> Vec<Parameter> {
    let count = match dice.below(30) {
        0 => dice.within(6, 16),
        _ => dice.below(6),
    };
    let mut recipe = Vec::new();
    for _ in 0..count {
        let parameter = parameter(dice, &recipe, patterns);
        recipe.push(parameter);
    }
    recipe
}

fn parameter(dice: &mut Dice, before: &[Parameter], patterns: usize) -> Parameter {
    let mut p = Parameter::default();
    if dice.one_in(2) {
        name_option(dice, &mut p, before);
    }
    if p.is_option() {
        match dice.below(8) {
            0 | 1 => p.flag = true,
            2 => p.value = true,
            3 => p.multiple = true,
            _ => {}
        }
    }
    if dice.one_in(12) {
        (p.flag, p.value, p.multiple) = (dice.one_in(2), dice.one_in(2), dice.one_in(2));
    }
    p.kind = match dice.below(8) {
        0 => Kind::Plus,
        1 => Kind::Star,
        _ => Kind::Singular,
    };
    if dice.below(5) < 2 {
        p.default = Some((*dice.pick(&VALUES)).into());
    }
    let few = [0, 1, 1, 2, 3, u32::MAX];
    let counted = p.kind != Kind::Singular || p.multiple;
    if dice.one_in(if counted { 3 } else { 15 }) {
        p.min = Some(*dice.pick(&few));
    }
    if dice.one_in(if counted { 3 } else { 15 }) {
        p.max = Some(*dice.pick(&few));
    }
    if patterns > 0 && dice.one_in(4) {
        p.pattern = Some(dice.below(patterns) as u8);
    }
    p
}

fn name_option(dice: &mut Dice, p: &mut Parameter, before: &[Parameter]) {
    let form = dice.below(3);
    if form != 0 {
        let long = match dice.below(40) {
            0 => "l".repeat(32),
            _ => (*dice.pick(&LONGS)).to_string(),
        };
        p.long = Some(long).filter(|l| before.iter().all(|q| q.long.as_ref() != Some(l)));
    }
    if form != 1 {
        let near = if dice.one_in(3) { LETTERS.len() } else { 7 };
        let letter = LETTERS[dice.below(near)];
        p.letter = Some(letter).filter(|l| before.iter().all(|q| q.letter != Some(*l)));
    }
}

fn pattern(dice: &mut Dice) -> Pattern {
    let texts = dice.one_in(2).then(|| {
        let count = dice.within(1, 4);
        let text = |dice: &mut Dice| match *dice.pick(&VALUES) {
            "" => "x".to_string(),
            text => text.to_string(),
        };
        (0..count).map(|_| text(dice)).collect()
    });
    let gauge = (!dice.one_in(3)).then(|| {
        let low = dice.below(400) as u32;
        (low, low + *dice.pick(&[0, 5, 100, 1000, u32::MAX - 400]))
    });
    Pattern { texts, gauge }
}
