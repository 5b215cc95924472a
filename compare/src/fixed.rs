//! Small trees with alphabets of telling words, and lines on both sides of each limit.
use crate::{
    image::{
        ABSENT_MODULE, DISABLED_ALIAS, DISABLED_RECIPE, Kind, MODULE, MODULE_ALIAS, Parameter, RECIPE,
        RECIPE_ALIAS, Row, Tree,
    },
    judge::Pattern,
    line,
};

pub struct Fixed {
    pub tree: Tree,
    pub words: Vec<&'static str>,
}

fn row(module: usize, kind: u8, text: &str, number: usize) -> Row {
    Row { module, kind, text: text.into(), number }
}

fn tree(
    modules: &[Option<usize>],
    rows: Vec<Row>,
    recipes: Vec<Vec<Parameter>>,
    patterns: Vec<Pattern>,
) -> Tree {
    let mut tree = Tree { modules: modules.into(), rows, recipes, patterns };
    tree.sort();
    tree
}

fn plain() -> Parameter {
    Parameter::default()
}

fn of_kind(kind: Kind) -> Parameter {
    Parameter { kind, ..plain() }
}

fn option(long: &str, letter: char) -> Parameter {
    Parameter {
        long: Some(long).filter(|l| !l.is_empty()).map(Into::into),
        letter: Some(letter).filter(|c| *c != '\0'),
        ..plain()
    }
}

fn flag(letter: char) -> Parameter {
    Parameter { flag: true, ..option("", letter) }
}

/// The example tree of the documentation.
pub fn example() -> Tree {
    let rows = vec![
        row(0, MODULE, "east", 1),
        row(0, MODULE_ALIAS, "e", 1),
        row(0, RECIPE, "lower", 0),
        row(1, RECIPE, "raise", 1),
    ];
    let lower = vec![plain(), option("by", 'b'), flag('q')];
    tree(&[None, None], rows, vec![lower, vec![of_kind(Kind::Plus)]], vec![])
}

/// Every kind of name, in the root and below, and every end of a path.
fn names() -> Tree {
    let rows = vec![
        row(0, MODULE, "m", 1),
        row(0, MODULE, "k", 2),
        row(0, MODULE_ALIAS, "n", 1),
        row(0, MODULE_ALIAS, "o", 0),
        row(0, MODULE_ALIAS, "r", 3),
        row(0, RECIPE, "m", 1),
        row(0, RECIPE, "r", 1),
        row(0, RECIPE, "s", 0),
        row(0, RECIPE_ALIAS, "s", 1),
        row(0, RECIPE_ALIAS, "y", 1),
        row(0, DISABLED_RECIPE, "t", 0),
        row(0, DISABLED_RECIPE, "y", 0),
        row(0, DISABLED_ALIAS, "t", 0),
        row(0, DISABLED_ALIAS, "u", 0),
        row(0, ABSENT_MODULE, "u", 0),
        row(0, ABSENT_MODULE, "v", 0),
        row(1, MODULE, "l", 3),
        row(1, MODULE_ALIAS, "k", 2),
        row(1, RECIPE, "r", 1),
        row(1, DISABLED_RECIPE, "t", 0),
        row(1, DISABLED_ALIAS, "u", 0),
        row(1, ABSENT_MODULE, "v", 0),
        row(3, RECIPE, "s", 0),
        row(2, RECIPE_ALIAS, "s", 0),
    ];
    let hard = vec![plain(), option("by", 'b'), Parameter { min: Some(1), ..of_kind(Kind::Star) }];
    tree(&[None, Some(0), None, Some(1)], rows, vec![vec![], hard], vec![])
}

/// Plain words: defaults, variadics, counts, patterns.
fn arguments() -> Tree {
    let with_default = |p: Parameter| Parameter { default: Some(String::new()), ..p };
    let rows = vec![
        row(0, RECIPE, "one", 0),
        row(0, RECIPE, "star", 1),
        row(0, RECIPE, "plus", 2),
        row(0, RECIPE, "two", 3),
        row(0, RECIPE, "least", 4),
        row(0, RECIPE, "flag", 5),
    ];
    let recipes = vec![
        vec![Parameter { pattern: Some(0), ..plain() }],
        vec![plain(), of_kind(Kind::Star), plain()],
        vec![Parameter { min: Some(2), max: Some(2), pattern: Some(1), ..of_kind(Kind::Plus) }],
        vec![with_default(plain()), with_default(Parameter { max: Some(0), ..plain() })],
        vec![
            Parameter { min: Some(2), ..of_kind(Kind::Star) },
            Parameter { max: Some(1), ..of_kind(Kind::Plus) },
        ],
        vec![Parameter { flag: true, ..plain() }, Parameter { value: true, max: Some(0), ..plain() }],
    ];
    let patterns = vec![
        Pattern { texts: None, gauge: Some((50, 345)) },
        Pattern { texts: Some(vec!["one".into(), "--".into(), "3.455".into()]), gauge: Some((300, 300)) },
    ];
    tree(&[Some(3)], rows, recipes, patterns)
}

/// Switches: flags, `value`, `multiple`, variadic options, counts, patterns, letters of all lengths.
fn switches() -> Tree {
    let rows = vec![row(0, RECIPE, "x", 0), row(0, RECIPE, "z", 1), row(0, RECIPE, "w", 2)];
    let default = |p: Parameter| Parameter { default: Some("d".into()), ..p };
    let recipes = vec![
        vec![
            flag('q'),
            default(Parameter { value: true, min: Some(2), pattern: Some(0), ..option("val", 'é') }),
            default(Parameter { multiple: true, max: Some(2), ..option("many", '中') }),
            default(Parameter { pattern: Some(0), ..option("", '😀') }),
            of_kind(Kind::Star),
        ],
        vec![
            Parameter { multiple: true, pattern: Some(0), ..flag('q') },
            Parameter { min: Some(2), ..option("", '中') },
            plain(),
        ],
        vec![
            Parameter { kind: Kind::Star, min: Some(2), ..option("many", 'é') },
            Parameter { flag: true, ..plain() },
        ],
    ];
    tree(&[Some(0)], rows, recipes, vec![Pattern { texts: Some(vec!["1".into()]), gauge: None }])
}

pub fn all() -> Vec<Fixed> {
    vec![
        Fixed {
            tree: example(),
            words: words(
                "lower raise east e east::raise east:: e::raise e::raise:: e::x::y :: 3 --by --by=1 --by= -b -q -qb -bq -qq -q=1 -qb=2 -- - --x -x --= -=1 --- -1 | lower::",
            ),
        },
        Fixed {
            tree: names(),
            words: words(
                "m n o k r s t u v y l x | m::r m:: m::k:: m::l o::m::t n::u m::v::x v::x x::y m::r::y m::x n::l::s s:: a:b ::: m:::: o::o::s --by=1",
            ),
        },
        Fixed {
            tree: arguments(),
            words: words(
                "one star plus two least flag 3 3.454 3.455 0.495 0.494 03 -- -q --by - | one:: plus::",
            ),
        },
        Fixed {
            tree: switches(),
            words: words(
                "x z w -q -qq -é -qé --val --val=1 --many --many=1 -中 -q中 -中q -q中=1 -😀 -😀=1 -😀=2 -é=1 -q=1 1 2 -- - --é | --many= -ü -qü",
            ),
        },
        Fixed {
            tree: tree(
                &[None, None],
                vec![row(0, MODULE, "m", 1), row(1, RECIPE_ALIAS, "a", 0)],
                vec![vec![]],
                vec![],
            ),
            words: words("m a m:: m::a m::a:: m::m x | - --"),
        },
    ]
}

/// Words behind single spaces; `|` is an empty word.
fn words(text: &'static str) -> Vec<&'static str> {
    text.split(' ').map(|word| if word == "|" { "" } else { word }).collect()
}

/// All lines of up to three of these words.
pub fn lines(words: &[&str]) -> Vec<Vec<u8>> {
    let mut lines = vec![vec![]];
    for a in words {
        lines.push(line::join(&[a]));
        for b in words {
            lines.push(line::join(&[a, b]));
            for c in words {
                lines.push(line::join(&[a, b, c]));
            }
        }
    }
    lines
}

/// A tree for long lines.
pub fn wide() -> Tree {
    let rows = vec![
        row(0, RECIPE, "a", 0),
        row(0, RECIPE, "s", 1),
        row(0, RECIPE, "f", 2),
        row(0, MODULE_ALIAS, "o", 0),
        row(0, RECIPE, "k", 3),
    ];
    let many = Parameter { multiple: true, ..flag('q') };
    let counted = Parameter { max: Some(1000), ..of_kind(Kind::Star) };
    tree(&[Some(0)], rows, vec![vec![], vec![counted], vec![many], vec![option("by", 'b')]], vec![])
}

/// Lines over the wide tree on both sides of each limit.
pub fn limits() -> Vec<Vec<u8>> {
    let mut lines = Vec::new();
    for n in [0, 1, 2, 126, 127, 128, 129, 130, 200] {
        lines.push(line::join(&vec!["a"; n]));
        lines.push(line::join(&vec!["o"; n]));
        lines.push(line::join(&vec![""; n]));
        lines.push(line::join(&[vec!["s"], vec!["x"; n]].concat()));
        lines.push(line::join(&[vec!["f"], vec!["-q"; n]].concat()));
        lines.push(line::join(&[vec!["f"], vec!["-q"; n], vec!["-x"]].concat()));
        lines.push(line::join(&[vec!["a"; n], vec!["x"]].concat()));
        lines.push(line::join(&[vec!["a"; n], vec!["k", "--by"]].concat()));
        lines.push(line::join(&[vec!["o"; n], vec!["o::a::"]].concat()));
    }
    for n in 1015..1032 {
        lines.push(line::join(&["f".to_string(), format!("-{}", "q".repeat(n - 4))]));
        lines.push(line::join(&["f".to_string(), format!("-{}x", "q".repeat(n - 5))]));
        lines.push(line::join(&["s".to_string(), "x".repeat(n - 3)]));
        lines.push(line::join(&["o::".repeat((n - 2) / 3) + "a"]));
        lines.push(line::join(&["k".to_string(), format!("--by={}", "é".repeat((n - 8) / 2))]));
        let mut open = vec![b'x'; n];
        lines.push(open.clone());
        open[n - 1] = 0;
        lines.push(open);
        lines.push(vec![0xff; n]);
        lines.push(vec![0; n]);
    }
    lines.extend(sequences());
    lines
}

/// Words at each edge of UTF-8, alone and behind a good word.
fn sequences() -> Vec<Vec<u8>> {
    let leads = [
        0x7f, 0x80, 0xbf, 0xc0, 0xc1, 0xc2, 0xdf, 0xe0, 0xe1, 0xec, 0xed, 0xee, 0xef, 0xf0, 0xf1, 0xf3, 0xf4,
        0xf5, 0xff,
    ];
    let seconds = [0x7f, 0x80, 0x8f, 0x90, 0x9f, 0xa0, 0xbf, 0xc0];
    let tails: [&[u8]; 8] =
        [&[], &[0x80], &[0xbf], &[0x7f], &[0x80, 0x80], &[0xbf, 0xbf], &[0x80, 0xc0], &[0x80, 0x80, 0x80]];
    let mut lines = Vec::new();
    for lead in leads {
        for second in seconds {
            for tail in tails {
                let word = [&[lead, second], tail, &[0]].concat();
                lines.push([b"s\0", word.as_slice()].concat());
                lines.push([b"f\0-", word.as_slice()].concat());
            }
        }
        lines.push(vec![b's', 0, lead, 0]);
    }
    lines
}
