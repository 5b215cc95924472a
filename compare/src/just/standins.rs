//! Types of just that stand in none of its files at hand: as little of each as the parser needs.
use {super::*, crate::judge::Rule, std::marker::PhantomData};

pub(crate) trait Keyed<'key> {
    fn key(&self) -> &'key str;
}

impl<'key, T: Keyed<'key>> Keyed<'key> for Arc<T> {
    fn key(&self) -> &'key str {
        self.as_ref().key()
    }
}

/// The errors that the parser and what it calls can give, with just's names and fields.
#[derive(Debug, PartialEq)]
pub(crate) enum Error<'src> {
    AliasDisabled {
        alias: Modulepath,
        modules: BTreeSet<Modulepath>,
    },
    ArgumentPatternMismatch {
        argument: String,
        parameter: &'src str,
        pattern: Box<Pattern>,
        recipe: &'src str,
    },
    ArgumentTooFewValues {
        recipe: &'src str,
        parameter: &'src str,
        found: usize,
        min: u64,
    },
    ArgumentTooManyValues {
        recipe: &'src str,
        parameter: &'src str,
        found: usize,
        max: u64,
    },
    DefaultRecipeRequiresArguments {
        recipe: &'src str,
        min_arguments: usize,
    },
    DuplicateOption {
        recipe: &'src str,
        switch: Switch,
    },
    ExpectedSubmoduleButFoundRecipe {
        path: String,
    },
    FlagWithValue {
        recipe: &'src str,
        switch: Switch,
    },
    InvalidOption {
        argument: String,
    },
    ListOperation {
        lhs: Value,
        operator: ListOperator,
        rhs: Value,
        token: Box<Token<'src>>,
    },
    MissingOption {
        recipe: &'src str,
        switch: Switch,
    },
    ModuleAbsent {
        module: Modulepath,
    },
    NoDefaultRecipe,
    NonFinalOptionWithValue {
        recipe: &'src str,
        switch: Switch,
    },
    NoRecipes,
    OptionMissingValue {
        recipe: &'src str,
        switch: Switch,
    },
    PositionalArgumentCountMismatch {
        recipe: Box<Recipe<'src>>,
        found: usize,
        min: usize,
        max: usize,
    },
    RecipeDisabled {
        recipe: Modulepath,
        modules: BTreeSet<Modulepath>,
    },
    UnknownOption {
        recipe: &'src str,
        switch: Switch,
    },
    UnknownRecipe {
        recipe: String,
        suggestion: Option<Suggestion<'src>>,
    },
    UnknownSubmodule {
        path: String,
        suggestion: Option<Suggestion<'src>>,
    },
}

#[derive(Debug)]
pub(crate) struct Invocation<'src: 'run, 'run> {
    pub(crate) arguments: Vec<Value>,
    pub(crate) recipe: &'run Recipe<'src>,
}

#[derive(Debug, PartialEq)]
pub(crate) struct Suggestion<'src> {
    pub(crate) name: &'src str,
    pub(crate) target: Option<&'src str>,
}

/// The product's judges in the place of regular expressions.
#[derive(Clone, Debug, PartialEq)]
pub(crate) struct Pattern(pub(crate) Rule);

impl Pattern {
    pub(crate) fn is_match(&self, text: &str) -> bool {
        self.0.accepts(text)
    }
}

/// A number that stands for a recipe or a parameter.
#[derive(Clone, Copy, Debug, Default, Eq, Hash, PartialEq)]
pub(crate) struct Number(pub(crate) usize);

#[derive(Clone, Debug, PartialEq)]
pub(crate) struct Expression<'src>(pub(crate) &'src str);

impl Display for Expression<'_> {
    fn fmt(&self, f: &mut Formatter) -> fmt::Result {
        f.write_str(self.0)
    }
}

#[derive(Clone, Debug, Default, PartialEq)]
pub(crate) struct AttributeSet<'src>(PhantomData<&'src str>);

impl AttributeSet<'_> {
    pub(crate) fn private(&self) -> bool {
        false
    }
}

#[derive(Clone, Copy, Debug, Eq, Ord, PartialEq, PartialOrd)]
pub(crate) enum TokenKind {
    Identifier,
}

#[derive(Clone, Copy, Debug, PartialEq)]
pub(crate) struct ListOperator;

impl ListOperator {
    pub(crate) fn separator(self) -> &'static str {
        ""
    }
}

pub(crate) struct CompileErrorKind<'src>(PhantomData<&'src str>);
pub(crate) struct CompileError<'src>(PhantomData<&'src str>);

impl<'src> CompileError<'src> {
    pub(crate) fn new(_token: Token<'src>, _kind: CompileErrorKind<'src>) -> Self {
        Self(PhantomData)
    }
}

pub(crate) struct Lexer<'src>(PhantomData<&'src str>);

/// Fields of a justfile or a recipe that the parser never reads.
macro_rules! unread {
    ($($name:ident)*) => {
        $(#[derive(Clone, Debug, PartialEq)]
        pub(crate) struct $name<'src>(PhantomData<&'src str>);

        impl<'src> Keyed<'src> for $name<'src> {
            fn key(&self) -> &'src str {
                ""
            }
        })*
    };
}

unread! { Assignment Dependency FunctionDefinition Line StringLiteral }

#[derive(Debug, Default, PartialEq)]
pub(crate) struct Settings;

#[derive(Debug, Eq, Ord, PartialEq, PartialOrd)]
pub(crate) struct UnstableFeature;

#[derive(Debug, PartialEq)]
pub(crate) struct Warning;

/// just's coloured output, without colours.
#[derive(Clone, Copy)]
pub(crate) struct Color;

impl Color {
    pub(crate) fn annotation(self) -> Self {
        self
    }

    pub(crate) fn context(self) -> Self {
        self
    }

    pub(crate) fn parameter(self) -> Self {
        self
    }

    pub(crate) fn string(self) -> Self {
        self
    }

    pub(crate) fn prefix(self) -> &'static str {
        ""
    }

    pub(crate) fn suffix(self) -> &'static str {
        ""
    }

    pub(crate) fn paint<'a>(self, text: &'a str) -> &'a str {
        text
    }
}

pub(crate) trait ColorDisplay {
    fn fmt(&self, f: &mut Formatter, color: Color) -> fmt::Result;

    fn color_display(&self, color: Color) -> Painted<'_>
    where
        Self: Sized,
    {
        Painted(self, color)
    }
}

pub(crate) struct Painted<'a>(&'a dyn ColorDisplay, Color);

impl Display for Painted<'_> {
    fn fmt(&self, f: &mut Formatter) -> fmt::Result {
        self.0.fmt(f, self.1)
    }
}

pub(crate) struct Element<'a>(pub(crate) &'a str);

impl ColorDisplay for Element<'_> {
    fn fmt(&self, f: &mut Formatter, _color: Color) -> fmt::Result {
        f.write_str(self.0)
    }
}

pub(crate) trait Ordinal {
    fn ordinal(&self) -> Self;
}

impl Ordinal for usize {
    fn ordinal(&self) -> usize {
        self + 1
    }
}

pub(crate) trait UnicodeWidthChar {
    fn width(self) -> Option<usize>;
}

impl UnicodeWidthChar for char {
    fn width(self) -> Option<usize> {
        Some(1)
    }
}
