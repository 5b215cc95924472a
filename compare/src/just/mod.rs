//! just's own files, from the folder named by JUST_SRC, and stand-ins for what they use of the rest.
#![allow(dead_code, unused_imports, unused_parens, mismatched_lifetime_syntaxes, clippy::all)]

pub(crate) use {
    self::{
        alias::Alias,
        disabled::Disabled,
        invocation_parser::InvocationParser,
        justfile::Justfile,
        modulepath::Modulepath,
        name::Name,
        namepath::Namepath,
        parameter::Parameter,
        parameter_kind::ParameterKind,
        positional::Positional,
        recipe::Recipe,
        serde::{Deserialize, Deserializer, Serialize, Serializer},
        standins::*,
        switch::Switch,
        table::Table,
        token::Token,
        value::Value,
    },
    derive::Serialize,
    std::{
        collections::{BTreeMap, BTreeSet, HashMap, HashSet},
        fmt::{self, Debug, Display, Formatter},
        iter::{self, FromIterator},
        ops::{Deref, Index},
        path::{Path, PathBuf},
        slice,
        sync::Arc,
        vec,
    },
};

pub(crate) type RunResult<'a, T = ()> = Result<T, Error<'a>>;
pub(crate) type ModuleAlias<'src> = Alias<'src, Modulepath>;
pub(crate) type RecipeAlias<'src> = Alias<'src, Arc<Recipe<'src>>>;

/// A file of just, whole.
macro_rules! whole {
    ($($name:ident)*) => {
        $(pub(crate) mod $name {
            include!(concat!(env!("JUST_DIR"), "/", stringify!($name), ".rs"));
        })*
    };
}

/// The items that the build script cut out of a file of just.
macro_rules! cut {
    ($($name:ident)*) => {
        $(pub(crate) mod $name {
            include!(concat!(env!("OUT_DIR"), "/cut_", stringify!($name), ".rs"));
        })*
    };
}

whole! { alias disabled modulepath name namepath parameter parameter_kind positional switch table token value }
cut! { justfile lexer recipe }

pub(crate) mod invocation_parser {
    include!(concat!(env!("JUST_DIR"), "/invocation_parser.rs"));

    /// One call of `parse_invocation`, from a given word on, and the word where it stopped.
    pub(crate) fn order<'src: 'run, 'run>(
        root: &'run Justfile<'src>,
        arguments: &'run [&'run str],
        first: usize,
    ) -> (RunResult<'src, Invocation<'src, 'run>>, usize) {
        let mut parser = InvocationParser { arguments, next: first, root };
        let result = parser.parse_invocation();
        (result, parser.next)
    }
}

pub(crate) mod serde;
pub(crate) mod standins;
pub(crate) mod strsim;
