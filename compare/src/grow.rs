//! Builds just's tree from the tree that an image says.
use crate::{
    image::*,
    judge::{Judge, Rule},
    just,
    just::{
        Alias, AttributeSet, Disabled, Expression, Justfile, Modulepath, Name, Number, ParameterKind, Recipe,
        Settings, Table, Token, TokenKind,
    },
};
use std::{
    collections::{BTreeSet, HashSet},
    path::{Path, PathBuf},
    sync::Arc,
};

/// The names of parameters, by place: an error of just names its parameter so.
pub const PARAMETERS: [&str; 16] =
    ["p0", "p1", "p2", "p3", "p4", "p5", "p6", "p7", "p8", "p9", "p10", "p11", "p12", "p13", "p14", "p15"];

pub struct Grower<'src> {
    pub tree: &'src Tree,
    pub judge: Judge,
    /// A lax tree keeps all names, kinds and switches, but nothing in it is required, counted or
    /// judged: each order with a path and good switches can be read by it.
    pub lax: bool,
}

impl<'src> Grower<'src> {
    pub fn root(&self) -> Justfile<'src> {
        self.module(0, None, Vec::new())
    }

    fn module(&self, module: usize, name: Option<&'src str>, path: Vec<String>) -> Justfile<'src> {
        Justfile {
            absent_modules: self.rows(module, ABSENT_MODULE).map(|(_, r)| r.text.clone()).collect(),
            assignment_references: Default::default(),
            assignments: Table::new(),
            default: self.tree.modules[module].map(|n| self.recipe(n)),
            disabled_aliases: self.disabled(module, DISABLED_ALIAS),
            disabled_recipes: self.disabled(module, DISABLED_RECIPE),
            doc: None,
            evaluation_order: Vec::new(),
            functions: Table::new(),
            groups: Vec::new(),
            loaded: Vec::new(),
            module_aliases: self.module_aliases(module),
            module_path: modulepath(path.clone()),
            modules: self.modules(module, &path),
            name: name.map(|text| self.name(text)),
            private: false,
            recipe_aliases: self.recipe_aliases(module),
            recipes: self.recipes(module),
            settings: Settings,
            source: PathBuf::new(),
            unexports: BTreeSet::new(),
            unstable_features: BTreeSet::new(),
            warnings: Vec::new(),
            working_directory: PathBuf::new(),
        }
    }

    fn rows(&self, module: usize, kind: u8) -> impl Iterator<Item = (usize, &'src Row)> {
        let all = self.tree.rows.iter().enumerate();
        all.filter(move |(_, row)| row.module == module && row.kind == kind)
    }

    fn modules(&self, module: usize, path: &[String]) -> Table<'src, Justfile<'src>> {
        let below = |(_, row): (usize, &'src Row)| {
            let path = [path, std::slice::from_ref(&row.text)].concat();
            self.module(row.number, Some(&row.text), path)
        };
        self.rows(module, MODULE).map(below).collect()
    }

    fn module_aliases(&self, module: usize) -> Table<'src, just::ModuleAlias<'src>> {
        let alias = |(_, row): (usize, &'src Row)| Alias {
            attributes: AttributeSet::default(),
            name: self.name(&row.text),
            target: modulepath(self.tree.path(row.number)),
        };
        self.rows(module, MODULE_ALIAS).map(alias).collect()
    }

    fn recipes(&self, module: usize) -> Table<'src, Arc<Recipe<'src>>> {
        let recipe = |(_, row): (usize, &'src Row)| Arc::new(self.named_recipe(row.number, &row.text));
        self.rows(module, RECIPE).map(recipe).collect()
    }

    fn recipe_aliases(&self, module: usize) -> Table<'src, just::RecipeAlias<'src>> {
        let alias = |(_, row): (usize, &'src Row)| Alias {
            attributes: AttributeSet::default(),
            name: self.name(&row.text),
            target: self.recipe(row.number),
        };
        self.rows(module, RECIPE_ALIAS).map(alias).collect()
    }

    /// The label of a disabled name travels in the modules that just reports with it.
    fn disabled(&self, module: usize, kind: u8) -> Table<'src, Disabled<'src>> {
        let disabled = |(label, row): (usize, &'src Row)| Disabled {
            modules: BTreeSet::from([modulepath(vec![label.to_string()])]),
            name: self.name(&row.text),
        };
        self.rows(module, kind).map(disabled).collect()
    }

    /// A recipe under its first name, or under none.
    fn recipe(&self, number: usize) -> Arc<Recipe<'src>> {
        let named = self.tree.rows.iter().find(|r| r.kind == RECIPE && r.number == number);
        Arc::new(self.named_recipe(number, named.map_or("unnamed", |row| &row.text)))
    }

    fn named_recipe(&self, number: usize, name: &'src str) -> Recipe<'src> {
        let parameters = self.tree.recipes[number].iter().enumerate();
        Recipe {
            attributes: AttributeSet::default(),
            body: Vec::new(),
            dependencies: Vec::new(),
            doc: None,
            file_depth: 0,
            import_offsets: Vec::new(),
            module_path: None,
            name: self.name(name),
            number: Number(number),
            parameters: parameters.map(|(i, p)| self.parameter(i, p)).collect(),
            priors: 0,
            private: false,
            quiet: false,
            recipe_path: None,
            shebang: false,
            variable_references: HashSet::new(),
        }
    }

    fn parameter(&self, place: usize, p: &'src Parameter) -> just::Parameter<'src> {
        let default = p.default.as_deref().map(Expression);
        let pattern = p.pattern.map(|n| self.pattern(n));
        just::Parameter {
            default: if self.lax { Some(Expression("")) } else { default },
            export: false,
            flag: p.flag,
            help: None,
            kind: match p.kind {
                Kind::Singular => ParameterKind::Singular,
                Kind::Plus => ParameterKind::Plus,
                Kind::Star => ParameterKind::Star,
            },
            long: p.long.clone(),
            max: p.max.map(u64::from).filter(|_| !self.lax),
            min: p.min.map(u64::from).filter(|_| !self.lax),
            multiple: p.multiple,
            name: self.name(PARAMETERS[place]),
            number: Number(place),
            pattern: pattern.filter(|_| !self.lax),
            short: p.letter,
            value: p.value.then_some(Expression("")),
        }
    }

    fn pattern(&self, number: u8) -> just::Pattern {
        just::Pattern(Rule { judge: self.judge, pattern: self.tree.patterns[usize::from(number)].clone() })
    }

    fn name(&self, text: &'src str) -> Name<'src> {
        Name::from_identifier(Token {
            column: 0,
            kind: TokenKind::Identifier,
            length: text.len(),
            line: 0,
            offset: 0,
            path: Path::new(""),
            src: text,
        })
    }
}

fn modulepath(components: Vec<String>) -> Modulepath {
    Modulepath { components, spaced: false }
}
