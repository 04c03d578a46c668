//! Names by which people know variables and properties.

use crate::ids::IdentifierId;
use std::collections::{btree_map, BTreeMap};
use std::fmt;
use std::iter::FusedIterator;

/// Names for people: of variables, and of the properties whose key is a name.
///
/// A job knows both by the host's numbers, and its bytes have nothing else. A text may give names,
/// and use them in its paths; see `docs/NOTATION.md`. A [`Job`](crate::Job) that was read from such
/// a text keeps them.
///
/// ```
/// use scope_deps::{answer, Job, Names};
///
/// let names: Names = "name 1 athlete  name .10 lastSession".parse()?;
/// let text = "scope 7 block 7 assumes athlete candidate athlete?.lastSession.11";
/// let job: Job = names.read_job(text)?;
/// assert_eq!(job, "scope 7 block 7 assumes 1 candidate 1?.10.11".parse()?);
/// let answer = answer(&job)?;
/// assert_eq!(answer.paths()[0].with_names(&names).to_string(), "athlete.lastSession");
/// assert_eq!(answer.paths()[0].to_string(), "1.10");
/// # Ok::<(), Box<dyn std::error::Error>>(())
/// ```
#[derive(Clone, Debug, Default, PartialEq, Eq, Hash)]
pub struct Names {
    names: BTreeMap<Named, String>,
    variables: BTreeMap<String, IdentifierId>,
    properties: BTreeMap<String, u64>,
}

/// What can have a name, by the host's number for it.
#[derive(Clone, Copy, Debug, PartialEq, Eq, PartialOrd, Ord, Hash)]
pub enum Named {
    /// A variable.
    Variable(IdentifierId),
    /// A property whose key is a name.
    Property(u64),
}

impl fmt::Display for Named {
    fn fmt(&self, f: &mut fmt::Formatter<'_>) -> fmt::Result {
        match self {
            Self::Variable(identifier) => write!(f, "variable {identifier}"),
            Self::Property(number) => write!(f, "property {number}"),
        }
    }
}

/// No names.
pub(crate) static NONE: Names = Names::new();

impl Names {
    /// No names.
    #[must_use]
    pub const fn new() -> Self {
        Self { names: BTreeMap::new(), variables: BTreeMap::new(), properties: BTreeMap::new() }
    }

    /// Gives a name to a variable or a property. The name that it has already may be given again.
    ///
    /// # Errors
    ///
    /// Where the text is no name, where what is named has another one already, and where the name
    /// is that of another variable or of another property.
    pub fn insert(&mut self, named: Named, name: &str) -> Result<(), NameError> {
        check(named, name)?;
        match self.names.get(&named) {
            Some(first) if first == name => return Ok(()),
            Some(first) => return Err(NameError::NamedAlready { named, first: first.clone() }),
            None => {}
        }
        let first = match named {
            Named::Variable(_) => self.variable(name).map(Named::Variable),
            Named::Property(_) => self.property(name).map(Named::Property),
        };
        if let Some(first) = first {
            return Err(NameError::Taken { name: name.to_string(), first });
        }
        self.names.insert(named, name.to_string());
        match named {
            Named::Variable(identifier) => drop(self.variables.insert(name.to_string(), identifier)),
            Named::Property(number) => drop(self.properties.insert(name.to_string(), number)),
        }
        Ok(())
    }

    /// The name of a variable or a property.
    #[must_use]
    pub fn get(&self, named: Named) -> Option<&str> {
        self.names.get(&named).map(String::as_str)
    }

    /// The variable with this name.
    #[must_use]
    pub fn variable(&self, name: &str) -> Option<IdentifierId> {
        self.variables.get(name).copied()
    }

    /// The property with this name.
    #[must_use]
    pub fn property(&self, name: &str) -> Option<u64> {
        self.properties.get(name).copied()
    }

    /// All names: those of variables, then those of properties, each by number.
    pub fn iter(&self) -> NamesIter<'_> {
        NamesIter(self.names.iter())
    }

    /// How many names there are.
    #[must_use]
    pub fn len(&self) -> usize {
        self.names.len()
    }

    /// Whether there is no name.
    #[must_use]
    pub fn is_empty(&self) -> bool {
        self.names.is_empty()
    }
}

impl<'a> IntoIterator for &'a Names {
    type Item = (Named, &'a str);
    type IntoIter = NamesIter<'a>;

    fn into_iter(self) -> NamesIter<'a> {
        self.iter()
    }
}

/// All names, as [`Names::iter`] gives them.
#[derive(Clone, Debug)]
#[must_use = "iterators do nothing unless they are used"]
pub struct NamesIter<'a>(btree_map::Iter<'a, Named, String>);

impl<'a> Iterator for NamesIter<'a> {
    type Item = (Named, &'a str);

    fn next(&mut self) -> Option<Self::Item> {
        self.0.next().map(|(named, name)| (*named, name.as_str()))
    }

    fn size_hint(&self) -> (usize, Option<usize>) {
        self.0.size_hint()
    }
}

impl ExactSizeIterator for NamesIter<'_> {}

impl FusedIterator for NamesIter<'_> {}

/// The word that may stand before a path, so that no variable can have it as its name.
pub(crate) const REACTIVE: &str = "reactive";

/// Whether the character can stand in a name.
pub(crate) fn is_name_character(character: char) -> bool {
    character.is_alphanumeric() || character == '_' || character == '$'
}

fn check(named: Named, name: &str) -> Result<(), NameError> {
    let starts_well = name.chars().next().is_some_and(|first| !first.is_numeric());
    if !starts_well || !name.chars().all(is_name_character) {
        return Err(NameError::NoName { name: name.to_string() });
    }
    match named {
        Named::Variable(_) if name == REACTIVE => Err(NameError::Reserved),
        _ => Ok(()),
    }
}

/// Why a name cannot be given.
#[derive(Clone, Debug, PartialEq, Eq, Hash)]
#[non_exhaustive]
pub enum NameError {
    /// It is no name: one has letters, digits, `_` and `$`, and no digit first.
    NoName {
        /// The text.
        name: String,
    },
    /// No variable can be named `reactive`, which says in the notation that a variable is reactive.
    Reserved,
    /// What is named has another name already.
    NamedAlready {
        /// What is named.
        named: Named,
        /// The name that it has.
        first: String,
    },
    /// Another variable, or another property, has the name.
    Taken {
        /// The name.
        name: String,
        /// What has it.
        first: Named,
    },
}

impl fmt::Display for NameError {
    fn fmt(&self, f: &mut fmt::Formatter<'_>) -> fmt::Result {
        match self {
            Self::NoName { name } => {
                write!(f, "`{name}` is no name, which has letters, digits, `_` and `$`, and no digit first")
            }
            Self::Reserved => write!(f, "`{REACTIVE}` is a word of the notation, and no variable's name"),
            Self::NamedAlready { named, first } => write!(f, "{named} has the name `{first}` already"),
            Self::Taken { name, first } => write!(f, "`{name}` is the name of {first} already"),
        }
    }
}

impl std::error::Error for NameError {}
