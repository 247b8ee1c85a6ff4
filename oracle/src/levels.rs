//! Levels of definitions, the innermost last.

/// What stands for each name in force, level over level.
#[derive(Clone, Debug)]
pub struct Levels<T> {
    open: Vec<Vec<(String, T)>>,
}

impl<T> Levels<T> {
    /// One level, empty.
    pub fn new() -> Self {
        Levels { open: vec![Vec::new()] }
    }

    /// Opens a level.
    pub fn enter(&mut self) {
        self.open.push(Vec::new());
    }

    /// Ends the innermost level and its definitions.
    pub fn leave(&mut self) {
        self.open.pop();
    }

    /// Adds a definition to the innermost level.
    pub fn define(&mut self, name: &str, meaning: T) {
        if let Some(level) = self.open.last_mut() {
            level.push((name.to_owned(), meaning));
        }
    }

    /// Whether the innermost level defines the name.
    pub fn defined_here(&self, name: &str) -> bool {
        self.open.last().is_some_and(|level| level.iter().any(|(known, _)| known == name))
    }

    /// The innermost definition of the name.
    pub fn find(&self, name: &str) -> Option<&T> {
        self.innermost_first().find(|(known, _)| known == name).map(|(_, meaning)| meaning)
    }

    /// The innermost definition of the name, to be changed.
    pub fn find_mut(&mut self, name: &str) -> Option<&mut T> {
        self.open
            .iter_mut()
            .rev()
            .flat_map(|level| level.iter_mut().rev())
            .find(|(known, _)| known == name)
            .map(|(_, meaning)| meaning)
    }

    /// All definitions in force or hidden, the newest first.
    pub fn innermost_first(&self) -> impl Iterator<Item = &(String, T)> {
        self.open.iter().rev().flat_map(|level| level.iter().rev())
    }
}

impl<T> Default for Levels<T> {
    fn default() -> Self {
        Levels::new()
    }
}
