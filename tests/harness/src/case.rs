//! What a comparison brings: kinds of cases, and the case of each.

use generator::random::Random;

/// What stands in the place of a file.
pub enum Input {
    Text(Vec<u8>),
    Missing,
    Folder,
}

impl Input {
    pub fn text(&self) -> Option<&[u8]> {
        match self {
            Input::Text(text) => Some(text),
            _ => None,
        }
    }

    /// Why it cannot be opened or read, in the system's words.
    pub fn unread(&self) -> Option<&'static str> {
        match self {
            Input::Text(_) => None,
            Input::Missing => Some("No such file or directory"),
            Input::Folder => Some("Is a directory"),
        }
    }

    /// Why it is no image, if so.
    pub fn no_image(&self) -> Option<&'static str> {
        let is_bad = |text| model::imagefile::read(text).is_err();
        self.unread().or(self.text().filter(|text| is_bad(text)).map(|_| "no image file"))
    }
}

/// The files of a folder, and what a program has to make of them.
pub trait Case {
    fn files(&self) -> Vec<(&'static str, &Input)>;

    /// The whole standard output, by the model.
    fn expected(&self) -> Vec<u8>;

    /// The lines on standard error, in any order: the reasons for a refusal.
    fn reasons(&self) -> Vec<String>;

    /// Counts how often the case meets each event of the comparison, and answers how many lines of
    /// an accepted case are printed.
    fn count(&self, times: &mut [usize]) -> usize;
}

/// A row of the table of all kinds of cases.
pub trait Kind: Sync + 'static {
    type Case: Case;

    fn name(&self) -> &'static str;

    /// So many cases of this kind are in every turn through the table.
    fn weight(&self) -> usize;

    /// Fewer cases of this kind fail the run.
    fn least(&self) -> usize {
        1
    }

    /// From its random numbers and its number among those of the kind.
    fn case(&self, random: &mut Random, ordinal: usize) -> Self::Case;

    /// The model's answer is what the kind was made for: a check of the generator, and of the
    /// model.
    fn check(&self, case: &Self::Case, expected: &[u8]) -> Result<(), &'static str>;
}

/// For a kind whose cases are not what the model says of them.
pub const DISAGREE: &str = "the generator and the model disagree";
