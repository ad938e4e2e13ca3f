//! The density of a record, by its word.

#[derive(Clone, Copy, Debug, PartialEq, Eq)]
pub enum Density {
    Mfm = 0,
    Gcr = 1,
}

impl Density {
    pub fn of_word(word: &str) -> Option<Density> {
        match word {
            "mfm" => Some(Density::Mfm),
            "gcr" => Some(Density::Gcr),
            _ => None,
        }
    }

    pub fn word(self) -> &'static str {
        match self {
            Density::Mfm => "mfm",
            Density::Gcr => "gcr",
        }
    }
}
