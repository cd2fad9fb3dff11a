//! Enums that are written as words, as arguments of the program.

/// Each case is written as its word, and read from it.
macro_rules! spelled {
    ($kind:ident, $what:literal, $($case:ident = $word:literal),+) => {
        impl std::str::FromStr for $kind {
            type Err = String;

            fn from_str(word: &str) -> Result<$kind, String> {
                match word {
                    $($word => Ok($kind::$case),)+
                    _ => Err(format!(concat!("no ", $what, ": {}"), word)),
                }
            }
        }

        impl std::fmt::Display for $kind {
            fn fmt(&self, f: &mut std::fmt::Formatter) -> std::fmt::Result {
                f.pad(match self {
                    $($kind::$case => $word,)+
                })
            }
        }
    };
}
