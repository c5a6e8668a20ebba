//! Why a call is refused.

use std::error::Error;
use std::fmt;

/// Each refusal with its number and its words, in the order in which they are tried.
macro_rules! refusals {
    ($($name:ident, $number:literal, $words:literal;)*) => {
        /// Why a call was refused. The table is then as it was, to the last bit.
        ///
        /// ```
        /// use lampfunnel::{Refusal, Slot, Table};
        /// let refusal = Table::fresh().by(Slot::ROOT).kill(7, 9).unwrap_err();
        /// assert_eq!(refusal, Refusal::NoSuchProcess);
        /// assert_eq!(refusal.to_string(), "no such process (-3)");
        /// assert_eq!((refusal.number(), refusal.errno()), (-3, Some(3)));
        /// ```
        #[derive(Clone, Copy, PartialEq, Eq, Hash, Debug)]
        #[non_exhaustive]
        pub enum Refusal { $(#[doc = concat!("`", $number, "`: ", $words, ".")] $name,)* }

        impl Refusal {
            /// All of them, in the order in which they are tried.
            pub const ALL: &'static [Refusal] = &[$(Refusal::$name,)*];

            /// The number that a refused call answers.
            #[must_use]
            pub fn number(self) -> i32 {
                match self { $(Refusal::$name => $number,)* }
            }

            /// What it says, in plain words.
            #[must_use]
            pub fn words(self) -> &'static str {
                match self { $(Refusal::$name => $words,)* }
            }
        }
    };
}

refusals! {
    NoCall, -1002, "no call has this number";
    Unsound, -1000, "the table is not sound";
    NotRunning, -1001, "the caller's slot holds no running process";
    Invalid, -22, "no such signal, or the children's namespace is not the caller's own";
    NotKept, -38, "process groups are not kept";
    NoSuchProcess, -3, "no such process";
    RootInit, -16, "the root init does not exit";
    NoChildren, -10, "no children";
    TooDeep, -28, "namespaces nest no deeper";
    DeadNamespace, -12, "the children's namespace is dead";
    NoRoom, -11, "no room for another process or namespace";
}

impl Refusal {
    /// The refusal that has a number; `None` for a number that none has.
    ///
    /// ```
    /// # use lampfunnel::Refusal;
    /// assert_eq!(Refusal::with_number(-11), Some(Refusal::NoRoom));
    /// assert_eq!(Refusal::with_number(0), None);
    /// ```
    #[must_use]
    pub fn with_number(number: i32) -> Option<Refusal> {
        Refusal::ALL.iter().copied().find(|refusal| refusal.number() == number)
    }

    /// Linux's error number, above 0; `None` where Linux has no like.
    ///
    /// ```
    /// # use lampfunnel::Refusal;
    /// assert_eq!(Refusal::NoChildren.errno(), Some(10)); // ECHILD
    /// assert_eq!(Refusal::NotRunning.errno(), None);
    /// ```
    #[must_use]
    pub fn errno(self) -> Option<i32> {
        (self.number() > -1000).then_some(-self.number())
    }
}

impl fmt::Display for Refusal {
    fn fmt(&self, f: &mut fmt::Formatter) -> fmt::Result {
        write!(f, "{} ({})", self.words(), self.number())
    }
}

impl Error for Refusal {}
