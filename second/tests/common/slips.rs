//! What the tests of wrong programs share.

/// The slips, and a list of all of them.
macro_rules! slips {
    ($($slip:ident,)*) => {
        #[derive(Clone, Copy, PartialEq, Eq, Debug)]
        pub enum Slip {
            $($slip,)*
        }

        const ALL: &[Slip] = &[$(Slip::$slip,)*];
    };
}
