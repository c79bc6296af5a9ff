//! What literal.rs takes from its neighbours, as little of it as it needs: our own.

pub mod vocab {
    /// From a place of the source up to another; a span without a source is marked by the mark itself.
    #[derive(Clone, Copy, Debug, PartialEq, Eq, Hash)]
    pub struct Span {
        from: u32,
        to: u32,
        detached: bool,
    }

    impl Span {
        pub const SYNTHETIC: Span = Span::detached(0, 0);

        pub const fn over(from: u32, to: u32) -> Span {
            Span { from, to, detached: false }
        }

        pub const fn detached(from: u32, to: u32) -> Span {
            Span { from, to, detached: true }
        }

        pub const fn start(&self) -> u32 {
            self.from
        }

        pub const fn end(&self) -> u32 {
            self.to
        }

        pub const fn is_synthetic(&self) -> bool {
            self.detached
        }
    }

    #[derive(Clone, Debug, PartialEq, Eq, Hash)]
    pub struct Meta {
        pub span: Span,
    }
}

pub mod dialect {
    #[derive(Clone, Copy, Debug)]
    pub struct StringLiteralSyntax {
        pub backslash_escapes: bool,
    }

    impl StringLiteralSyntax {
        pub const ANSI: StringLiteralSyntax = StringLiteralSyntax { backslash_escapes: false };
    }
}

pub mod ty {
    #[derive(Clone, Copy, Debug, PartialEq, Eq, Hash)]
    pub enum TimeZone {
        Unspecified,
        With,
        Without,
    }

    /// Any one: which it is decides nothing.
    #[derive(Clone, Copy, Debug, PartialEq, Eq, Hash)]
    pub enum IntervalFields {
        Day,
    }
}
