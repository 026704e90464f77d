// Generated from crates/shapers_base/src/plan/breaks.rt by rust/erase; edit the source.

/// Which places of a text are flagged unsafe to break.
#[derive(Clone, Copy, Debug, PartialEq, Eq, Default, Hash)]
pub enum BreakFlags {
    /// Those that the code of HarfBuzz flags.
    #[default]
    AsCode,
    /// Those too where a piece of the broken text would be shaped differently: in joining, in the forms
    /// of the universal shaper, in Hangul, in Thai's private use forms, and in Indic graphemes that
    /// begin with ZWNJ.
    Sound,
}
