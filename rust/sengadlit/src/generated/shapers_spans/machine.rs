// Generated from crates/shapers_spans/src/machine.rt by rust/erase; edit the source.

//! Machines that read categories, one after another, and machines by tables.

use crate::generated::shapers_base::buffer::GlyphInfo;

// What stands for a kind in a table where nothing ends.
const NO_END: u8 = 255;

/// A machine for a grammar: its state says what the rules take from there on.
///
/// Where nothing ends in a state, its rank says how many more states at most come before one in
/// which something does, one that cycles, or the dead one. In a state that cycles, each joiner leads
/// back to it: as many joiners as there are may stand there. The waiting states are those that cycle
/// and those on the way to them, to which joiners alone lead. A text that begins with two joiners
/// leads to one and the same state that cycles, whichever joiners they are.
pub trait Machine {
    /// The kind of a glyph that begins nothing that a rule takes.
    ///
    /// <details><summary>Contract</summary>
    ///
    /// # Contract
    ///
    /// ```text
    /// ensures kind { result ≡ (grammar self.now).other }
    /// ensures fits { result ≤ 15 }
    /// ```
    ///
    /// </details>
    fn other(&self) -> u8;

    /// The state in front of a syllable.
    ///
    /// <details><summary>Contract</summary>
    ///
    /// # Contract
    ///
    /// ```text
    /// ensures state { is_state self.now result }
    /// ensures first { result ≡ first self.now }
    /// ensures alive { 0 < rank self.now result }
    /// ensures rank { rank self.now result ≤ 2 }
    /// ensures waits { waits self.now result ≡ false }
    /// ensures passes { (grammar self.now).passes [] ≡ false }
    /// ensures fit { KindsFit (grammar self.now) }
    /// ensures kinds { (w : List ℕ) → IsKind (grammar self.now) w (ends self.now result w) }
    /// ```
    ///
    /// - `IsKind`, `KindsFit`: `crates/shapers_spans/specs/Grammar.antt`
    ///
    /// </details>
    fn start(&self) -> u8;

    /// The state behind one more category.
    ///
    /// # Panics
    ///
    /// May panic where `state` is none of the machine's.
    ///
    /// <details><summary>Contract</summary>
    ///
    /// # Contract
    ///
    /// ```text
    /// requires { is_state self.now state }
    /// ensures state { is_state self.now result }
    /// ensures ends { (w : List ℕ) →
    ///     ends self.now state (category ∷ w) ≡ ends self.now result w }
    /// ensures falls { 0 < rank self.now state → ends self.now result [] ≡ None →
    ///     cycles self.now result ≡ false → rank self.now result < rank self.now state }
    /// ensures rank { rank self.now result ≤ 2 }
    /// ensures one { state ≡ first self.now → is_joiner self.now category ≡ true →
    ///     begun self.now result ≡ true }
    /// ensures begun { begun self.now result ≡ true →
    ///     (cycles self.now result ≡ false) × (rank self.now result ≤ 1) }
    /// ensures two { begun self.now state ≡ true → is_joiner self.now category ≡ true →
    ///     (result ≡ cycled self.now) × (ends self.now result [] ≡ None) }
    /// ensures same { cycles self.now state ≡ true → is_joiner self.now category ≡ true →
    ///     result ≡ state }
    /// ensures waits { waits self.now result ≡ true →
    ///     (is_joiner self.now category ≡ true)
    ///     × ((waits self.now state ≡ true) ⊎ (ends self.now state [] ≡ None → ⊥)) }
    /// ```
    ///
    /// </details>
    fn next(&self, state: u8, category: u8) -> u8;

    /// Whether nothing ends from here on.
    ///
    /// # Panics
    ///
    /// May panic where `state` is none of the machine's.
    ///
    /// <details><summary>Contract</summary>
    ///
    /// # Contract
    ///
    /// ```text
    /// requires { is_state self.now state }
    /// ensures dead { IsTrue result → (w : List ℕ) → ends self.now state w ≡ None }
    /// ensures alive { result ≡ false → 0 < rank self.now state }
    /// ```
    ///
    /// </details>
    fn is_dead(&self, state: u8) -> bool;

    /// The kind of what ends here, if anything does.
    ///
    /// # Panics
    ///
    /// May panic where `state` is none of the machine's.
    ///
    /// <details><summary>Contract</summary>
    ///
    /// # Contract
    ///
    /// ```text
    /// requires { is_state self.now state }
    /// ensures { result ≡ ends self.now state [] }
    /// ```
    ///
    /// </details>
    fn kind(&self, state: u8) -> Option<u8>;

    /// Whether joiners, as many as there are, lead from this state back to it.
    ///
    /// # Panics
    ///
    /// May panic where `state` is none of the machine's.
    ///
    /// <details><summary>Contract</summary>
    ///
    /// # Contract
    ///
    /// ```text
    /// requires { is_state self.now state }
    /// ensures cycles { result ≡ cycles self.now state }
    /// ensures waits { IsTrue result → waits self.now state ≡ true }
    /// ensures stays { IsTrue result → (k : ℕ) → is_joiner self.now k ≡ true → (w : List ℕ) →
    ///     ends self.now state (k ∷ w) ≡ ends self.now state w }
    /// ```
    ///
    /// </details>
    fn cycles(&self, state: u8) -> bool;

    /// The first place from `n` on whose glyph is read.
    ///
    /// # Panics
    ///
    /// May panic where `n` is above the number of glyphs.
    ///
    /// <details><summary>Contract</summary>
    ///
    /// # Contract
    ///
    /// ```text
    /// requires { n ≤ length glyphs.now }
    /// ensures place { result ≡ n + reach_of (grammar self.now).passes (drop n glyphs.now) 0 }
    /// ensures within { result ≤ length glyphs.now }
    /// ensures end { (grammar self.now).passes [] ≡ false }
    /// ```
    ///
    /// - `reach_of`: `crates/shapers_spans/specs/Grammar.antt`
    ///
    /// </details>
    fn next_read(&self, glyphs: &[GlyphInfo], n: usize) -> usize;
}

/// The tables of a machine, and what it passes over. A row of states, one for each class of
/// categories, says what comes behind a state; behind the dead state are the states that cycle.
pub trait MachineTables {
    /// The kind of a glyph that begins nothing that a rule takes.
    ///
    /// <details><summary>Contract</summary>
    ///
    /// # Contract
    ///
    /// ```text
    /// ensures kind { result ≡ (grammar self.now).other }
    /// ensures fits { result ≤ 15 }
    /// ```
    ///
    /// </details>
    fn other_kind(&self) -> u8;

    /// The state in front of a syllable.
    ///
    /// <details><summary>Contract</summary>
    ///
    /// # Contract
    ///
    /// ```text
    /// ensures first { result ≡ 0 }
    /// ensures passes { (grammar self.now).passes [] ≡ false }
    /// ensures tables { AreTablesOf (grammar self.now) (tables self.now) (cycling self.now) }
    /// ```
    ///
    /// - `AreTablesOf`: `crates/shapers_spans/specs/Cycling.antt`
    ///
    /// </details>
    fn first_state(&self) -> u8;

    /// The state from which nothing ends.
    ///
    /// <details><summary>Contract</summary>
    ///
    /// # Contract
    ///
    /// ```text
    /// ensures state { result ≡ (cycling self.now).dead }
    /// ensures tables { AreTablesOf (grammar self.now) (tables self.now) (cycling self.now) }
    /// ```
    ///
    /// - `AreTablesOf`: `crates/shapers_spans/specs/Cycling.antt`
    ///
    /// </details>
    fn dead_state(&self) -> u8;

    /// The class of each category.
    ///
    /// <details><summary>Contract</summary>
    ///
    /// # Contract
    ///
    /// ```text
    /// ensures classes { result.now ≡ (tables self.now).class_of }
    /// ensures tables { AreTablesOf (grammar self.now) (tables self.now) (cycling self.now) }
    /// ```
    ///
    /// - `AreTablesOf`: `crates/shapers_spans/specs/Cycling.antt`
    ///
    /// </details>
    fn classes(&self) -> &[u8; 256];

    /// How long a row is: a place for each class.
    ///
    /// <details><summary>Contract</summary>
    ///
    /// # Contract
    ///
    /// ```text
    /// ensures { result ≡ (tables self.now).row_len }
    /// ```
    ///
    /// </details>
    fn row_len(&self) -> usize;

    /// The next state, a row for each state.
    ///
    /// <details><summary>Contract</summary>
    ///
    /// # Contract
    ///
    /// ```text
    /// ensures { result.now ≡ (tables self.now).rows }
    /// ```
    ///
    /// </details>
    fn rows(&self) -> &[u8];

    /// The kind of what ends in each state, 255 where nothing does.
    ///
    /// <details><summary>Contract</summary>
    ///
    /// # Contract
    ///
    /// ```text
    /// ensures { result.now ≡ (tables self.now).kind_in }
    /// ```
    ///
    /// </details>
    fn kinds(&self) -> &[u8];

    /// The first place from `n` on whose glyph is read.
    ///
    /// <details><summary>Contract</summary>
    ///
    /// # Contract
    ///
    /// ```text
    /// requires { n ≤ length glyphs.now }
    /// ensures place { result ≡ n + reach_of (grammar self.now).passes (drop n glyphs.now) 0 }
    /// ensures within { result ≤ length glyphs.now }
    /// ensures end { (grammar self.now).passes [] ≡ false }
    /// ```
    ///
    /// - `reach_of`: `crates/shapers_spans/specs/Grammar.antt`
    ///
    /// </details>
    fn read_from(&self, glyphs: &[GlyphInfo], n: usize) -> usize;
}

impl<T: MachineTables> Machine for T {
    #[inline]
    fn other(&self) -> u8 {
        self.other_kind()
    }

    #[inline]
    fn start(&self) -> u8 {
        self.first_state()
    }

    #[inline]
    fn next(&self, state: u8, category: u8) -> u8 {
        let class = self.classes()[category as usize];
        self.rows()[state as usize * self.row_len() + class as usize]
    }

    #[inline]
    fn is_dead(&self, state: u8) -> bool {
        state == self.dead_state()
    }

    #[inline]
    fn kind(&self, state: u8) -> Option<u8> {
        let kind = self.kinds()[state as usize];
        if kind == NO_END { None } else { Some(kind) }
    }

    #[inline]
    fn cycles(&self, state: u8) -> bool {
        state > self.dead_state()
    }

    #[inline]
    fn next_read(&self, glyphs: &[GlyphInfo], n: usize) -> usize {
        self.read_from(glyphs, n)
    }
}
