// Generated from crates/shapers_base/src/plan/planner.rt by rust/erase; edit the source.

use crate::support::prelude::*;

use crate::generated::shapers_base::buffer::{Script, ShaperError, Tag};
use crate::generated::shapers_base::font::Font;
use crate::generated::shapers_base::map::F_GLOBAL;
use crate::generated::shapers_base::plan::pause::Pause;
use crate::support::alloc::Global;

/// A request of a shaper to the map.
#[derive(Clone, Copy, Debug, PartialEq, Eq, Hash)]
pub enum Request {
    /// A feature, with flags and a value; 0 turns it off.
    Feature(Tag, u32, u32),
    /// A pause between two stages, with a function or without.
    Pause(Option<Pause>),
}

impl Default for Request {
    /// A pause without a function.
    #[inline]
    fn default() -> Self {
        Request::Pause(None)
    }
}

/// Collects what a shaper requests of the map for one script.
#[derive(Debug, PartialEq, Eq)]
pub struct Planner {
    pub(crate) script: Option<Script>,
    pub(crate) requests: Vec<Request>,
}

impl Planner {
    /// A planner without requests. It takes no memory.
    ///
    /// <details><summary>Contract</summary>
    ///
    /// # Contract
    ///
    /// ```text
    /// ensures { result ≡ record { script = script; requests = [] } }
    /// ```
    ///
    /// </details>
    #[inline]
    pub fn new(alloc: Global, script: Option<Script>) -> Self {
        Planner {
            script,
            requests: Vec::new(alloc),
        }
    }

    /// The script of the text, where it is known.
    ///
    /// <details><summary>Contract</summary>
    ///
    /// # Contract
    ///
    /// ```text
    /// ensures { result ≡ self.now.script }
    /// ```
    ///
    /// </details>
    #[inline]
    pub fn script(&self) -> Option<Script> {
        self.script
    }

    /// The requests so far, in order.
    ///
    /// <details><summary>Contract</summary>
    ///
    /// # Contract
    ///
    /// ```text
    /// ensures { result.now ≡ self.now.requests }
    /// ```
    ///
    /// </details>
    #[inline]
    pub fn requests(&self) -> &[Request] {
        self.requests.as_slice()
    }

    /// Whether the font has a feature by this tag.
    ///
    /// <details><summary>Contract</summary>
    ///
    /// # Contract
    ///
    /// ```text
    /// ensures { result ≡ (F.font face.now).offers tag }
    /// ```
    ///
    /// </details>
    #[inline]
    pub fn has_feature<F: Font>(&self, face: &F, tag: Tag) -> bool {
        face.has_feature(tag)
    }

    /// Requests a feature.
    ///
    /// # Errors
    ///
    /// [`Memory`]; the planner is as it was then.
    ///
    /// <details><summary>Contract</summary>
    ///
    /// # Contract
    ///
    /// ```text
    /// ensures ok { let list = Request.Feature tag flags value ∷ [] in
    ///     OnOk result (self.new ≡ with_requests list self.old) }
    /// ensures refusal { IsOkUnless result Memory }
    /// ensures err { OnErr result (self.new ≡ self.old) }
    /// ```
    ///
    /// - `with_requests`: `crates/shapers_base/specs/Planner.antt`
    ///
    /// </details>
    ///
    /// [`Memory`]: crate::ShaperError::Memory
    #[inline]
    pub fn add_feature(&mut self, tag: Tag, flags: u32, value: u32) -> Result<(), ShaperError> {
        self.add_requests(&[Request::Feature(tag, flags, value)])
    }

    /// Requests a feature that holds for the whole text.
    ///
    /// # Errors
    ///
    /// [`Memory`]; the planner is as it was then.
    ///
    /// <details><summary>Contract</summary>
    ///
    /// # Contract
    ///
    /// ```text
    /// ensures ok { let list = Request.Feature tag (bit_or flags F_GLOBAL) value ∷ [] in
    ///     OnOk result (self.new ≡ with_requests list self.old) }
    /// ensures refusal { IsOkUnless result Memory }
    /// ensures err { OnErr result (self.new ≡ self.old) }
    /// ```
    ///
    /// - `with_requests`: `crates/shapers_base/specs/Planner.antt`
    ///
    /// </details>
    ///
    /// [`Memory`]: crate::ShaperError::Memory
    #[inline]
    pub fn enable_feature(&mut self, tag: Tag, flags: u32, value: u32) -> Result<(), ShaperError> {
        self.add_feature(tag, flags | F_GLOBAL, value)
    }

    /// Requests that a feature be off.
    ///
    /// # Errors
    ///
    /// [`Memory`]; the planner is as it was then.
    ///
    /// <details><summary>Contract</summary>
    ///
    /// # Contract
    ///
    /// ```text
    /// ensures ok { let list = Request.Feature tag F_GLOBAL 0 ∷ [] in
    ///     OnOk result (self.new ≡ with_requests list self.old) }
    /// ensures refusal { IsOkUnless result Memory }
    /// ensures err { OnErr result (self.new ≡ self.old) }
    /// ```
    ///
    /// - `with_requests`: `crates/shapers_base/specs/Planner.antt`
    ///
    /// </details>
    ///
    /// [`Memory`]: crate::ShaperError::Memory
    #[inline]
    pub fn disable_feature(&mut self, tag: Tag) -> Result<(), ShaperError> {
        self.add_feature(tag, F_GLOBAL, 0)
    }

    /// Requests a pause between two stages.
    ///
    /// # Errors
    ///
    /// [`Memory`]; the planner is as it was then.
    ///
    /// <details><summary>Contract</summary>
    ///
    /// # Contract
    ///
    /// ```text
    /// ensures ok { OnOk result (self.new ≡ with_requests (Request.Pause pause ∷ []) self.old) }
    /// ensures refusal { IsOkUnless result Memory }
    /// ensures err { OnErr result (self.new ≡ self.old) }
    /// ```
    ///
    /// - `with_requests`: `crates/shapers_base/specs/Planner.antt`
    ///
    /// </details>
    ///
    /// [`Memory`]: crate::ShaperError::Memory
    #[inline]
    pub fn add_gsub_pause(&mut self, pause: Option<Pause>) -> Result<(), ShaperError> {
        self.add_requests(&[Request::Pause(pause)])
    }

    /// Requests a whole list: all of it, or nothing where memory is refused.
    ///
    /// # Errors
    ///
    /// [`Memory`]; the planner is as it was then.
    ///
    /// <details><summary>Contract</summary>
    ///
    /// # Contract
    ///
    /// ```text
    /// ensures ok { OnOk result (self.new ≡ with_requests requests.now self.old) }
    /// ensures refusal { IsOkUnless result Memory }
    /// ensures err { OnErr result (self.new ≡ self.old) }
    /// ```
    ///
    /// - `with_requests`: `crates/shapers_base/specs/Planner.antt`
    ///
    /// </details>
    ///
    /// [`Memory`]: crate::ShaperError::Memory
    #[inline]
    pub fn add_requests(&mut self, requests: &[Request]) -> Result<(), ShaperError> {
        self.requests.extend_from_slice(requests)?;
        Ok(())
    }
}
