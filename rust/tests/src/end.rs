//! How the program runs a script.

use sengadlit::alloc::Global;

/// How a run ends: the status, what is printed, and the message.
#[derive(Clone, Debug, PartialEq, Eq)]
pub struct End {
    /// 0, 1 for a refusal, 2 for a line that can't be read.
    pub status: u8,
    /// What hooks returned, and the glyphs; nothing unless the status is 0.
    pub printed: Vec<u8>,
    /// Why the run ends, unless the status is 0.
    pub told: Vec<u8>,
}

impl End {
    /// How the run of a script by the program's library ends.
    pub fn of(script: &[u8]) -> Self {
        let (mut printed, mut told) = (Vec::new(), Vec::new());
        let status = hbhook::run_lines(Global, script, &mut printed, &mut told);
        End {
            status,
            printed,
            told,
        }
    }
}
