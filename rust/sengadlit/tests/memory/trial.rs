//! A call of which each request for memory is refused in turn.

use crate::allocator::refusing;
use crate::common::buffers::{Contents, copy_of};
use sengadlit::buffer::{Buffer, ShaperError};
use sengadlit::plan::{Planner, Request};

/// What a call changes.
#[allow(clippy::large_enum_variant, reason = "each trial has one alone")]
pub enum Subject {
    Buffer(Buffer),
    Planner(Planner),
    /// The call changes nothing.
    Nothing,
}

/// All that a subject holds.
#[derive(Debug, PartialEq)]
pub enum Held {
    Buffer(Box<Contents>),
    Planner(Vec<Request>),
    Nothing,
}

impl Subject {
    /// The buffer of a trial that has one.
    pub fn buffer(&mut self) -> &mut Buffer {
        match self {
            Subject::Buffer(buffer) => buffer,
            _ => unreachable!("a trial with a buffer"),
        }
    }

    /// The planner of a trial that has one.
    pub fn planner(&mut self) -> &mut Planner {
        match self {
            Subject::Planner(planner) => planner,
            _ => unreachable!("a trial with a planner"),
        }
    }

    fn copy(&self) -> Self {
        match self {
            Subject::Buffer(buffer) => Subject::Buffer(copy_of(buffer)),
            Subject::Planner(planner) => {
                let mut copy = Planner::new(sengadlit::alloc::Global, planner.script());
                copy.add_requests(planner.requests()).unwrap();
                Subject::Planner(copy)
            }
            Subject::Nothing => Subject::Nothing,
        }
    }

    fn held(&self) -> Held {
        match self {
            Subject::Buffer(buffer) => Held::Buffer(Box::new(Contents::of(buffer))),
            Subject::Planner(planner) => Held::Planner(planner.requests().to_vec()),
            Subject::Nothing => Held::Nothing,
        }
    }
}

/// What a trial calls.
pub type Call = dyn Fn(&mut Subject) -> Result<(), ShaperError>;

/// A call, and what it is made on.
pub struct Trial {
    pub name: String,
    /// Whether the call takes memory; if not, there must be no request.
    pub may_refuse: bool,
    pub subject: Subject,
    pub call: Box<Call>,
}

/// Refuses each request of a trial in turn: how many there are.
pub fn refused_requests(trial: &Trial) -> usize {
    let mut done = trial.subject.copy();
    let (returned, requests) = refusing(0, || (trial.call)(&mut done));
    assert_eq!(returned, Ok(()), "{}", trial.name);
    for refused in 1..=requests {
        let mut subject = trial.subject.copy();
        let before = subject.held();
        let (returned, _) = refusing(refused, || (trial.call)(&mut subject));
        assert_eq!(returned, Err(ShaperError::Memory), "{}", trial.name);
        assert_eq!(subject.held(), before, "{}", trial.name);
        assert_eq!((trial.call)(&mut subject), Ok(()), "{}", trial.name);
        assert_eq!(subject.held(), done.held(), "{}", trial.name);
    }
    requests
}
