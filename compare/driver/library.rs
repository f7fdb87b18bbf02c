//! The library as a party, called through the bridge. Calls that follow each other are sent ahead, so that the bridge
//! works on them while the other parties do their part; each answer is taken when its call is made, if the call and its
//! words are those that were foreseen.

use crate::bridge::Bridge;
use crate::call::{Call, Given};
use crate::party::Entries;
use model::Range;
use std::cell::RefCell;
use std::collections::VecDeque;

/// The bridge, the calls sent ahead whose answers aren't taken, and the words that the next of them finds.
struct Ahead {
    bridge: Bridge,
    foreseen: VecDeque<Call>,
    words: Vec<u64>,
}

impl Ahead {
    /// Sends calls ahead; the answers to what was foreseen and not made are dropped.
    fn send(&mut self, words: &[u64], calls: Vec<Call>) {
        while let Some(dropped) = self.foreseen.pop_front() {
            self.bridge.take(&dropped, &mut self.words);
        }
        self.bridge.send(words, &calls);
        self.words = words.to_vec();
        self.foreseen = calls.into();
    }

    /// Makes a call.
    fn make(&mut self, words: &mut [u64], call: &Call) -> Given {
        if self.foreseen.front() != Some(call) || self.words != words {
            self.send(words, vec![call.clone()]);
        }
        self.foreseen.pop_front();
        let given = self.bridge.take(call, &mut self.words);
        words.copy_from_slice(&self.words);
        given
    }
}

pub struct Library(RefCell<Ahead>);

impl Library {
    /// Starts the bridge by its command.
    pub fn start(command: &[String]) -> Result<Library, String> {
        let bridge = Bridge::start(command)?;
        Ok(Library(RefCell::new(Ahead { bridge, foreseen: VecDeque::new(), words: Vec::new() })))
    }
}

impl Entries for Library {
    /// How reports call it.
    fn name(&self) -> &'static str {
        "library"
    }

    /// Sends the calls.
    fn foresee(&self, words: &[u64], calls: &dyn Fn() -> Vec<Call>) {
        self.0.borrow_mut().send(words, calls());
    }

    /// The library's entry.
    fn call(&self, words: &mut [u64], call: &Call) -> Given {
        self.0.borrow_mut().make(words, call)
    }

    /// The library doesn't show its pending nodes.
    fn trail(&self, _: &[u64], _: Range) -> Option<Vec<u64>> {
        None
    }
}
