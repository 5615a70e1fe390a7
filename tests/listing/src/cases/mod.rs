//! The cases: texts and lists of words, and what each call has to leave behind.

mod damage;
mod lists;
mod pieces;
mod random_text;
mod structure;

use crate::call::{Call, Function, Left};
use crate::random::Random;
use crate::rules::{Refusal, Rules};

/// A call and what it has to leave behind.
pub struct Case {
    pub call: Call,
    pub expected: Left,
}

/// Makes cases and hands each on.
pub struct Cases<'a> {
    rules: &'a Rules,
    random: Random,
    to: &'a mut dyn FnMut(Case),
}

/// All cases: those that are listed, and so many texts and lists by chance.
pub fn all(rules: &Rules, seed: u64, count: usize, to: &mut dyn FnMut(Case)) {
    let random = Random::new(seed);
    let mut cases = Cases { rules, random, to };
    pieces::all(&mut cases);
    structure::all(&mut cases);
    damage::all(&mut cases);
    lists::all(&mut cases);
    random_text::all(&mut cases, count);
}

impl Cases<'_> {
    /// A call with so many random bytes of room.
    fn call(
        &mut self,
        function: Function,
        input: &[u8],
        room: usize,
        due: Result<Vec<u8>, Refusal>,
    ) {
        let output = self.random.bytes(room);
        let input = input.to_vec();
        let call = Call {
            function,
            input,
            output,
        };
        let expected = call.leaving(due);
        (self.to)(Case { call, expected });
    }

    /// A text, and when it is accepted there and back: its words are listed in its fixed spelling, which is assembled to
    /// the same words.
    fn text(&mut self, text: impl AsRef<[u8]>) {
        let text = text.as_ref();
        let due = self.rules.assemble(text);
        let room = self.room(&due);
        self.call(Function::Assemble, text, room, due.clone());
        if let (Ok(words), Ok(spelling)) = (due, self.rules.spelling(text)) {
            let beyond = self.random.below(4);
            self.call(
                Function::List,
                &words,
                spelling.len() + beyond,
                Ok(spelling.clone()),
            );
            self.call(
                Function::Assemble,
                &spelling,
                words.len() + beyond,
                Ok(words),
            );
        }
    }

    /// A list, and when it is accepted there and back.
    fn list(&mut self, words: &[u8]) {
        let due = self.rules.list(words);
        let room = self.room(&due);
        self.call(Function::List, words, room, due.clone());
        if let Ok(text) = due {
            let beyond = self.random.below(4);
            self.call(
                Function::Assemble,
                &text,
                words.len() + beyond,
                Ok(words.to_vec()),
            );
        }
    }

    /// Room for a result: mostly enough, at times short.
    fn room(&mut self, due: &Result<Vec<u8>, Refusal>) -> usize {
        let short = self.random.once_in(8);
        match due {
            Ok(bytes) if short => self.random.below(bytes.len() + 1),
            Ok(bytes) => bytes.len() + self.random.below(9),
            Err(_) => self.random.below(40),
        }
    }

    /// An input with no room, with short, exact and long room.
    fn rooms(&mut self, function: Function, input: &[u8]) {
        let due = match function {
            Function::Assemble => self.rules.assemble(input),
            Function::List => self.rules.list(input),
        };
        let exact = due.as_ref().map_or(0, Vec::len);
        for room in [
            0,
            1,
            exact / 2,
            exact.saturating_sub(1),
            exact,
            exact + 1,
            exact + 5000,
        ] {
            self.call(function, input, room, due.clone());
        }
    }
}
