//! What was asked and answered before. Views, questions and answers are kept as numbers, so that many fit.

use crate::hash::{Hasher, Key};
use crate::memory::{one_more, room, Refused};
use crate::set::Part;
use std::collections::HashMap;
use std::hash::{BuildHasherDefault, Hash};
use std::hint::black_box;
use std::num::{NonZeroU16, NonZeroU32};

/// Different values, numbered from 1 in the order in which they came.
#[derive(Debug)]
struct Numbered<T> {
    values: Vec<T>,
    numbers: HashMap<T, NonZeroU32, BuildHasherDefault<Hasher>>,
}

impl<T: Clone + Eq + Hash> Numbered<T> {
    fn new() -> Numbered<T> {
        Numbered {
            values: Vec::new(),
            numbers: HashMap::default(),
        }
    }

    fn number(&mut self, value: &T) -> Result<NonZeroU32, Refused> {
        if let Some(number) = self.numbers.get(value) {
            return Ok(*number);
        }
        self.numbers.try_reserve(1).map_err(|_| Refused)?;
        one_more(&mut self.values)?;
        self.values.push(value.clone());
        let count = u32::try_from(self.values.len()).ok().and_then(NonZeroU32::new);
        let number = count.expect("there are about MOST_VALUES");
        self.numbers.insert(value.clone(), number);
        Ok(number)
    }

    fn value(&self, number: NonZeroU32) -> &T {
        &self.values[number.get() as usize - 1]
    }
}

/// What the users see, by its number until all is forgotten.
#[derive(Clone, Copy, Debug, PartialEq, Eq)]
pub struct ViewId(pub u32);

/// A question by its number until all is forgotten.
#[derive(Clone, Copy, Debug, PartialEq, Eq)]
pub struct Question(NonZeroU32);

/// An answer by its number, and what the users see after it.
#[derive(Clone, Copy, Debug, PartialEq, Eq)]
pub struct Known {
    answer: NonZeroU32,
    pub after: ViewId,
}

/// A question, its answer, and what the users see after it.
#[derive(Clone, Copy, Debug)]
struct Entry {
    question: NonZeroU16,
    answer: NonZeroU16,
    after: ViewId,
}

impl Entry {
    /// None if a number is larger than those that are kept.
    fn new(Question(question): Question, known: Known) -> Option<Entry> {
        Some(Entry {
            question: question.try_into().ok()?,
            answer: known.answer.try_into().ok()?,
            after: known.after,
        })
    }

    fn is_of(self, Question(question): Question) -> bool {
        NonZeroU32::from(self.question) == question
    }
}

/// No block.
const NONE: u32 = u32::MAX;

/// How many answers a block has.
const ENTRIES: usize = 7;

/// Some answers of a view, in one line of the processor's cache, and the block with those that came before them.
#[derive(Debug)]
#[repr(align(64))]
struct Block {
    entries: [Option<Entry>; ENTRIES],
    before: u32,
}

/// The last block of a view's answers; and from which view, and by which question, it was reached first.
#[derive(Clone, Copy, Debug)]
struct Row {
    block: u32,
    way: Option<(Question, ViewId)>,
}

/// Answers `A` to questions `Q`.
#[derive(Debug)]
pub struct Answers<Q, A> {
    questions: Numbered<Q>,
    answers: Numbered<A>,
    views: Part,
    rows: Vec<Row>,
    blocks: Vec<Block>,
    /// The most bytes of views and blocks.
    most: usize,
}

/// There are few different ones; if there are more, those aren't kept, and all is forgotten soon.
const MOST_VALUES: usize = u16::MAX as usize;
/// What an answer takes with its share of its view, if a view has few.
const ANSWER: usize = 50;
/// What a view takes without its answers.
const VIEW: usize = std::mem::size_of::<Key>() + std::mem::size_of::<Row>() + 8;

impl<Q: Clone + Eq + Hash, A: Clone + Eq + Hash> Answers<Q, A> {
    /// At most about so many answers.
    pub fn new(most: usize) -> Result<Answers<Q, A>, Refused> {
        Ok(Answers {
            questions: Numbered::new(),
            answers: Numbered::new(),
            views: Part::new()?,
            rows: Vec::new(),
            blocks: Vec::new(),
            most: most.saturating_mul(ANSWER),
        })
    }

    /// Whether it is time to forget all.
    pub fn is_full(&self) -> bool {
        let bytes = self.rows.len() * VIEW + self.blocks.len() * std::mem::size_of::<Block>();
        let values = self.questions.values.len().max(self.answers.values.len());
        bytes > self.most || values >= MOST_VALUES
    }

    /// Forgets all: numbers of views mean nothing any more.
    pub fn forget(&mut self) -> Result<(), Refused> {
        (self.questions, self.answers) = (Numbered::new(), Numbered::new());
        (self.rows, self.blocks) = (Vec::new(), Vec::new());
        self.views = Part::new()?;
        Ok(())
    }

    /// The number of a view.
    fn view(&mut self, key: Key) -> Result<(ViewId, bool), Refused> {
        let (number, is_new) = self.views.insert(key)?;
        if is_new {
            one_more(&mut self.rows)?;
            self.rows.push(Row { block: NONE, way: None });
        }
        Ok((ViewId(number), is_new))
    }

    /// The numbers of views, whose answers are asked for next. What that needs is read for all of them first: so a processor
    /// waits for all as long as for one.
    pub fn views(&mut self, keys: impl Iterator<Item = Key> + Clone) -> Result<Vec<ViewId>, Refused> {
        black_box(keys.clone().fold(0, |all, key| all ^ self.views.near(key)));
        let places = keys.clone().map(|key| self.views.candidate(key));
        let places: Vec<Option<u32>> = places.collect();
        let mut seen = room(places.len())?;
        for (key, place) in keys.zip(places) {
            seen.push(match place {
                Some(place) if self.views.is_at(key, place) => ViewId(place),
                _ => self.view(key)?.0,
            });
        }
        let seen: Vec<ViewId> = seen;
        let last = seen.iter().map(|view| self.row(*view).block);
        let before = |at: u32| self.blocks.get(at as usize).map_or(NONE, |block| block.before);
        let blocks: Vec<u32> = last.map(before).collect();
        black_box(blocks.into_iter().map(before).fold(0, |all, at| all ^ at));
        Ok(seen)
    }

    pub fn key(&self, view: ViewId) -> Key {
        self.views.keys()[view.0 as usize]
    }

    fn row(&self, view: ViewId) -> &Row {
        &self.rows[view.0 as usize]
    }

    pub fn question(&mut self, question: &Q) -> Result<Question, Refused> {
        Ok(Question(self.questions.number(question)?))
    }

    pub fn get(&self, view: ViewId, question: Question) -> Option<Known> {
        let mut at = self.row(view).block;
        while let Some(block) = self.blocks.get(at as usize) {
            let mut entries = block.entries.iter().flatten();
            if let Some(entry) = entries.find(|entry| entry.is_of(question)) {
                return Some(Known {
                    answer: entry.answer.into(),
                    after: entry.after,
                });
            }
            at = block.before;
        }
        None
    }

    /// Keeps an answer that isn't known yet, if there aren't too many.
    pub fn put(&mut self, view: ViewId, question: Question, answer: &A, after: Key) -> Result<Known, Refused> {
        let answer = self.answers.number(answer)?;
        let (after, is_new) = self.view(after)?;
        if is_new {
            self.rows[after.0 as usize].way = Some((question, view));
        }
        let known = Known { answer, after };
        if let Some(entry) = Entry::new(question, known) {
            self.add(view, entry)?;
        }
        Ok(known)
    }

    fn add(&mut self, view: ViewId, entry: Entry) -> Result<(), Refused> {
        let before = self.row(view).block;
        let block = self.blocks.get_mut(before as usize);
        let free = block.and_then(|block| block.entries.iter_mut().find(|entry| entry.is_none()));
        if let Some(free) = free {
            *free = Some(entry);
            return Ok(());
        }
        one_more(&mut self.blocks)?;
        let block = u32::try_from(self.blocks.len()).expect("less than 2^32 blocks");
        self.rows[view.0 as usize].block = block;
        let mut entries = [None; ENTRIES];
        entries[0] = Some(entry);
        self.blocks.push(Block { entries, before });
        Ok(())
    }

    pub fn answer(&self, known: Known) -> &A {
        self.answers.value(known.answer)
    }

    /// From which view this one was reached first, and by which question.
    pub fn way(&self, view: ViewId) -> Option<(ViewId, &Q)> {
        let way = self.row(view).way;
        way.map(|(Question(number), from)| (from, self.questions.value(number)))
    }
}

#[cfg(test)]
mod tests {
    use super::*;
    use crate::hash::mixed;

    fn key(number: u64) -> Key {
        Key(mixed(number), mixed(number + 1))
    }

    /// All that was asked is answered as it was, and a view is reached as it was first.
    #[test]
    fn an_answer_is_the_one_that_was_kept() {
        let mut answers: Answers<u64, u64> = Answers::new(1 << 20).expect("memory");
        for n in 0..5000 {
            let (view, _) = answers.view(key(n / 17)).expect("memory");
            let question = answers.question(&(n % 17)).expect("memory");
            assert_eq!(answers.get(view, question), None);
            let known = answers.put(view, question, &(n % 7), key(n)).expect("memory");
            assert_eq!(answers.get(view, question), Some(known));
        }
        let views = answers.views((0..5000).map(|n| key(n / 17))).expect("memory");
        for (n, view) in (0..5000).zip(views) {
            let question = answers.question(&(n % 17)).expect("memory");
            let known = answers.get(view, question).expect("an answer");
            assert_eq!((answers.answer(known), answers.key(known.after)), (&(n % 7), key(n)));
            let way = answers.way(known.after);
            let way = way.map(|(from, question)| (answers.key(from), *question));
            assert_eq!(way, (n > 0).then_some((key(n / 17), n % 17)), "{n}");
        }
    }

    /// Until all is forgotten, it is told, and asked for again.
    #[test]
    fn an_answer_of_too_many_is_not_kept() {
        let mut answers: Answers<u64, u64> = Answers::new(1 << 20).expect("memory");
        let (view, _) = answers.view(key(0)).expect("memory");
        let question = answers.question(&0).expect("memory");
        for n in 0..MOST_VALUES as u64 {
            answers.answers.number(&n).expect("memory");
        }
        assert!(answers.is_full());
        let known = answers.put(view, question, &u64::MAX, key(1)).expect("memory");
        assert_eq!((answers.answer(known), answers.key(known.after)), (&u64::MAX, key(1)));
        assert_eq!(answers.get(view, question), None);
        let known = answers.put(view, question, &7, key(1)).expect("memory");
        assert_eq!(answers.get(view, question), Some(known));
    }

    /// Different answers, or views, without end take no memory without end.
    #[test]
    fn what_is_too_much_is_forgotten() {
        for (most, values) in [(1 << 20, 3 * MOST_VALUES as u64), (1000, 7)] {
            let mut answers: Answers<u64, u64> = Answers::new(most).expect("memory");
            let mut times = 0;
            for n in 0..3 * MOST_VALUES as u64 {
                if answers.is_full() {
                    answers.forget().expect("memory");
                    times += 1;
                    assert!(!answers.is_full());
                }
                let (view, _) = answers.view(key(n)).expect("memory");
                let question = answers.question(&(n % 3)).expect("memory");
                let known = answers.put(view, question, &(n % values), key(n)).expect("memory");
                assert_eq!(answers.answer(known), &(n % values));
                assert!(answers.answers.values.len() <= MOST_VALUES && answers.rows.len() * VIEW <= most * ANSWER);
            }
            assert!(times > 1);
        }
    }
}
