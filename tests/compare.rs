//! Compares the library, called through its C interface, with the reference on books made from a seed and damaged ones.
//! Ends with status 0 if there was no difference. At the first difference it prints the inputs and ends with status 1.

mod books;
mod certain;
mod library;
mod reference;
#[path = "honest/senders.rs"]
mod senders;

use books::Rng;
use reference::{Asked, Audience, Book, Entered, Following, Refusal, Step};
use std::fmt::Debug;
use std::sync::atomic::{AtomicUsize, Ordering};
use std::time::{Duration, Instant, SystemTime};

// ---------------------------------------------------------------------------------------------------------------- tally

/// How much was compared.
#[derive(Default)]
struct Tally {
    cases: u64,
    readings: u64,
    entries: u64,
    surveys: u64,
    facts_surveyed: u64,
    with_other_trees: u64,
    delegating: u64,
    by_delegation: u64,
    rearranged: u64,
    closed_under_rules: u64,
    proofs: u64,
    reached: u64,
    checks: u64,
    accepted_checks: u64,
    texts: u64,
    pieces: u64,
    listings: u64,
    reports: u64,
    /// books with something named in their report
    naming: u64,
    /// those in which a sender, after the first message, believes one part of his message and not another
    naming_in_part: u64,
    /// books in which a sender has learned a part of his message from an earlier one, and in which he learns it too late
    taught: u64,
    taught_too_late: u64,
    /// books compared with one that has other names of data, and those of them in whose guest's listing a datum prints
    renamed: u64,
    renamed_and_printed: u64,
    /// refusals seen in all operations, by number
    refusals: [u64; 24],
    /// steps in accepted derivations, by kind less 64
    steps: [u64; 24],
}

impl Tally {
    fn note<T>(&mut self, answer: &Result<T, Refusal>) {
        if let Err(refusal) = answer {
            self.refusals[usize::from(refusal.number)] += 1;
        }
    }

    fn print(&self) {
        println!("books                        {:>12}", self.cases);
        println!("readings compared            {:>12}", self.readings);
        println!("entries compared             {:>12}", self.entries);
        println!("surveys compared             {:>12}   ({} facts held in them)", self.surveys, self.facts_surveyed);
        println!("  again with other trees     {:>12}", self.with_other_trees);
        println!("  of books with a kind 17    {:>12}   ({} hold what only 86 and 87 give)", self.delegating, self.by_delegation);
        println!("  of the records rearranged  {:>12}", self.rearranged);
        println!("  found closed rule by rule  {:>12}", self.closed_under_rules);
        println!("proofs compared              {:>12}   ({} reached)", self.proofs, self.reached);
        println!("derivations checked          {:>12}   ({} accepted)", self.checks, self.accepted_checks);
        println!("texts compared               {:>12}   (the owner's and the guest's)", self.texts);
        println!("pieces of listings compared  {:>12}   ({} listings to their end)", self.pieces, self.listings);
        println!("reports compared             {:>12}   ({} books with something named)", self.reports, self.naming);
        println!("  one part is believed       {:>12}   (and another not, in a message after the first)", self.naming_in_part);
        println!("  learned before it is sent  {:>12}   ({} with something learned too late)", self.taught, self.taught_too_late);
        println!("books with data renamed      {:>12}   ({} with a datum in the listing)", self.renamed, self.renamed_and_printed);
        println!("refusals by number           {}", numbered(&self.refusals, 0, 1));
        println!("accepted steps by kind       {}", numbered(&self.steps, 64, 0));
    }
}

fn numbered(counts: &[u64], first: usize, from: usize) -> String {
    let show = |(i, count): (usize, &u64)| format!("{}: {count}", first + i);
    counts.iter().enumerate().skip(from).map(show).collect::<Vec<_>>().join(", ")
}

// ---------------------------------------------------------------------------------------------------------- lent bytes

/// Bytes on both sides of lent ones. There are none under a memory checker, which sees for itself what is touched.
static MARGIN: AtomicUsize = AtomicUsize::new(32);

/// Bytes lent to the library, between margins that must stay as they are.
struct Lent {
    bytes: Vec<u8>,
    margin: usize,
}

impl Lent {
    fn of(content: &[u8]) -> Lent {
        let margin = MARGIN.load(Ordering::Relaxed);
        let mut bytes = vec![0xA5; content.len() + 2 * margin];
        bytes[margin..margin + content.len()].copy_from_slice(content);
        Lent { bytes, margin }
    }

    fn end(&self) -> usize {
        self.bytes.len() - self.margin
    }

    fn slice(&mut self) -> &mut [u8] {
        let end = self.end();
        &mut self.bytes[self.margin..end]
    }

    fn content(&self) -> &[u8] {
        &self.bytes[self.margin..self.end()]
    }

    fn has_margins(&self) -> bool {
        self.bytes[..self.margin].iter().chain(&self.bytes[self.end()..]).all(|byte| *byte == 0xA5)
    }
}

// ---------------------------------------------------------------------------------------------------------------- trial

/// One book under trial.
struct Trial<'a> {
    /// none for the certain books, which are tried at every start
    case: Option<u64>,
    name: &'static str,
    book: Vec<u8>,
    rng: Rng,
    tally: &'a mut Tally,
    /// bytes to fill buffers with
    noise: &'a [u8],
}

impl Trial<'_> {
    /// Prints what differs, and ends the program.
    fn differ(&self, what: &str, inputs: &[(&str, &[u8])], library: &dyn Debug, reference: &dyn Debug) -> ! {
        println!("DIFFERENCE in {what}");
        match self.case {
            Some(case) => println!("case {case} ({}), to be repeated with --case {case}", self.name),
            None => println!("a certain book ({}), tried at every start", self.name),
        }
        println!("library:   {library:?}");
        println!("reference: {reference:?}");
        println!("book: {}", hex(&self.book));
        for (name, bytes) in inputs {
            println!("{name}: {}", hex(bytes));
        }
        std::process::exit(1);
    }

    fn same<T: PartialEq + Debug>(&self, what: &str, inputs: &[(&str, &[u8])], library: T, reference: T) {
        if library != reference {
            self.differ(what, inputs, &library, &reference);
        }
    }

    fn holds(&self, what: &str, inputs: &[(&str, &[u8])], is_so: bool) {
        self.same(what, inputs, is_so, true);
    }

    /// That many bytes of noise.
    fn noise(&mut self, length: usize) -> Vec<u8> {
        let start = self.rng.below(self.noise.len() - length);
        self.noise[start..start + length].to_vec()
    }

    /// A short count, most often 0.
    fn some_more(&mut self) -> usize {
        if self.rng.once_in(2) {
            0
        } else {
            self.rng.between(1, 40)
        }
    }
}

fn hex(bytes: &[u8]) -> String {
    bytes.iter().map(|byte| format!("{byte:02x}")).collect()
}

// -------------------------------------------------------------------------------------------------------------- reading

impl Trial<'_> {
    /// Reading some bytes: counts, or refusal number and record.
    fn compare_reading(&mut self, bytes: &[u8]) -> Result<Book, Refusal> {
        let lent = Lent::of(bytes);
        let library = library::read(lent.content());
        let places = library::places(lent.content());
        let reference = reference::read(bytes);
        let inputs = [("bytes", bytes)];
        self.tally.readings += 1;
        self.tally.note(&library);
        self.same("reading", &inputs, library, reference.as_ref().map(Book::counts).map_err(|refusal| *refusal));
        self.same("places", &inputs, places, reference.as_ref().map(Book::places).map_err(|refusal| *refusal));
        self.holds("reading: the book stays", &inputs, lent.content() == bytes && lent.has_margins());
        reference
    }

    /// Every operation gives a refused book's refusal before anything else, and leaves all bytes.
    fn compare_on_refused(&mut self, bytes: &[u8], refusal: Refusal) {
        let inputs = [("bytes", bytes)];
        let length = self.rng.below(300);
        let mut lent = Lent::of(&self.noise(length));
        let mut other = Lent::of(&self.noise(length));
        let (before, other_before) = (lent.content().to_vec(), other.content().to_vec());
        let goal = self.rng.below(3) as u32;
        let fact = self.noise(7);
        self.same("survey of a refused book", &inputs, library::survey(bytes, lent.slice()), Err(refusal));
        let proved = library::prove(bytes, goal, lent.slice(), other.slice());
        self.same("proof in a refused book", &inputs, proved, Err(refusal));
        self.same("check in a refused book", &inputs, library::check(bytes, goal, &before), Err(refusal));
        for audience in Audience::ALL {
            let text = text_for(audience)(bytes, &fact, lent.slice());
            self.same("text in a refused book", &inputs, text, Err(refusal));
            let piece = list_for(audience)(bytes, &before, 0, lent.slice());
            self.same("listing of a refused book", &inputs, piece, Err(refusal));
            self.tally.texts += 1;
            self.tally.pieces += 1;
        }
        self.same("report on a refused book", &inputs, library::honesty(bytes, lent.slice()), Err(refusal));
        self.tally.surveys += 1;
        self.tally.proofs += 1;
        self.tally.checks += 1;
        self.tally.reports += 1;
        self.holds("bytes stay for a refused book", &inputs, lent.content() == before && lent.has_margins());
        self.holds("bytes stay for a refused book", &inputs, other.content() == other_before && other.has_margins());
    }
}

// ------------------------------------------------------------------------------------------------------------- entering

impl Trial<'_> {
    /// Enters one record of a random sort into a random front of the book.
    fn compare_entering(&mut self) {
        let book = self.book.clone();
        let (front, next) = self.front_and_next(&book);
        let record = self.record_to_enter(&front, next);
        let (content, used) = self.entry_buffer(&front, record.len());
        self.compare_entry(&content, used, &record);
    }

    /// The first records of the book and the one behind them.
    fn front_and_next(&mut self, book: &[u8]) -> (Vec<u8>, Vec<u8>) {
        let mut ends = vec![0];
        while let Some(length) = book.get(ends[ends.len() - 1]).and_then(|kind| reference::record_length(*kind)) {
            ends.push(ends[ends.len() - 1] + length);
        }
        let last = if self.rng.once_in(3) { ends.len() - 1 } else { self.rng.below(ends.len()) };
        let end = ends[last].min(book.len());
        let next = ends.get(last + 1).map_or(book.len(), |end| (*end).min(book.len()));
        (book[..end].to_vec(), book[end..next].to_vec())
    }

    fn record_to_enter(&mut self, front: &[u8], next: Vec<u8>) -> Vec<u8> {
        let mut record = match self.rng.below(4) {
            0 => self.record_within(front),
            1 => books::random_record(&mut self.rng, front.len() / 5),
            _ => next,
        };
        match self.rng.below(12) {
            0 => record.clear(),
            1 => record.push(self.rng.next() as u8),
            2 => books::damage_bytes(&mut record, &mut self.rng),
            _ => {}
        }
        record
    }

    /// A record that is present.
    fn record_within(&mut self, front: &[u8]) -> Vec<u8> {
        let (before, next) = self.front_and_next(front);
        if next.is_empty() {
            before
        } else {
            next
        }
    }

    /// A buffer with the book at its front, with enough space or just too little, and the used length.
    fn entry_buffer(&mut self, front: &[u8], record: usize) -> (Vec<u8>, usize) {
        let space = match self.rng.below(5) {
            0 => record,
            1 => record.saturating_sub(1),
            2 => 0,
            _ => record + self.rng.below(60),
        };
        let mut content = front.to_vec();
        content.extend(self.noise(space));
        let used = match self.rng.below(12) {
            0 => content.len() + self.rng.between(1, 3),
            1 => self.rng.below(content.len() + 1),
            2 if self.rng.once_in(8) => usize::MAX - self.rng.below(8),
            _ => front.len(),
        };
        (content, used)
    }

    fn compare_entry(&mut self, content: &[u8], used: usize, record: &[u8]) {
        let mut lent = Lent::of(content);
        let mut own = content.to_vec();
        let library = library::enter(lent.slice(), used, Lent::of(record).content());
        let reference = reference::enter(&mut own, used, record);
        let used_bytes = used.to_be_bytes();
        let inputs = [("buffer", content), ("used", &used_bytes[..]), ("record", record)];
        self.tally.entries += 1;
        self.tally.note(&library);
        self.same("entering", &inputs, library, reference);
        self.holds("entering: the buffer afterwards", &inputs, lent.content() == own && lent.has_margins());
        if !matches!(library, Ok(Entered::Appended(_))) {
            self.holds("entering: nothing is written", &inputs, lent.content() == content);
        }
    }
}

// --------------------------------------------------------------------------------------------------------------- survey

impl Trial<'_> {
    fn compare_survey(&mut self, book: &Book, table: &[u8]) {
        let places = book.places();
        let held = table.iter().filter(|byte| **byte != 0).count();
        self.tally.facts_surveyed += held as u64;
        let more = self.some_more();
        self.compare_survey_in(places + more, table, Ok(held));
        if places > 0 {
            let less = if self.rng.once_in(2) { places - 1 } else { self.rng.below(places) };
            self.compare_survey_in(less, table, Err(Refusal { number: 14, place: 0 }));
        }
    }

    /// A survey into a buffer of this length.
    fn compare_survey_in(&mut self, length: usize, table: &[u8], answer: Result<usize, Refusal>) {
        let before = self.noise(length);
        let mut lent = Lent::of(&before);
        let library = library::survey(&self.book, lent.slice());
        self.tally.surveys += 1;
        self.tally.note(&library);
        self.same("survey: the answer", &[], library, answer);
        let written = if answer.is_ok() { table.len() } else { 0 };
        if let Some(place) = (0..written).find(|place| lent.content()[*place] != table[*place]) {
            self.differ("survey: the byte at a place", &[], &(place, lent.content()[place]), &(place, table[place]));
        }
        self.holds(
            "survey: the other bytes stay",
            &[],
            lent.content()[written..] == before[written..] && lent.has_margins(),
        );
    }

    /// The survey is the same when trees that are no records are reasoned about as well, and keys that no record has.
    fn compare_with_other_trees(&mut self, table: &[u8]) {
        let mut book = reference::read(&self.book).expect("an accepted book");
        books::plant_others(&mut book, &mut self.rng);
        let following = reference::follow(&mut book);
        self.tally.with_other_trees += 1;
        self.holds("survey with trees that are no records", &[], book.survey(&following) == table);
    }

    /// Notes whether a book with a kind 17 holds something that follows by no other rules.
    fn note_delegations(&mut self, table: &[u8]) {
        let mut book = reference::read(&self.book).expect("an accepted book");
        if book.formulas.iter().any(|record| record.kind == 17) {
            let following = reference::follow_by(&mut book, false);
            self.tally.delegating += 1;
            self.tally.by_delegation += u64::from(book.survey(&following) != table);
        }
    }

    /// The survey is the same, and so are the report and the answer to each goal, when the formula records stand elsewhere among the
    /// others; and the derivations of one book are accepted for the other.
    fn compare_rearranged(&mut self, book: &Book, following: &Following, table: &[u8]) {
        let bytes = books::rearranged(&self.book, &mut self.rng);
        let counts = self.compare_reading(&bytes).map(|other| other.counts());
        self.same("reading of the records rearranged", &[("bytes", &bytes)], counts, Ok(book.counts()));
        let whole = std::mem::replace(&mut self.book, bytes);
        self.compare_survey(book, table);
        self.compare_reports(&book.asked(following));
        let places = book.places();
        for goal in self.goals_to_try(book) {
            let asked = book.goal(goal).expect("a goal of the book");
            let answer = (reference::is_reached(following, asked), reference::held_after(table, asked.after));
            if let Some(derivation) = self.compare_proof(places * 8, places * 12, goal, places, Ok(answer)) {
                let checked = library::check(&whole, goal, &derivation);
                self.same("a derivation, in the book before", &[("derivation", &derivation)], checked, Ok(()));
            }
        }
        self.tally.rearranged += 1;
        self.book = whole;
    }

    /// No rule of the checker adds a fact to those that the survey holds.
    fn compare_rule_by_rule(&mut self, table: &[u8]) {
        let mut book = reference::read(&self.book).expect("an accepted book");
        self.tally.closed_under_rules += 1;
        let missing = reference::missing_fact(&mut book, table);
        self.same("survey: a fact that one rule more gives", &[], missing, None);
    }
}

// -------------------------------------------------------------------------------------------------------------- proving

impl Trial<'_> {
    /// A goal of the book: verdict, held count, the derivation and all bytes. Then derivations of it for both checkers.
    fn compare_goal(&mut self, book: &mut Book, following: &Following, table: &[u8], goal: u32) {
        let asked = book.goal(goal).expect("a goal of the book");
        let reached = reference::is_reached(following, asked);
        let held = reference::held_after(table, asked.after);
        let places = book.places();
        let (more_work, more) = (self.some_more(), self.some_more());
        let proof = self.compare_proof(places * 8 + more_work, places * 12 + more, goal, places, Ok((reached, held)));
        self.compare_short_buffers(places, goal);
        if let Some(derivation) = proof {
            self.inspect(&derivation);
            self.compare_check(book, goal, &derivation, Some(true));
            self.compare_damaged(book, goal, &derivation);
        }
        self.compare_own_derivation(book, following, goal, reached);
    }

    /// Proves a goal with buffers of these lengths; the derivation, if there is one.
    fn compare_proof(
        &mut self,
        work_length: usize,
        length: usize,
        goal: u32,
        places: usize,
        answer: Result<(bool, usize), Refusal>,
    ) -> Option<Vec<u8>> {
        let (work_before, before) = (self.noise(work_length), self.noise(length));
        let (mut work, mut derivation) = (Lent::of(&work_before), Lent::of(&before));
        let library = library::prove(&self.book, goal, work.slice(), derivation.slice());
        let goal_bytes = goal.to_be_bytes();
        let inputs = [("goal", &goal_bytes[..])];
        self.tally.proofs += 1;
        self.tally.note(&library);
        self.same("proof: reached and held", &inputs, library.map(|proved| (proved.reached, proved.held)), answer);
        let free = if answer.is_ok() { places * 8 } else { 0 };
        self.holds("proof: work bytes stay", &inputs, work.content()[free..] == work_before[free..] && work.has_margins());
        let bytes = library.map_or(0, |proved| proved.bytes);
        self.holds("proof: at most F x 12 bytes", &inputs, bytes <= places * 12);
        let stays = derivation.content()[bytes..] == before[bytes..] && derivation.has_margins();
        self.holds("proof: derivation bytes stay", &inputs, stays);
        let proved = library.ok()?;
        if !proved.reached {
            self.same("proof: steps and bytes when not reached", &inputs, (proved.steps, bytes), (0, 0));
            return None;
        }
        self.tally.reached += 1;
        let written = derivation.content()[..bytes].to_vec();
        let count = reference::steps_of(&written).map(|steps| steps.len());
        self.same("proof: number of steps", &[("goal", &goal_bytes), ("derivation", &written)], Some(proved.steps), count);
        Some(written)
    }

    /// One byte too few in the work, or in the derivation; and a goal that is not there, which comes first.
    fn compare_short_buffers(&mut self, places: usize, goal: u32) {
        let short = Err(Refusal { number: 14, place: 0 });
        match self.rng.below(4) {
            0 => drop(self.compare_proof(places * 8 - 1, places * 12, goal, places, short)),
            1 => drop(self.compare_proof(places * 8, places * 12 - 1, goal, places, short)),
            2 => {
                let (work, length) = (self.rng.below(places * 8), self.rng.below(places * 12));
                self.compare_proof(work, length, goal, places, short);
            }
            _ => {}
        }
    }

    /// A goal number that the book does not have.
    fn compare_absent_goal(&mut self, book: &mut Book) {
        let count = book.goals.len() as u32;
        let goal = match self.rng.below(3) {
            0 => count,
            1 => count.wrapping_add(self.rng.next() as u32 >> 1),
            _ => u32::MAX,
        };
        let answer = Err(Refusal { number: 13, place: u64::from(goal) });
        let (work, length) = (self.rng.below(100), self.rng.below(100));
        self.compare_proof(work, length, goal, book.places(), answer);
        let derivation = self.noise(30);
        self.compare_check(book, goal, &derivation, Some(false));
    }

    /// No fact stands twice, and every step but the last is used by a later one.
    fn inspect(&mut self, derivation: &[u8]) {
        let steps = reference::steps_of(derivation).expect("whole steps");
        let inputs = [("derivation", derivation)];
        let mut facts: Vec<[u8; 7]> = steps.iter().map(|step| step.fact).collect();
        facts.sort();
        facts.dedup();
        self.same("proof: facts that stand once", &inputs, facts.len(), steps.len());
        let mut is_used = vec![false; steps.len()];
        for step in &steps {
            for premise in step.premises() {
                is_used[usize::from(*premise)] = true;
            }
        }
        let unused = is_used.iter().position(|used| !used);
        self.same("proof: the first unused step", &inputs, unused, Some(steps.len() - 1));
    }
}

// ------------------------------------------------------------------------------------------------------------- checking

impl Trial<'_> {
    /// Both checkers on a derivation. What is expected of it may be known.
    fn compare_check(&mut self, book: &mut Book, goal: u32, derivation: &[u8], expected: Option<bool>) {
        let lent = Lent::of(derivation);
        let library = library::check(&self.book, goal, lent.content());
        let reference = reference::check(book, goal, derivation);
        let goal_bytes = goal.to_be_bytes();
        let inputs = [("goal", &goal_bytes[..]), ("derivation", derivation)];
        self.tally.checks += 1;
        self.tally.note(&library);
        self.same("check", &inputs, library, reference);
        if let Some(is_accepted) = expected {
            self.same("check: accepted", &inputs, library.is_ok(), is_accepted);
        }
        if library.is_ok() {
            self.tally.accepted_checks += 1;
            for step in reference::steps_of(derivation).expect("whole steps") {
                self.tally.steps[usize::from(step.kind - 64)] += 1;
            }
        }
    }

    /// All that follows up to the goal's message, as the reference found it, and the goal once more at the end.
    fn compare_own_derivation(&mut self, book: &mut Book, following: &Following, goal: u32, reached: bool) {
        let asked = book.goal(goal).expect("a goal of the book");
        if reached {
            self.compare_check(book, goal, &following.derivation(book, asked), Some(true));
        }
        let mut steps = following.steps(book, asked.after);
        if steps.len() > 300 && !self.rng.once_in(8) {
            return;
        }
        if reached {
            let place = following.position(asked.statement).expect("a reached goal");
            steps.push(steps[place]);
        }
        let derivation = written(&steps);
        self.compare_check(book, goal, &derivation, Some(reached));
        self.compare_damaged(book, goal, &derivation);
    }

    fn compare_damaged(&mut self, book: &mut Book, goal: u32, derivation: &[u8]) {
        let times = if derivation.len() > 2000 { 4 } else { 10 };
        for _ in 0..times {
            let damaged = self.damaged_derivation(book, derivation);
            self.compare_check(book, goal, &damaged, None);
        }
        let other = self.rng.below(book.goals.len() + 1) as u32;
        self.compare_check(book, other, derivation, None);
        self.compare_at_other_time(goal, derivation);
    }

    /// The same derivation when the goal is asked after another message.
    fn compare_at_other_time(&mut self, goal: u32, derivation: &[u8]) {
        let original = self.book.clone();
        let counts = reference::read(&original).expect("an accepted book").counts();
        let at = books::place_of_goal(&original, goal as usize) + 1;
        let after = self.rng.below(counts.messages + 1) as u16;
        self.book[at..at + 2].copy_from_slice(&after.to_be_bytes());
        let mut other = reference::read(&self.book).expect("an accepted book");
        self.compare_check(&mut other, goal, derivation, None);
        self.book = original;
    }

    fn damaged_derivation(&mut self, book: &Book, derivation: &[u8]) -> Vec<u8> {
        if self.rng.once_in(3) {
            let mut bytes = derivation.to_vec();
            books::damage_bytes(&mut bytes, &mut self.rng);
            return bytes;
        }
        let mut steps = reference::steps_of(derivation).expect("whole steps");
        for _ in 0..self.rng.between(1, 2) {
            self.damage_steps(book, &mut steps);
        }
        written(&steps)
    }

    fn damage_steps(&mut self, book: &Book, steps: &mut Vec<Step>) {
        if steps.is_empty() {
            return;
        }
        let (i, j) = (self.rng.below(steps.len()), self.rng.below(steps.len()));
        match self.rng.below(10) {
            0 => steps.swap(i, j),
            1 => drop(steps.remove(i)),
            2 => steps.insert(j, steps[i]),
            3 => steps[i].kind = self.rng.between(63, 88) as u8,
            4 | 5 => steps[i].numbers[self.rng.below(2)] = self.rng.below(steps.len() + 2) as u16,
            6 => steps[i].fact = steps[j].fact,
            7 => steps[i].numbers.swap(0, 1),
            8 => steps.truncate(i),
            _ => self.damage_fact(book, &mut steps[i].fact),
        }
    }

    /// Changes a field of a fact, most often to one that may stand there.
    fn damage_fact(&mut self, book: &Book, fact: &mut [u8; 7]) {
        let formula = self.rng.below(book.formulas.len() + 1) as u16;
        let principal = self.rng.pick(&book.principals).unwrap_or(formula);
        let (at, value) = match self.rng.below(6) {
            0 => (1, principal),
            1 => (3, principal),
            2 => (3, 0),
            3 => (1, formula),
            _ => (5, formula),
        };
        if self.rng.once_in(3) {
            fact[0] = self.rng.below(7) as u8;
        } else {
            fact[at..at + 2].copy_from_slice(&value.to_be_bytes());
        }
    }
}

fn written(steps: &[Step]) -> Vec<u8> {
    let mut bytes = Vec::new();
    steps.iter().for_each(|step| step.write(&mut bytes));
    bytes
}

// ----------------------------------------------------------------------------------------------------------------- text

impl Trial<'_> {
    /// The text of a random fact, sound or not.
    fn compare_some_text(&mut self, book: &mut Book, following: &Following) {
        let held = following.log.len();
        let fact = if held > 0 && self.rng.once_in(3) {
            let statement = following.log[self.rng.below(held)].statement;
            book.written(statement).expect("a fact over records").to_vec()
        } else {
            self.some_fact(book)
        };
        self.compare_text(book, &fact);
    }

    fn some_fact(&mut self, book: &Book) -> Vec<u8> {
        let mode = self.rng.between(1, 5) as u8;
        let p = self.rng.pick(&book.principals).unwrap_or(0).to_be_bytes();
        let q = if mode > 3 { self.rng.pick(&book.principals).unwrap_or(0).to_be_bytes() } else { [0, 0] };
        let x = (self.rng.below(book.formulas.len() + 1) as u16).to_be_bytes();
        let mut fact = [mode, p[0], p[1], q[0], q[1], x[0], x[1]];
        if self.rng.once_in(6) {
            self.damage_fact(book, &mut fact);
        }
        let mut fact = fact.to_vec();
        if self.rng.once_in(12) {
            books::damage_bytes(&mut fact, &mut self.rng);
        }
        fact
    }

    /// The texts of a fact for both audiences into buffers that are large, exact, one short and of a random length.
    fn compare_text(&mut self, book: &mut Book, fact: &[u8]) {
        for audience in Audience::ALL {
            let long = self.compare_text_in(audience, book, fact, 5000);
            let length = self.length_about(long);
            self.compare_text_in(audience, book, fact, length);
        }
    }

    /// The length of a buffer for a text of this length, or for one that is refused: exact, one short or random.
    fn length_about(&mut self, text: Option<usize>) -> usize {
        let exact = text.unwrap_or(reference::MOST_TEXT);
        match self.rng.below(3) {
            0 => exact,
            1 => exact - 1,
            _ => self.rng.below(exact + 20),
        }
    }

    fn compare_text_in(&mut self, audience: Audience, book: &mut Book, fact: &[u8], length: usize) -> Option<usize> {
        let before = self.noise(length);
        let mut lent = Lent::of(&before);
        let library = text_for(audience)(&self.book, Lent::of(fact).content(), lent.slice());
        let reference = reference::fact_text(audience, book, fact, length);
        let mut after = before;
        if let Ok(text) = &reference {
            after[..text.len()].copy_from_slice(text);
        }
        let length_bytes = length.to_be_bytes();
        let inputs = [("fact", fact), ("buffer length", &length_bytes[..])];
        let what = |what: &str| format!("{audience:?}'s text: {what}");
        self.tally.texts += 1;
        self.tally.note(&library);
        self.same(&what("the answer"), &inputs, library, reference.map(|text| text.len()));
        self.holds(&what("the buffer afterwards"), &inputs, lent.content() == after && lent.has_margins());
        library.ok()
    }
}

/// The library's function for the text of a fact.
fn text_for(audience: Audience) -> fn(&[u8], &[u8], &mut [u8]) -> Result<usize, Refusal> {
    match audience {
        Audience::Owner => library::text,
        Audience::Guest => library::guest_text,
    }
}

// -------------------------------------------------------------------------------------------------------------- listing

impl Trial<'_> {
    /// The listings by the survey, or by a table that holds anything, for both audiences.
    fn compare_listings(&mut self, book: &mut Book, survey: &[u8]) {
        let more = self.some_more();
        let mut table = survey.to_vec();
        if survey.len() <= 1500 && self.rng.once_in(3) {
            table = self.noise(survey.len());
            let most = self.rng.between(1, 255) as u8;
            table.iter_mut().for_each(|byte| *byte %= most);
        }
        table.extend(self.noise(more));
        for audience in Audience::ALL {
            self.compare_listing(audience, book, &table);
        }
    }

    /// The listing by a table, piece by piece until it is over; pieces from anywhere; and a table that is too short.
    fn compare_listing(&mut self, audience: Audience, book: &mut Book, table: &[u8]) {
        let lines = book.lines(audience, table);
        let size = self.rng.between(20, 6000);
        let mut from = 0;
        while let Some(next) = self.compare_piece(audience, table, &lines, from, size) {
            from = next;
        }
        self.tally.listings += 1;
        for _ in 0..4 {
            let from = if self.rng.once_in(4) { usize::MAX - self.rng.below(3) } else { self.rng.below(lines.len() + 3) };
            let size = self.rng.below(200);
            self.compare_piece(audience, table, &lines, from, size);
        }
        if book.places() > 0 {
            let less = self.rng.below(book.places());
            let short = Err(Refusal { number: 14, place: 0 });
            self.compare_piece_in(audience, &table[..less], 0, LONG_LINE, short);
        }
    }

    /// The piece from a line on, in a buffer of about this size; in a long one where that is too short. The line to go on from.
    fn compare_piece(
        &mut self,
        audience: Audience,
        table: &[u8],
        lines: &[Vec<u8>],
        from: usize,
        size: usize,
    ) -> Option<usize> {
        let room = if self.rng.once_in(3) { self.rng.below(size + 1) } else { size };
        let mut answer = reference::piece(lines, from, room);
        self.compare_piece_in(audience, table, from, room, answer.clone());
        if answer.is_err() {
            answer = reference::piece(lines, from, LONG_LINE);
            self.holds("listing: 4,160 bytes are enough", &[("table", table)], answer.is_ok());
            self.compare_piece_in(audience, table, from, LONG_LINE, answer.clone());
        }
        answer.expect("a long buffer").map(|(_, next)| next)
    }

    fn compare_piece_in(
        &mut self,
        audience: Audience,
        table: &[u8],
        from: usize,
        room: usize,
        answer: Result<Option<(Vec<u8>, usize)>, Refusal>,
    ) {
        let before = self.noise(room);
        let mut lent = Lent::of(&before);
        let lent_table = Lent::of(table);
        let library = list_for(audience)(&self.book, lent_table.content(), from, lent.slice());
        let mut after = before;
        if let Ok(Some((bytes, _))) = &answer {
            after[..bytes.len()].copy_from_slice(bytes);
        }
        let (from_bytes, room_bytes) = (from.to_be_bytes(), room.to_be_bytes());
        let inputs = [("table", table), ("from", &from_bytes[..]), ("buffer length", &room_bytes[..])];
        let what = |what: &str| format!("{audience:?}'s listing: {what}");
        let answer = answer.map(|part| part.map(|(bytes, next)| (bytes.len(), next)));
        self.tally.pieces += 1;
        self.tally.note(&library);
        self.same(&what("the answer"), &inputs, library, answer);
        self.holds(&what("the buffer afterwards"), &inputs, lent.content() == after && lent.has_margins());
        self.holds(&what("the table stays"), &inputs, lent_table.content() == table && lent_table.has_margins());
    }
}

/// A buffer of so many bytes has room for every line.
const LONG_LINE: usize = 4160;

/// The library's function for a piece of the listing.
fn list_for(audience: Audience) -> fn(&[u8], &[u8], usize, &mut [u8]) -> Result<library::Piece, Refusal> {
    match audience {
        Audience::Owner => library::list,
        Audience::Guest => library::guest_list,
    }
}

// ------------------------------------------------------------------------------------------------------- honest senders

impl Trial<'_> {
    /// The report of what is asked, into buffers that are exact, longer, empty and too short.
    fn compare_reports(&mut self, asked: &[Asked]) {
        let exact = reference::report(asked, usize::MAX).expect("a long buffer").len();
        let mut lengths = vec![exact, exact + self.rng.between(1, 40), 0, exact.saturating_sub(1), self.rng.below(exact)];
        lengths.sort();
        lengths.dedup();
        for length in lengths {
            self.compare_report_in(asked, length);
        }
    }

    fn compare_report_in(&mut self, asked: &[Asked], length: usize) {
        let before = self.noise(length);
        let mut lent = Lent::of(&before);
        let lent_book = Lent::of(&self.book);
        let library = library::honesty(lent_book.content(), lent.slice());
        let reference = reference::report(asked, length);
        let mut after = before;
        if let Ok(report) = &reference {
            after[..report.len()].copy_from_slice(report);
        }
        let length_bytes = length.to_be_bytes();
        let inputs = [("buffer length", &length_bytes[..])];
        self.tally.reports += 1;
        self.tally.note(&library);
        self.same("report: the answer", &inputs, library, reference.map(|report| report.len()));
        if lent.content() != after {
            self.differ("report: the buffer afterwards", &inputs, &hex(lent.content()), &hex(&after));
        }
        self.holds("report: bytes beside the buffer", &inputs, lent.has_margins());
        self.holds("report: the book stays", &inputs, lent_book.content() == self.book && lent_book.has_margins());
    }

    /// Notes what the report of a book tells apart.
    fn note_asked(&mut self, asked: &[Asked]) {
        let is_named = |one: &Asked| !one.is_believed();
        let is_named_beside = |one: &Asked| asked.iter().any(|other| other.message == one.message && is_named(other));
        let is_learned = |one: &Asked| one.believed.is_some_and(|after| after > 0);
        let has = |is_so: &dyn Fn(&Asked) -> bool| u64::from(asked.iter().any(is_so));
        self.tally.naming += has(&is_named);
        self.tally.naming_in_part += has(&|one| one.message > 1 && one.is_believed() && is_named_beside(one));
        self.tally.taught += has(&|one| one.is_believed() && is_learned(one));
        self.tally.taught_too_late += has(&|one| is_named(one) && is_learned(one));
    }
}

// -------------------------------------------------------------------------------------------------- other names of data

impl Trial<'_> {
    /// To a guest a book with other names of data is the same: survey, report, answers of the prover, texts and the listing are equal. What
    /// the library says of the one book is compared with what it says of the other.
    fn compare_renamed(&mut self, book: &Book) {
        if !book.formulas.iter().any(|record| record.kind == 3) {
            return;
        }
        let other = books::renamed(&self.book, &mut self.rng);
        let counts = self.compare_reading(&other).map(|other| other.counts());
        self.same("reading with data renamed", &[("renamed", &other)], counts, Ok(book.counts()));
        let table = self.compare_surveys_of_both(&other, book.places());
        self.compare_reports_of_both(&other);
        for goal in 0..book.goals.len() as u32 {
            self.compare_proofs_of_both(&other, goal, book.places());
        }
        for _ in 0..4 {
            let fact = self.some_fact(book);
            let long = self.compare_guest_texts_of_both(&other, &fact, 5000);
            let length = self.length_about(long);
            self.compare_guest_texts_of_both(&other, &fact, length);
        }
        self.compare_guest_listings_of_both(&other, &table);
        self.tally.renamed += 1;
    }

    /// The surveys into equal buffers, and the table that both are.
    fn compare_surveys_of_both(&mut self, other: &[u8], places: usize) -> Vec<u8> {
        let length = places + self.some_more();
        let before = self.noise(length);
        let mut lent = [Lent::of(&before), Lent::of(&before)];
        let [library, renamed] = [library::survey(&self.book, lent[0].slice()), library::survey(other, lent[1].slice())];
        let inputs = [("renamed", other)];
        self.tally.surveys += 2;
        self.same("survey with data renamed: the answer", &inputs, renamed, library);
        self.holds("survey with data renamed: a large table", &inputs, library.is_ok());
        self.holds("survey with data renamed: the table", &inputs, is_same(&lent));
        lent[0].content()[..places].to_vec()
    }

    /// The reports into equal buffers, which may be too short.
    fn compare_reports_of_both(&mut self, other: &[u8]) {
        let length = self.rng.below(80);
        let before = self.noise(length);
        let mut lent = [Lent::of(&before), Lent::of(&before)];
        let [library, renamed] = [library::honesty(&self.book, lent[0].slice()), library::honesty(other, lent[1].slice())];
        let inputs = [("renamed", other)];
        self.tally.reports += 2;
        self.same("report with data renamed: the answer", &inputs, renamed, library);
        self.holds("report with data renamed: the buffer", &inputs, is_same(&lent));
    }

    /// Reached or not, and held; and a derivation in the one book is one in the other.
    fn compare_proofs_of_both(&mut self, other: &[u8], goal: u32, places: usize) {
        let (mut work, mut derivation) = (vec![0; places * 8], vec![0; places * 12]);
        let library = library::prove(&self.book, goal, &mut work, &mut derivation);
        derivation.truncate(library.map_or(0, |proved| proved.bytes));
        let answer = library.map(|proved| (proved.reached, proved.held));
        let whole = std::mem::replace(&mut self.book, other.to_vec());
        let proof = self.compare_proof(places * 8, places * 12, goal, places, answer);
        self.book = whole;
        if let Some(renamed) = proof {
            let checked = [library::check(&self.book, goal, &renamed), library::check(other, goal, &derivation)];
            let inputs = [("renamed", other), ("its derivation", &renamed[..]), ("derivation", &derivation[..])];
            self.same("derivations with data renamed", &inputs, checked, [Ok(()); 2]);
        }
    }

    /// The guest's texts of a fact, which may be malformed, into equal buffers; their length.
    fn compare_guest_texts_of_both(&mut self, other: &[u8], fact: &[u8], length: usize) -> Option<usize> {
        let before = self.noise(length);
        let mut lent = [Lent::of(&before), Lent::of(&before)];
        let library = library::guest_text(&self.book, fact, lent[0].slice());
        let renamed = library::guest_text(other, fact, lent[1].slice());
        let length_bytes = length.to_be_bytes();
        let inputs = [("renamed", other), ("fact", fact), ("buffer length", &length_bytes[..])];
        self.tally.texts += 2;
        self.tally.note(&library);
        self.same("guest's text with data renamed: the answer", &inputs, renamed, library);
        self.holds("guest's text with data renamed: the buffer", &inputs, is_same(&lent));
        library.ok()
    }

    /// The guest's listings by the table of the survey, each collected in pieces of its own size. No datum prints but by its number.
    fn compare_guest_listings_of_both(&mut self, other: &[u8], table: &[u8]) {
        let book = self.book.clone();
        let [listing, renamed] = [&book[..], other].map(|book| self.guest_listing_of(book, table));
        let inputs = [("renamed", other)];
        let [shown, shown_renamed] = [&listing, &renamed].map(|bytes| String::from_utf8_lossy(bytes));
        self.same("guest's listing with data renamed", &inputs, shown_renamed, shown);
        let is_numbered = |pair: &[u8]| pair[0] != b'N' || pair[1] == b'#';
        self.holds("guest's listing: no name of a datum", &inputs, listing.windows(2).all(is_numbered));
        self.tally.renamed_and_printed += u64::from(listing.contains(&b'N'));
    }

    fn guest_listing_of(&mut self, book: &[u8], table: &[u8]) -> Vec<u8> {
        let size = self.rng.between(20, 6000);
        let (mut listing, mut from) = (Vec::new(), 0);
        while let Some((bytes, next)) = self.guest_piece_of(book, table, from, size) {
            self.holds("guest's listing: it goes on", &[("listed", book)], next > from);
            listing.extend(bytes);
            from = next;
        }
        self.tally.listings += 1;
        listing
    }

    /// The piece from a line on, in a long buffer where one of this size is too short, and the line to go on from.
    fn guest_piece_of(&mut self, book: &[u8], table: &[u8], from: usize, size: usize) -> Option<(Vec<u8>, usize)> {
        let mut lent = Lent::of(&self.noise(size));
        let mut answer = library::guest_list(book, table, from, lent.slice());
        if answer == Err(Refusal { number: 14, place: 0 }) {
            lent = Lent::of(&self.noise(LONG_LINE));
            answer = library::guest_list(book, table, from, lent.slice());
        }
        let inputs = [("listed", book)];
        self.tally.pieces += 1;
        self.same("guest's listing: a piece", &inputs, answer.map(drop), Ok(()));
        self.holds("guest's listing: bytes beside the buffer", &inputs, lent.has_margins());
        let (length, next) = answer.ok()??;
        Some((lent.content()[..length].to_vec(), next))
    }
}

/// Two buffers with the same content, and nothing written beside them.
fn is_same(lent: &[Lent; 2]) -> bool {
    lent[0].content() == lent[1].content() && lent.iter().all(Lent::has_margins)
}

// ----------------------------------------------------------------------------------------------------------- whole books

impl Trial<'_> {
    /// Everything about one book, then readings of damaged copies of it.
    fn run(&mut self) {
        self.tally.cases += 1;
        let bytes = self.book.clone();
        match self.compare_reading(&bytes) {
            Ok(book) => self.run_accepted(book),
            Err(refusal) => {
                self.same("a book that was made to be accepted", &[], self.name, "at the limits");
                self.compare_on_refused(&bytes, refusal);
            }
        }
        for _ in 0..4 {
            self.compare_entering();
        }
        for _ in 0..12 {
            self.run_damaged(&bytes);
        }
    }

    fn run_accepted(&mut self, mut book: Book) {
        let following = reference::follow(&mut book);
        let table = book.survey(&following);
        self.compare_survey(&book, &table);
        self.note_delegations(&table);
        let asked = book.asked(&following);
        self.compare_reports(&asked);
        self.note_asked(&asked);
        if book.formulas.len() <= 64 && self.rng.once_in(4) {
            self.compare_with_other_trees(&table);
        }
        if self.rng.once_in(3) {
            self.compare_rearranged(&book, &following, &table);
        }
        if book.places() <= 700 && following.log.len() <= 30 && self.rng.once_in(30) {
            self.compare_rule_by_rule(&table);
        }
        self.compare_absent_goal(&mut book);
        for goal in self.goals_to_try(&book) {
            self.compare_goal(&mut book, &following, &table, goal);
        }
        for _ in 0..6 {
            self.compare_some_text(&mut book, &following);
        }
        if self.rng.once_in(2) {
            self.compare_listings(&mut book, &table);
        }
        self.compare_renamed(&book);
    }

    fn goals_to_try(&mut self, book: &Book) -> Vec<u32> {
        let mut goals: Vec<u32> = (0..book.goals.len() as u32).collect();
        self.rng.shuffle(&mut goals);
        goals.truncate(4);
        goals
    }

    fn run_damaged(&mut self, bytes: &[u8]) {
        let damaged = books::damaged(bytes, &mut self.rng);
        match self.compare_reading(&damaged) {
            Err(refusal) => {
                if self.rng.once_in(4) {
                    self.compare_on_refused(&damaged, refusal);
                }
            }
            Ok(mut book) => {
                let whole = std::mem::replace(&mut self.book, damaged);
                if self.rng.once_in(4) {
                    let following = reference::follow(&mut book);
                    let table = book.survey(&following);
                    self.compare_survey(&book, &table);
                    self.compare_reports(&book.asked(&following));
                }
                self.compare_entering();
                self.book = whole;
            }
        }
    }
}

/// A book for a case, in most cases with formula records anywhere.
fn choose(rng: &mut Rng) -> (&'static str, Vec<u8>) {
    let (name, book) = choose_ordered(rng);
    let book = if rng.once_in(3) { book } else { books::rearranged(&book, rng) };
    (name, book)
}

/// A book with its formula records in front.
fn choose_ordered(rng: &mut Rng) -> (&'static str, Vec<u8>) {
    match rng.below(46) {
        0..=11 => ("practice", books::practice(rng.next() as u32)),
        12..=33 => {
            let size = books::Size::random(rng);
            ("rich", books::rich(rng, &size).bytes())
        }
        34 => ("at the limits", if rng.once_in(4) { books::full(rng).bytes() } else { books::one_above(rng) }),
        35 => {
            let audience = if rng.once_in(2) { Audience::Owner } else { Audience::Guest };
            ("long text", books::long_text(audience, rng.between(4060, 4100), rng).bytes())
        }
        36 => {
            let book = books::dense(rng.between(2, 8), rng.between(32, 120));
            ("dense", books::shuffled(&book, rng).bytes())
        }
        37 => {
            let book = match rng.below(4) {
                0 => books::zigzag_chain(rng.between(2, 8)),
                1 => books::falling_chain(),
                2 => books::doubled_delegation(rng.between(0, 79)),
                _ if rng.once_in(2) => books::many_variables(),
                _ => books::trusted_server(rng.once_in(2), if rng.once_in(2) { 1 } else { 8 }),
            };
            ("chain", books::shuffled(&book, rng).bytes())
        }
        38 | 39 => ("small", books::small(rng).bytes()),
        _ => ("senders", senders::drawn(rng).bytes()),
    }
}

fn run_case(case: u64, tally: &mut Tally, noise: &[u8]) {
    let mut rng = Rng::new(case);
    let (name, mut book) = choose(&mut rng);
    book.shrink_to_fit();
    Trial { case: Some(case), name, book, rng, tally, noise }.run();
}

// --------------------------------------------------------------------------------------------------------------- options

struct Options {
    seconds: u64,
    seed: u64,
    case: Option<u64>,
}

fn options() -> Options {
    let now = SystemTime::now().duration_since(SystemTime::UNIX_EPOCH).map_or(1, |time| time.as_nanos() as u64);
    let mut options = Options { seconds: 60, seed: now % 1_000_000_007, case: None };
    let mut words = std::env::args().skip(1);
    while let Some(word) = words.next() {
        match word.as_str() {
            "--seed" => options.seed = number(words.next()),
            "--case" => options.case = Some(number(words.next())),
            "--no-margins" => MARGIN.store(0, Ordering::Relaxed),
            _ => options.seconds = number(Some(word)),
        }
    }
    options
}

fn number(word: Option<String>) -> u64 {
    word.and_then(|word| word.parse().ok()).unwrap_or_else(|| {
        println!("usage: compare [SECONDS] [--seed NUMBER] [--case NUMBER] [--no-margins]");
        std::process::exit(2)
    })
}

fn main() {
    let options = options();
    let mut tally = Tally::default();
    let mut noise = vec![0; 1_000_000];
    Rng::new(1).fill(&mut noise);
    if let Some(case) = options.case {
        run_case(case, &mut tally, &noise);
        println!("case {case}: no difference");
        return;
    }
    println!("seed {}", options.seed);
    certain::run(&mut tally, &noise);
    let end = Instant::now() + Duration::from_secs(options.seconds);
    let mut cases = Rng::new(options.seed);
    while Instant::now() < end {
        run_case(cases.next(), &mut tally, &noise);
    }
    tally.print();
    if tally.renamed_and_printed == 0 {
        println!("but no book with data renamed had a datum in its listing");
        std::process::exit(1);
    }
    if [tally.naming_in_part, tally.taught, tally.taught_too_late].contains(&0) {
        println!("but no report had one part named beside one that is believed, or none turned on what a sender learned");
        std::process::exit(1);
    }
    println!("no difference");
}
