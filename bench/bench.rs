//! Times the library, called through its C interface, beside tests/reference.rs in the same run. Prints tables in Markdown.

#[allow(dead_code)]
#[path = "../tests/books.rs"]
mod books;
#[allow(dead_code)]
#[path = "../tests/library.rs"]
mod library;
#[allow(dead_code)]
#[path = "../tests/reference.rs"]
mod reference;
#[allow(dead_code)]
#[path = "../tests/honest/senders.rs"]
mod senders;

use books::Draft;
use std::hint::black_box;
use std::time::{Duration, Instant};

/// Times of one call, in microseconds: the median, and between which times nine calls of ten lie.
#[derive(Clone, Copy)]
struct Times {
    median: f64,
    low: f64,
    high: f64,
}

type Call<'a> = Box<dyn FnMut() + 'a>;

/// Calls in batches that are long against the clock's own time.
struct Timer<'a> {
    call: Call<'a>,
    batch: usize,
    samples: Vec<f64>,
}

impl<'a> Timer<'a> {
    fn new(call: Call<'a>) -> Timer<'a> {
        let mut timer = Timer { call, batch: 1, samples: Vec::new() };
        let one = (0..30).map(|_| timer.sample()).fold(f64::MAX, f64::min);
        timer.batch = (20.0 / one).ceil().max(1.0) as usize;
        timer
    }

    /// Microseconds of one call, on the average over one batch.
    fn sample(&mut self) -> f64 {
        let start = Instant::now();
        for _ in 0..self.batch {
            (self.call)();
        }
        start.elapsed().as_secs_f64() * 1e6 / self.batch as f64
    }

    fn take_sample(&mut self) {
        let sample = self.sample();
        self.samples.push(sample);
    }

    fn times(mut self) -> Times {
        self.samples.sort_by(f64::total_cmp);
        let at = |part: f64| self.samples[((self.samples.len() - 1) as f64 * part) as usize];
        Times { median: at(0.5), low: at(0.05), high: at(0.95) }
    }
}

/// Times these calls in turns, so that all meet the same load of the machine.
fn in_turns<'a>(calls: Vec<Call<'a>>) -> Vec<Times> {
    let end = Instant::now() + Duration::from_millis(750) * calls.len() as u32;
    let mut timers: Vec<Timer<'a>> = calls.into_iter().map(Timer::new).collect();
    while Instant::now() < end || timers[0].samples.len() < 51 {
        timers.iter_mut().for_each(Timer::take_sample);
    }
    timers.into_iter().map(Timer::times).collect()
}

/// Times a call of the library and the same of the reference.
fn both<'a>(library: impl FnMut() + 'a, reference: impl FnMut() + 'a) -> (Times, Times) {
    let times = in_turns(vec![Box::new(library), Box::new(reference)]);
    (times[0], times[1])
}

/// Has the value made, whatever the compiler knows of it.
fn keep<T>(value: T) {
    black_box(value);
}

fn shown(time: f64) -> String {
    match time {
        t if t < 10.0 => format!("{t:.2}"),
        t if t < 100.0 => format!("{t:.1}"),
        t => format!("{t:.0}"),
    }
}

fn ratio(ratio: f64) -> String {
    if ratio < 1.0 {
        format!("{ratio:.2}")
    } else {
        format!("{ratio:.1}")
    }
}

fn spread(times: Times) -> String {
    format!("{} to {}", shown(times.low), shown(times.high))
}

// ------------------------------------------------------------------------------------------------------ the operations

/// A book with one of its goals that is reached.
struct Subject {
    name: &'static str,
    book: Vec<u8>,
    goal: u32,
    places: usize,
    derivation: Vec<u8>,
    fact: [u8; 7],
}

impl Subject {
    fn new(name: &'static str, draft: &Draft, goal: u32) -> Subject {
        let book = draft.bytes();
        let places = library::places(&book).expect("an accepted book");
        let (mut work, mut derivation) = (vec![0; places * 8], vec![0; places * 12]);
        let proved = library::prove(&book, goal, &mut work, &mut derivation).expect("a goal of the book");
        assert!(proved.reached, "{name}: the goal is not reached");
        derivation.truncate(proved.bytes);
        let steps = reference::steps_of(&derivation).expect("whole steps");
        let fact = steps[steps.len() - 1].fact;
        Subject { name, book, goal, places, derivation, fact }
    }

    fn describe(&self) {
        let counts = library::read(&self.book).expect("an accepted book");
        let mut table = vec![0; self.places];
        let held = library::survey(&self.book, &mut table).expect("a large table");
        let mut text = [0; 4096];
        let length = library::text(&self.book, &self.fact, &mut text).expect("a short text");
        let steps = reference::steps_of(&self.derivation).expect("whole steps").len();
        println!(
            "| {} | {} | {} | {} | {} | {} | {} | {} | {} |",
            self.name,
            counts.formulas,
            counts.principals,
            counts.assumptions,
            counts.messages,
            self.places,
            held,
            steps,
            length
        );
    }

    fn time(&self) {
        self.row("read", self.time_reading());
        self.row("survey", self.time_survey());
        self.row("honesty", self.time_honesty());
        self.row("prove", self.time_proof());
        self.row("check", self.time_check());
        self.row("fact text", self.time_text());
    }

    fn row(&self, operation: &str, (library, reference): (Times, Times)) {
        println!(
            "| {} | {} | {} | {} | {} | {} |",
            self.name,
            operation,
            shown(library.median),
            spread(library),
            shown(reference.median),
            ratio(reference.median / library.median)
        );
    }

    fn reading(&self) -> Call<'_> {
        Box::new(|| keep(library::read(black_box(&self.book)).is_ok()))
    }

    fn survey(&self) -> Call<'_> {
        survey_of(&self.book)
    }

    fn proof(&self) -> Call<'_> {
        let (mut work, mut derivation) = (vec![0; self.places * 8], vec![0; self.places * 12]);
        Box::new(move || keep(library::prove(black_box(&self.book), self.goal, &mut work, &mut derivation).is_ok()))
    }

    fn checking(&self) -> Call<'_> {
        check_of(&self.book, self.goal, &self.derivation)
    }

    fn time_reading(&self) -> (Times, Times) {
        both(self.reading(), || keep(reference::read(black_box(&self.book)).is_ok()))
    }

    fn time_survey(&self) -> (Times, Times) {
        both(self.survey(), || keep(own_survey(black_box(&self.book))))
    }

    fn time_honesty(&self) -> (Times, Times) {
        let mut report = vec![0; 16_384];
        let library = move || keep(library::honesty(black_box(&self.book), &mut report).is_ok());
        both(library, || keep(own_report(black_box(&self.book))))
    }

    fn time_proof(&self) -> (Times, Times) {
        both(self.proof(), || keep(own_proof(black_box(&self.book), self.goal)))
    }

    fn time_check(&self) -> (Times, Times) {
        both(self.checking(), || keep(own_check(black_box(&self.book), self.goal, &self.derivation)))
    }

    fn time_text(&self) -> (Times, Times) {
        let mut text = [0; 4096];
        let library = move || keep(library::text(black_box(&self.book), &self.fact, &mut text).is_ok());
        both(library, || keep(own_text(black_box(&self.book), &self.fact)))
    }
}

fn own_survey(book: &[u8]) -> Vec<u8> {
    let mut book = reference::read(book).expect("an accepted book");
    let following = reference::follow(&mut book);
    book.survey(&following)
}

fn own_report(book: &[u8]) -> Vec<u8> {
    let mut book = reference::read(book).expect("an accepted book");
    let following = reference::follow(&mut book);
    reference::report(&book.asked(&following), 16_384).expect("a large report")
}

/// The derivation and the held count.
fn own_proof(book: &[u8], goal: u32) -> (Vec<u8>, usize) {
    let mut book = reference::read(book).expect("an accepted book");
    let goal = book.goal(goal).expect("a goal of the book");
    let following = reference::follow(&mut book);
    let held = reference::held_after(&book.survey(&following), goal.after);
    (following.derivation(&book, goal), held)
}

fn own_check(book: &[u8], goal: u32, derivation: &[u8]) -> bool {
    let mut book = reference::read(book).expect("an accepted book");
    reference::check(&mut book, goal, derivation).is_ok()
}

fn own_text(book: &[u8], fact: &[u8]) -> Vec<u8> {
    let mut book = reference::read(book).expect("an accepted book");
    reference::fact_text(reference::Audience::Owner, &mut book, fact, 4096).expect("a short text")
}

// -------------------------------------------------------------------------------------------------------------- growth

const FORMULAS: [usize; 4] = [32, 64, 128, 256];
const PRINCIPALS: [usize; 3] = [2, 4, 8];

/// A survey's time for dense books of several sizes, in microseconds; in brackets the facts held.
fn growth() {
    let sizes = FORMULAS.iter().flat_map(|formulas| PRINCIPALS.map(|principals| (principals, *formulas)));
    let books: Vec<Vec<u8>> = sizes.map(|(principals, formulas)| books::dense(principals, formulas).bytes()).collect();
    let held: Vec<usize> = books.iter().map(|book| own_survey(book).iter().filter(|byte| **byte != 0).count()).collect();
    let times = in_turns(books.iter().map(|book| survey_of(book)).collect());
    println!("| formulas | 2 principals | 4 principals | 8 principals |");
    println!("|---|---|---|---|");
    for (row, formulas) in FORMULAS.iter().enumerate() {
        let cell = |i: usize| format!("{} ({} held)", shown(times[i].median), held[i]);
        println!("| {formulas} | {} | {} | {} |", cell(3 * row), cell(3 * row + 1), cell(3 * row + 2));
    }
}

/// A call that surveys this book.
fn survey_of(book: &[u8]) -> Call<'_> {
    let mut table = vec![0; library::places(book).expect("an accepted book")];
    Box::new(move || keep(library::survey(black_box(book), &mut table).is_ok()))
}

// --------------------------------------------------------------------------------------------------------- delegations

/// A server who is trusted in whose keys are good, for every key and for each key by itself: 256 formulas and 60 keys, 8 delegations in the
/// first book. He speaks of instances of all eight, and then of one alone. A fifth book has 36 variables, each with a delegation, and as many
/// keys. All are called in turns.
fn delegations() {
    let subjects = [
        Subject::new("for every key", &books::trusted_server(false, 8), 0),
        Subject::new("spelled out", &books::trusted_server(true, 8), 0),
        Subject::new("for every key, one of 8", &books::trusted_server(false, 1), 0),
        Subject::new("spelled out, one of 8", &books::trusted_server(true, 1), 0),
        Subject::new("many variables", &books::many_variables(), 0),
    ];
    println!("| book | formulas | facts held | read, µs | survey, µs | prove, µs | check, µs |");
    println!("|---|---|---|---|---|---|---|");
    let columns: Vec<Vec<Times>> = [Subject::reading, Subject::survey, Subject::proof, Subject::checking]
        .map(|call| in_turns(subjects.iter().map(call).collect()))
        .into();
    for (row, subject) in subjects.iter().enumerate() {
        let formulas = library::read(&subject.book).expect("an accepted book").formulas;
        let held = own_survey(&subject.book).iter().filter(|byte| **byte != 0).count();
        let cells: Vec<String> = columns.iter().map(|times| shown(times[row].median)).collect();
        println!("| {} | {formulas} | {held} | {} |", subject.name, cells.join(" | "));
    }
    for (name, row) in [("the first by the second", 0), ("the third by the fourth", 2)] {
        let ratios: Vec<String> = columns.iter().map(|times| ratio(times[row].median / times[row + 1].median)).collect();
        println!("| {name} | | | {} |", ratios.join(" | "));
    }
}

const DEPTHS: [usize; 5] = [5, 10, 20, 40, 79];

/// The check of a derivation by rule 21 in a book of conjunctions that double at each record: as trees they have 2 to the power of the
/// depth members. Accepted, the same step a thousand times, and with another key in the last member, which is refused.
fn doubled() {
    println!("| depth | formulas | read, µs | accepted, µs | a thousand times, µs | refused, µs |");
    println!("|---|---|---|---|---|---|");
    for depth in DEPTHS {
        let draft = books::doubled_delegation(depth);
        let times = doubled_times(&draft.bytes());
        let cells: Vec<String> = times.iter().map(|times| shown(times.median)).collect();
        println!("| {depth} | {} | {} |", draft.formulas.len(), cells.join(" | "));
    }
}

fn doubled_times(book: &[u8]) -> Vec<Times> {
    let facts = reference::read(book).expect("an accepted book");
    let written = |statement| facts.written(statement).expect("a fact over records");
    let given = |number: u16| step(64, written(facts.assumptions[usize::from(number)]), [number, 0]);
    let by_delegation = |goal: usize| step(86, written(facts.goals[goal].statement), [0, 1]);
    let accepted = [given(0), given(1), by_delegation(0)].concat();
    let repeated = [given(0), given(1), by_delegation(0).repeat(1000)].concat();
    let refused = [given(0), given(2), by_delegation(2)].concat();
    let answer = |goal, derivation: &[u8]| library::check(book, goal, derivation).map_err(|refusal| refusal.number);
    assert_eq!([answer(0, &accepted), answer(0, &repeated), answer(2, &refused)], [Ok(()), Ok(()), Err(19)]);
    let read = Box::new(|| keep(library::read(black_box(book)).is_ok()));
    in_turns(vec![read, check_of(book, 0, &accepted), check_of(book, 0, &repeated), check_of(book, 2, &refused)])
}

/// A call that checks this derivation.
fn check_of<'a>(book: &'a [u8], goal: u32, derivation: &'a [u8]) -> Call<'a> {
    Box::new(move || keep(library::check(black_box(book), goal, derivation).is_ok()))
}

/// A step as it is written.
fn step(kind: u8, fact: [u8; 7], numbers: [u16; 2]) -> Vec<u8> {
    let mut bytes = Vec::new();
    reference::Step { kind, fact, numbers }.write(&mut bytes);
    bytes
}

fn main() {
    let subjects = [
        Subject::new("certificate", &books::certificate(2), 0),
        Subject::new("Kerberos", &books::kerberos(), 2),
        Subject::new("dense", &books::dense(8, 256), 0),
        Subject::new("crowded", &books::crowded(), 31),
        Subject::new("falling chain", &books::falling_chain(), 0),
        Subject::new("zigzag chain for 1", &books::zigzag_chain(2), 0),
        Subject::new("zigzag chain for 7", &books::zigzag_chain(8), 0),
        Subject::new("long walks", &senders::long_walks(), 0),
    ];
    println!("| book | formulas | principals | assumptions | messages | F | facts held | steps | bytes of text |");
    println!("|---|---|---|---|---|---|---|---|---|");
    subjects.iter().for_each(Subject::describe);
    println!();
    println!("| book | operation | median, µs | nine of ten, µs | reference, µs | ratio |");
    println!("|---|---|---|---|---|---|");
    subjects.iter().for_each(Subject::time);
    println!();
    growth();
    println!();
    delegations();
    println!();
    doubled();
}
