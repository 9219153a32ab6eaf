//! Books to try: the practice books from a seed, rich books in which much follows, books at the limits, and damaged ones.

use crate::reference::{self, Audience, Book, Entered, Id, Map, Record, Tree};

/// Numbers from a seed (SplitMix64).
#[derive(Clone)]
pub struct Rng(u64);

impl Rng {
    pub fn new(seed: u64) -> Rng {
        Rng(seed)
    }

    pub fn next(&mut self) -> u64 {
        self.0 = self.0.wrapping_add(0x9E37_79B9_7F4A_7C15);
        let mut z = self.0;
        z = (z ^ (z >> 30)).wrapping_mul(0xBF58_476D_1CE4_E5B9);
        z = (z ^ (z >> 27)).wrapping_mul(0x94D0_49BB_1331_11EB);
        z ^ (z >> 31)
    }

    /// Below n; 0 if n is 0.
    pub fn below(&mut self, n: usize) -> usize {
        if n == 0 {
            0
        } else {
            (self.next() % n as u64) as usize
        }
    }

    /// From low to high, both included.
    pub fn between(&mut self, low: usize, high: usize) -> usize {
        low + self.below(high - low + 1)
    }

    /// Yes, once in n times.
    pub fn once_in(&mut self, n: usize) -> bool {
        self.below(n) == 0
    }

    pub fn pick<T: Copy>(&mut self, from: &[T]) -> Option<T> {
        if from.is_empty() {
            None
        } else {
            Some(from[self.below(from.len())])
        }
    }

    pub fn shuffle<T>(&mut self, items: &mut [T]) {
        for i in (1..items.len()).rev() {
            items.swap(i, self.below(i + 1));
        }
    }

    pub fn fill(&mut self, bytes: &mut [u8]) {
        for chunk in bytes.chunks_mut(8) {
            let value = self.next().to_le_bytes();
            chunk.copy_from_slice(&value[..chunk.len()]);
        }
    }
}

// ------------------------------------------------------------------------------------------- practice books from a seed

/// The draws of the practice books: sums wrap at 2^32.
struct Draws(u32);

impl Draws {
    fn draw(&mut self) -> usize {
        self.0 = self.0.wrapping_add(2_654_435_769);
        (self.0 ^ (self.0 >> 16)) as usize
    }
}

/// A book that grows by entering; a record that would be refused is passed over.
struct Growing {
    bytes: Vec<u8>,
    formulas: usize,
    principals: usize,
    messages: usize,
}

impl Growing {
    fn try_entering(&mut self, kind: u8, fields: &[usize]) {
        let fields: Vec<u16> = fields.iter().map(|field| *field as u16).collect();
        let record = Record::new(kind, &fields).bytes();
        let used = self.bytes.len();
        self.bytes.resize(used + record.len(), 0);
        match reference::enter(&mut self.bytes, used, &record) {
            Ok(Entered::Appended(_)) => self.count(kind),
            _ => self.bytes.truncate(used),
        }
    }

    fn count(&mut self, kind: u8) {
        match kind {
            1..=17 => self.formulas += 1,
            33 => self.messages += 1,
            _ => {}
        }
        if kind == 1 {
            self.principals += 1;
        }
    }

    /// A record of this kind with its fields drawn from left to right.
    fn try_drawing(&mut self, kind: u8, draws: &mut Draws) {
        let fields: Vec<usize> = sorts_of(kind).bytes().map(|sort| self.field(sort, draws.draw())).collect();
        self.try_entering(kind, &fields);
    }

    fn field(&self, sort: u8, draw: usize) -> usize {
        match sort {
            b'P' => draw % self.principals,
            b'K' => self.principals + draw % 2,
            b'M' => draw % (self.messages + 1),
            _ => draw % self.formulas,
        }
    }
}

/// A letter for each field: P principal, K key, M message number, X any other.
fn sorts_of(kind: u8) -> &'static str {
    match kind {
        4 | 7 => "XX",
        5 | 6 => "XKP",
        8 => "PKP",
        9 => "KP",
        10 => "PXP",
        11 | 32 => "X",
        33 => "PPX",
        34 => "MX",
        _ => "PX",
    }
}

/// The practice book of a seed.
pub fn practice(seed: u32) -> Vec<u8> {
    let mut draws = Draws(seed);
    let mut book = Growing { bytes: Vec::new(), formulas: 0, principals: 0, messages: 0 };
    let principals = 2 + draws.draw() % 6;
    (1..=principals).for_each(|name| book.try_entering(1, &[name]));
    (1..=2).for_each(|name| book.try_entering(2, &[name]));
    (1..=3).for_each(|name| book.try_entering(3, &[name]));
    for _ in 0..40 {
        let kind = 4 + draws.draw() % 12;
        book.try_drawing(kind as u8, &mut draws);
    }
    for (kind, times) in [(32, 8), (33, 4), (34, 4)] {
        (0..times).for_each(|_| book.try_drawing(kind, &mut draws));
    }
    book.bytes
}

// ------------------------------------------------------------------------------------------------------- books by parts

/// A book while it is made: formulas first, then the rest, whatever the order of making. `rearranged` puts formulas anywhere.
#[derive(Clone, Default)]
pub struct Draft {
    pub formulas: Vec<Record>,
    pub principals: Vec<u16>,
    pub keys: Vec<u16>,
    pub data: Vec<u16>,
    pub variables: Vec<u16>,
    pub assumptions: Vec<u16>,
    pub messages: Vec<[u16; 3]>,
    pub goals: Vec<[u16; 2]>,
    /// the most formula records
    pub most: usize,
}

impl Draft {
    pub fn new(most: usize) -> Draft {
        Draft { most, ..Draft::default() }
    }

    /// The number of this formula; it is added if it is not there. None when the draft is full.
    pub fn add(&mut self, kind: u8, fields: &[u16]) -> Option<u16> {
        let record = Record::new(kind, fields);
        if let Some(number) = self.formulas.iter().position(|formula| *formula == record) {
            return Some(number as u16);
        }
        if self.formulas.len() >= self.most {
            return None;
        }
        let number = self.formulas.len() as u16;
        self.formulas.push(record);
        match kind {
            1 => self.principals.push(number),
            2 => self.keys.push(number),
            3 => self.data.push(number),
            16 => self.variables.push(number),
            _ => {}
        }
        Some(number)
    }

    /// The number of a formula for which there is space.
    pub fn must(&mut self, kind: u8, fields: &[u16]) -> u16 {
        self.add(kind, fields).expect("space for a formula")
    }

    pub fn both(&mut self, x: u16, y: u16) -> Option<u16> {
        self.add(4, &[x, y])
    }

    pub fn shared_key(&mut self, p: u16, key: u16, q: u16) -> Option<u16> {
        let (p, q) = self.rising(p, q)?;
        self.add(8, &[p, key, q])
    }

    pub fn shared_secret(&mut self, p: u16, x: u16, q: u16) -> Option<u16> {
        let (p, q) = self.rising(p, q)?;
        self.add(10, &[p, x, q])
    }

    /// The two principals, the smaller name first; none if they are one.
    fn rising(&self, p: u16, q: u16) -> Option<(u16, u16)> {
        let name = |principal: u16| self.formulas[usize::from(principal)].fields[0];
        match name(p).cmp(&name(q)) {
            std::cmp::Ordering::Less => Some((p, q)),
            std::cmp::Ordering::Greater => Some((q, p)),
            std::cmp::Ordering::Equal => None,
        }
    }

    pub fn believes(&mut self, p: u16, x: u16) -> Option<u16> {
        self.add(12, &[p, x])
    }

    /// Assumes that P believes X.
    pub fn assume(&mut self, p: u16, x: u16) -> Option<()> {
        let statement = self.believes(p, x)?;
        self.assume_statement(statement)
    }

    pub fn assume_statement(&mut self, statement: u16) -> Option<()> {
        if self.assumptions.len() < 64 {
            self.assumptions.push(statement);
        }
        Some(())
    }

    pub fn send(&mut self, sender: u16, receiver: u16, formula: u16) {
        if sender != receiver && self.messages.len() < 16 {
            self.messages.push([sender, receiver, formula]);
        }
    }

    pub fn ask(&mut self, after: u16, statement: u16) {
        if self.goals.len() < 32 {
            self.goals.push([after, statement]);
        }
    }

    pub fn kind(&self, formula: u16) -> u8 {
        self.formulas[usize::from(formula)].kind
    }

    /// Of each formula record the variables that stand in it outside every kind 17.
    fn loose(&self) -> Vec<Vec<u16>> {
        let mut loose: Vec<Vec<u16>> = Vec::new();
        for (number, record) in self.formulas.iter().enumerate() {
            let mut own = match record.kind {
                16 => vec![number as u16],
                17 => vec![],
                _ => parts_of(record).iter().flat_map(|part| loose[usize::from(*part)].clone()).collect(),
            };
            own.sort();
            own.dedup();
            loose.push(own);
        }
        loose
    }

    fn numbers(&self, is_wanted: impl Fn(u8, &[u16]) -> bool) -> Vec<u16> {
        let loose = self.loose();
        let is_it = |number: &u16| is_wanted(self.kind(*number), &loose[usize::from(*number)]);
        (0..self.formulas.len() as u16).filter(is_it).collect()
    }

    /// Formula records that may stand as X and have no variable outside kind 17.
    pub fn parts(&self) -> Vec<u16> {
        self.numbers(|kind, loose| matches!(kind, 3..=15 | 17) && loose.is_empty())
    }

    /// Those that have one.
    pub fn open_parts(&self) -> Vec<u16> {
        self.numbers(|kind, loose| kind != 16 && !loose.is_empty())
    }

    fn statements(&self) -> Vec<u16> {
        self.numbers(|kind, loose| matches!(kind, 12 | 13) && loose.is_empty())
    }

    /// Is this formula of kind 17, or does it hold one?
    fn delegates(&self, formula: u16) -> bool {
        let mut delegates: Vec<bool> = Vec::new();
        for record in &self.formulas[..=usize::from(formula)] {
            let holds_one = parts_of(record).iter().any(|part| delegates[usize::from(*part)]);
            delegates.push(record.kind == 17 || holds_one);
        }
        delegates[usize::from(formula)]
    }

    /// The keys that stand in a formula.
    fn keys_in(&self, formula: u16) -> Vec<u16> {
        let mut is_in = vec![false; usize::from(formula) + 1];
        is_in[usize::from(formula)] = true;
        for number in (0..=usize::from(formula)).rev().filter(|number| self.formulas[*number].kind != 17) {
            if is_in[number] {
                parts_of(&self.formulas[number]).iter().for_each(|part| is_in[usize::from(*part)] = true);
            }
        }
        self.keys.iter().copied().filter(|key| *key <= formula && is_in[usize::from(*key)]).collect()
    }

    /// The formula with one key or variable throughout in the place of another; what stands in a kind 17 stays. The records that it
    /// needs are added.
    pub fn replaced(&mut self, formula: u16, from: u16, to: u16) -> Option<u16> {
        let mut place: Vec<u16> = Vec::new();
        let mut is_in = vec![false; usize::from(formula) + 1];
        is_in[usize::from(formula)] = true;
        for number in (0..=usize::from(formula)).rev() {
            if is_in[number] && self.formulas[number].kind != 17 {
                parts_of(&self.formulas[number]).iter().for_each(|part| is_in[usize::from(*part)] = true);
            }
        }
        for number in 0..=formula {
            let record = self.formulas[usize::from(number)];
            let new = match record.kind {
                _ if number == from => to,
                1 | 2 | 3 | 16 | 17 => number,
                _ if !is_in[usize::from(number)] => number,
                kind => {
                    let fields: Vec<u16> = parts_of(&record).iter().map(|part| place[usize::from(*part)]).collect();
                    self.add(kind, &fields)?
                }
            };
            place.push(new);
        }
        place.last().copied()
    }

    /// For every V, Q controls X.
    pub fn for_every(&mut self, v: u16, q: u16, x: u16) -> Option<u16> {
        let control = self.add(15, &[q, x])?;
        self.add(17, &[v, control])
    }

    /// All records, the formulas first.
    pub fn records(&self) -> Vec<Record> {
        let mut records = self.formulas.clone();
        records.extend(self.assumptions.iter().map(|formula| Record::new(32, &[*formula])));
        records.extend(self.messages.iter().map(|fields| Record::new(33, fields)));
        records.extend(self.goals.iter().map(|fields| Record::new(34, fields)));
        records
    }

    pub fn bytes(&self) -> Vec<u8> {
        bytes_of(&self.records())
    }

    /// The same book with its formula records in the order of these numbers, which has parts before wholes.
    pub fn reordered(&self, order: &[u16]) -> Draft {
        let mut place = vec![0; order.len()];
        for (new, old) in order.iter().enumerate() {
            place[usize::from(*old)] = new as u16;
        }
        let at = |number: &u16| place[usize::from(*number)];
        let mut draft = Draft::new(self.most);
        for old in order {
            let record = &self.formulas[usize::from(*old)];
            draft.formulas.push(renumbered(record, &place));
        }
        draft.principals = self.principals.iter().map(at).collect();
        draft.keys = self.keys.iter().map(at).collect();
        draft.data = self.data.iter().map(at).collect();
        draft.variables = self.variables.iter().map(at).collect();
        draft.assumptions = self.assumptions.iter().map(at).collect();
        draft.messages = self.messages.iter().map(|fields| fields.map(|field| at(&field))).collect();
        draft.goals = self.goals.iter().map(|[after, formula]| [*after, at(formula)]).collect();
        draft
    }

    /// A random order of the formula records with parts before wholes.
    fn random_order(&self, rng: &mut Rng) -> Vec<u16> {
        let mut left: Vec<u16> = (0..self.formulas.len() as u16).collect();
        rng.shuffle(&mut left);
        let mut is_placed = vec![false; left.len()];
        let mut order = Vec::new();
        while !left.is_empty() {
            left.retain(|number| {
                let parts = parts_of(&self.formulas[usize::from(*number)]);
                let is_free = parts.iter().all(|part| is_placed[usize::from(*part)]);
                if is_free {
                    is_placed[usize::from(*number)] = true;
                    order.push(*number);
                }
                !is_free
            });
        }
        order
    }
}

pub fn bytes_of(records: &[Record]) -> Vec<u8> {
    records.iter().flat_map(|record| record.bytes()).collect()
}

/// The formulas that a formula record refers to.
fn parts_of(record: &Record) -> &[u16] {
    let count = reference::record_length(record.kind).unwrap() / 2;
    if matches!(record.kind, 1 | 2 | 3 | 16) {
        &[]
    } else {
        &record.fields[..count]
    }
}

fn renumbered(record: &Record, place: &[u16]) -> Record {
    let fields: Vec<u16> = parts_of(record).iter().map(|part| place[usize::from(*part)]).collect();
    if matches!(record.kind, 1 | 2 | 3 | 16) {
        *record
    } else {
        Record::new(record.kind, &fields)
    }
}

// ----------------------------------------------------------------------------------------------------- formulas anywhere

/// The same formula records and the same others, both in their order, but the formula records anywhere: each of the others stands
/// somewhere behind the formulas that it refers to. Bytes that are no whole record stay behind.
pub fn rearranged(book: &[u8], rng: &mut Rng) -> Vec<u8> {
    let (records, rest) = cut(book);
    let (formulas, others): (Vec<Vec<u8>>, Vec<Vec<u8>>) = records.into_iter().partition(|record| record[0] <= 17);
    let is_soon = rng.once_in(3);
    let mut bytes = Vec::new();
    let mut placed = 0;
    for record in others {
        let least = placed.max(formulas_before(&record)).min(formulas.len());
        let more = if is_soon || rng.once_in(2) { 0 } else { rng.below(formulas.len() - least + 1) / 4 };
        formulas[placed..least + more].iter().for_each(|formula| bytes.extend(formula));
        placed = least + more;
        bytes.extend(record);
    }
    formulas[placed..].iter().for_each(|formula| bytes.extend(formula));
    bytes.extend(rest);
    bytes
}

/// Where the record of this goal begins.
pub fn place_of_goal(book: &[u8], goal: usize) -> usize {
    let mut places = Vec::new();
    let mut at = 0;
    for record in cut(book).0 {
        if record[0] == 34 {
            places.push(at);
        }
        at += record.len();
    }
    places[goal]
}

/// How many formula records must stand before this assumption, message or goal.
fn formulas_before(record: &[u8]) -> usize {
    let fields = record[1..].chunks(2).map(|field| usize::from(u16::from_be_bytes([field[0], field[1]])));
    let is_goal = record[0] == 34;
    fields.skip(usize::from(is_goal)).map(|formula| formula + 1).max().unwrap_or(0)
}

// -------------------------------------------------------------------------------------------------- other names of data

/// The same book but for the names of its data. No two data get the same name, so it is accepted as the book was; it has a datum.
pub fn renamed(book: &[u8], rng: &mut Rng) -> Vec<u8> {
    let (mut records, rest) = cut(book);
    let mut data: Vec<&mut Vec<u8>> = records.iter_mut().filter(|record| record[0] == 3).collect();
    let before: Vec<u16> = data.iter().map(|record| u16::from_be_bytes([record[1], record[2]])).collect();
    for (record, name) in data.iter_mut().zip(other_names(&before, rng)) {
        record[1..3].copy_from_slice(&name.to_be_bytes());
    }
    let mut bytes = records.concat();
    bytes.extend(rest);
    bytes
}

/// As many names as these, and not just these: of one figure if there are enough, of five figures, any, or these in another order. So
/// texts with them grow or shrink.
fn other_names(before: &[u16], rng: &mut Rng) -> Vec<u16> {
    loop {
        let names = match rng.below(4) {
            0 => distinct_names(before.len(), 0, before.len().max(10) - 1, rng),
            1 => distinct_names(before.len(), 60_000, 65_535, rng),
            2 => distinct_names(before.len(), 0, 65_535, rng),
            _ => {
                let mut names = before.to_vec();
                rng.shuffle(&mut names);
                names
            }
        };
        if names != before {
            return names;
        }
    }
}

/// So many names from low to high, each once.
fn distinct_names(count: usize, low: usize, high: usize, rng: &mut Rng) -> Vec<u16> {
    let mut names = Vec::new();
    while names.len() < count {
        let name = rng.between(low, high) as u16;
        if !names.contains(&name) {
            names.push(name);
        }
    }
    names
}

// ----------------------------------------------------------------------------------------------------------- rich books

/// How large a rich book is to be.
pub struct Size {
    pub principals: usize,
    pub formulas: usize,
    pub scenes: usize,
}

impl Size {
    pub fn random(rng: &mut Rng) -> Size {
        let formulas = match rng.below(10) {
            0..=4 => rng.between(12, 50),
            5..=8 => rng.between(40, 120),
            _ => rng.between(100, 256),
        };
        Size { principals: rng.between(2, 8), formulas, scenes: rng.between(1, 2 + formulas / 12) }
    }

    pub fn largest() -> Size {
        Size { principals: 8, formulas: 256, scenes: 60 }
    }
}

/// A book in which much follows, its formula records often in a mixed order.
pub fn rich(rng: &mut Rng, size: &Size) -> Draft {
    let mut draft = Draft::new(size.formulas);
    enter_names(&mut draft, rng, size.principals);
    if rng.once_in(2) {
        enter_variables(&mut draft, rng);
    }
    for _ in 0..size.scenes {
        let _ = scene(&mut draft, rng);
        if rng.once_in(3) {
            let _ = delegation_scene(&mut draft, rng);
        }
    }
    let _ = add_goals(&mut draft, rng);
    if rng.once_in(3) {
        draft
    } else {
        shuffled(&draft, rng)
    }
}

/// The same book with its formula records in a random order.
pub fn shuffled(draft: &Draft, rng: &mut Rng) -> Draft {
    let order = draft.random_order(rng);
    draft.reordered(&order)
}

/// A small book of random formulas.
pub fn small(rng: &mut Rng) -> Draft {
    let mut draft = Draft::new(rng.between(1, 24));
    let principals = rng.between(1, 3);
    enter_names(&mut draft, rng, principals);
    if !rng.once_in(3) {
        draft.most += 16;
        enter_variables(&mut draft, rng);
        let _ = delegation_scene(&mut draft, rng);
    }
    for _ in 0..rng.below(40) {
        let parts = draft.parts();
        let Some(p) = rng.pick(&draft.principals) else { break };
        let _ = match rng.below(8) {
            0 | 1 => random_open(&mut draft, rng),
            2 => random_delegation(&mut draft, rng),
            3 => random_instance(&mut draft, rng),
            _ => random_formula(&mut draft, rng, p, &parts),
        };
    }
    let (parts, statements) = (draft.parts(), draft.statements());
    for _ in 0..rng.below(6) {
        draft.assumptions.extend(rng.pick(&statements));
        let (sender, receiver) = two_of(&draft.principals, rng);
        if let Some(formula) = rng.pick(&parts) {
            draft.send(sender, receiver, formula);
        }
    }
    let _ = add_goals(&mut draft, rng);
    draft
}

/// A rich book with as many records of each class as there may be.
pub fn full(rng: &mut Rng) -> Draft {
    let mut draft = rich(rng, &Size::largest());
    while draft.formulas.len() < 256 {
        let (parts, p) = (draft.parts(), rng.pick(&draft.principals).unwrap());
        let _ = random_formula(&mut draft, rng, p, &parts);
        let _ = random_delegation(&mut draft, rng);
    }
    let statements = draft.statements();
    while draft.assumptions.len() < 64 {
        draft.assumptions.push(rng.pick(&statements).unwrap());
    }
    while draft.messages.len() < 16 {
        let (sender, receiver) = two_of(&draft.principals, rng);
        let parts = draft.parts();
        draft.send(sender, receiver, rng.pick(&parts).unwrap());
    }
    while draft.goals.len() < 32 {
        draft.ask(rng.below(17) as u16, rng.pick(&statements).unwrap());
    }
    draft
}

/// Principals, keys and data; the names are mostly small, in any order.
fn enter_names(draft: &mut Draft, rng: &mut Rng, principals: usize) {
    let (keys, data) = (rng.between(1, 5), rng.between(1, 6));
    for (kind, count) in [(1, principals), (2, keys), (3, data)] {
        let mut names: Vec<u16> = (1..=count as u16).collect();
        rng.shuffle(&mut names);
        for name in names {
            let wide = if rng.once_in(8) { 1000 * rng.below(65) as u16 } else { 0 };
            let _ = draft.add(kind, &[name + wide]);
        }
    }
}

/// Key variables, their names small.
fn enter_variables(draft: &mut Draft, rng: &mut Rng) {
    for name in 1..=rng.between(1, 3) as u16 {
        let _ = draft.add(16, &[name + if rng.once_in(8) { 5000 } else { 0 }]);
    }
}

/// Two of them, not the same if there are two.
fn two_of(from: &[u16], rng: &mut Rng) -> (u16, u16) {
    if from.len() == 1 {
        return (from[0], from[0]);
    }
    let first = rng.below(from.len());
    let second = (first + rng.between(1, from.len() - 1)) % from.len();
    (from[first], from[second])
}

/// One scene: Q tells P something under a key or with a secret, and P assumes what lets something follow from it.
fn scene(draft: &mut Draft, rng: &mut Rng) -> Option<()> {
    let (p, q) = two_of(&draft.principals, rng);
    let key = rng.pick(&draft.keys)?;
    let nonce = rng.pick(&draft.data)?;
    let told = told_things(draft, rng, p, q, nonce)?;
    let body = grouped(draft, rng, &told)?;
    let from = if rng.once_in(6) { p } else { q };
    let wrapped = wrap(draft, rng, p, q, body, key, from)?;
    assume_about(draft, rng, p, q, nonce, &told)?;
    let receiver = if rng.once_in(8) { rng.pick(&draft.principals)? } else { p };
    deliver(draft, rng, q, receiver, wrapped)
}

/// Some things for Q to tell P, most often with a nonce among them.
fn told_things(draft: &mut Draft, rng: &mut Rng, p: u16, q: u16, nonce: u16) -> Option<Vec<u16>> {
    let mut told = Vec::new();
    if !rng.once_in(5) {
        told.push(nonce);
    }
    for _ in 0..rng.between(1, 4) {
        let parts = draft.parts();
        let about = if rng.once_in(2) { p } else { q };
        told.push(match rng.below(4) {
            0 => rng.pick(&parts)?,
            _ => random_formula(draft, rng, about, &parts)?,
        });
    }
    rng.shuffle(&mut told);
    Some(told)
}

/// A formula of a random kind in which p takes part.
fn random_formula(draft: &mut Draft, rng: &mut Rng, p: u16, parts: &[u16]) -> Option<u16> {
    let other = rng.pick(&draft.principals)?;
    let key = rng.pick(&draft.keys)?;
    let (x, y) = (rng.pick(parts)?, rng.pick(parts)?);
    match rng.below(14) {
        0 | 1 => draft.shared_key(p, key, other).or(Some(x)),
        2 => draft.add(9, &[key, p]),
        3 => draft.shared_secret(p, x, other).or(Some(x)),
        4 => draft.add(11, &[x]),
        5 => draft.add(12, &[p, x]),
        6 => draft.add(13, &[p, x]),
        7 => draft.add(14, &[p, x]),
        8 => draft.add(15, &[p, x]),
        9 => draft.add(5, &[x, key, other]),
        10 => draft.add(6, &[x, key, other]),
        11 => draft.add(7, &[x, y]),
        _ => draft.both(x, y),
    }
}

/// A formula of a random kind with a variable outside kind 17.
fn random_open(draft: &mut Draft, rng: &mut Rng) -> Option<u16> {
    let (p, q) = two_of(&draft.principals, rng);
    let (v, key) = (rng.pick(&draft.variables)?, rng.pick(&draft.keys)?);
    let (parts, open) = (draft.parts(), draft.open_parts());
    let x = rng.pick(&parts)?;
    let (y, z) = (rng.pick(&open).unwrap_or(x), rng.pick(&open).unwrap_or(x));
    match rng.below(16) {
        0 | 1 | 2 => draft.shared_key(p, v, q),
        3 | 4 => draft.add(9, &[v, p]),
        5 => draft.add(5, &[x, v, p]),
        6 => draft.add(6, &[y, v, p]),
        7 => draft.both(x, y),
        8 => draft.both(y, x),
        9 => draft.both(y, z),
        10 => draft.add(5, &[y, key, p]),
        11 => draft.add(7, &[y, z]),
        12 => draft.shared_secret(p, y, q),
        13 => draft.add(11, &[y]),
        _ => draft.add(rng.between(12, 15) as u8, &[p, y]),
    }
}

/// A formula that may stand as the X of a kind 17 with this variable: it has the variable, if there is such a formula, and no other.
fn random_pattern(draft: &mut Draft, rng: &mut Rng, v: u16) -> Option<u16> {
    let loose = draft.loose();
    let is_fit = |number: &u16| loose[usize::from(*number)] == [v] && !draft.delegates(*number);
    let fits: Vec<u16> = draft.open_parts().into_iter().filter(is_fit).collect();
    let others: Vec<u16> = draft.parts().into_iter().filter(|number| !draft.delegates(*number)).collect();
    let (p, q) = two_of(&draft.principals, rng);
    match rng.below(6) {
        0 => rng.pick(&others),
        1 => draft.shared_key(p, v, q),
        2 => draft.add(9, &[v, p]),
        3 => draft.both(rng.pick(&fits)?, rng.pick(&fits)?),
        _ => rng.pick(&fits).or_else(|| draft.add(9, &[v, p])),
    }
}

/// For every V, somebody controls something.
fn random_delegation(draft: &mut Draft, rng: &mut Rng) -> Option<u16> {
    let (q, v) = (rng.pick(&draft.principals)?, rng.pick(&draft.variables)?);
    let x = random_pattern(draft, rng, v)?;
    draft.for_every(v, q, x)
}

/// A formula with a key put for a variable.
fn random_instance(draft: &mut Draft, rng: &mut Rng) -> Option<u16> {
    let (v, key) = (rng.pick(&draft.variables)?, rng.pick(&draft.keys)?);
    let open = draft.open_parts();
    draft.replaced(rng.pick(&open)?, v, key)
}

/// One scene with a delegation: P believes that Q controls something for every key, and that Q believes it of some of them.
fn delegation_scene(draft: &mut Draft, rng: &mut Rng) -> Option<()> {
    let (p, q) = two_of(&draft.principals, rng);
    let v = rng.pick(&draft.variables)?;
    if rng.once_in(2) {
        random_open(draft, rng)?;
    }
    let pattern = random_pattern(draft, rng, v)?;
    let all = draft.for_every(v, q, pattern)?;
    learn(draft, rng, p, all)?;
    if rng.once_in(3) {
        draft.believes(p, pattern)?;
    }
    for _ in 0..rng.between(1, 3) {
        let x = instance(draft, rng, v, pattern)?;
        match rng.below(6) {
            0..=2 => {
                let thought = draft.believes(q, x)?;
                learn(draft, rng, p, thought)?;
            }
            3 | 4 => tell(draft, rng, p, q, x)?,
            _ => {}
        }
        if rng.once_in(2) {
            draft.add(15, &[q, x])?;
        }
        if rng.once_in(3) {
            let wanted = draft.believes(p, x)?;
            draft.ask(rng.below(draft.messages.len() + 1) as u16, wanted);
        }
    }
    Some(())
}

/// Q tells P something with a nonce that P takes for fresh, under a key or with a secret.
fn tell(draft: &mut Draft, rng: &mut Rng, p: u16, q: u16, x: u16) -> Option<()> {
    let (key, nonce) = (rng.pick(&draft.keys)?, rng.pick(&draft.data)?);
    let fresh = draft.add(11, &[nonce])?;
    draft.assume(p, fresh)?;
    let body = draft.both(x, nonce)?;
    let wrapped = wrap(draft, rng, p, q, body, key, q)?;
    deliver(draft, rng, q, p, wrapped)
}

/// The pattern with a key put for the variable; now and then, where it is a conjunction, with two keys.
fn instance(draft: &mut Draft, rng: &mut Rng, v: u16, pattern: u16) -> Option<u16> {
    let (one, other) = (rng.pick(&draft.keys)?, rng.pick(&draft.keys)?);
    let record = draft.formulas[usize::from(pattern)];
    if record.kind != 4 || !rng.once_in(4) {
        return draft.replaced(pattern, v, one);
    }
    let (x, y) = (draft.replaced(record.fields[0], v, one)?, draft.replaced(record.fields[1], v, other)?);
    draft.both(x, y)
}

/// P comes to believe that Q controls X, for every key in the place of one that X has.
fn delegate(draft: &mut Draft, rng: &mut Rng, p: u16, q: u16, x: u16) -> Option<()> {
    let keys = draft.keys_in(x);
    let (v, key) = (rng.pick(&draft.variables)?, rng.pick(&keys));
    if draft.delegates(x) {
        return None;
    }
    let pattern = key.map_or(Some(x), |key| draft.replaced(x, key, v))?;
    let all = draft.for_every(v, q, pattern)?;
    if rng.once_in(3) {
        draft.add(15, &[q, x])?;
    }
    if rng.once_in(4) {
        draft.assume(p, all)
    } else {
        learn(draft, rng, p, all)
    }
}

/// A conjunction of these members, grouped in a random way.
fn grouped(draft: &mut Draft, rng: &mut Rng, members: &[u16]) -> Option<u16> {
    if members.len() <= 1 {
        return members.first().copied();
    }
    let cut = rng.between(1, members.len() - 1);
    let left = grouped(draft, rng, &members[..cut])?;
    let right = grouped(draft, rng, &members[cut..])?;
    draft.both(left, right)
}

/// The body under a key or combined with a secret, and the assumption that opens it.
fn wrap(draft: &mut Draft, rng: &mut Rng, p: u16, q: u16, body: u16, key: u16, from: u16) -> Option<u16> {
    match rng.below(5) {
        0 | 1 => {
            let shared = draft.shared_key(p, key, q)?;
            learn(draft, rng, p, shared)?;
            draft.add(5, &[body, key, from])
        }
        2 => {
            let owned = draft.add(9, &[key, q])?;
            learn(draft, rng, p, owned)?;
            draft.add(6, &[body, key, from])
        }
        3 => {
            let parts = draft.parts();
            let secret = rng.pick(&parts)?;
            let shared = draft.shared_secret(p, secret, q)?;
            learn(draft, rng, p, shared)?;
            draft.add(7, &[body, secret])
        }
        _ => {
            let own = draft.add(9, &[key, p])?;
            learn(draft, rng, p, own)?;
            let inner = if rng.once_in(2) { draft.add(6, &[body, key, q])? } else { body };
            draft.add(5, &[inner, key, from])
        }
    }
}

/// P comes to believe X: by an assumption, by another's belief with control over it, or (now and then) not at all.
fn learn(draft: &mut Draft, rng: &mut Rng, p: u16, x: u16) -> Option<()> {
    match rng.below(8) {
        0 => Some(()),
        1 => {
            let q = rng.pick(&draft.principals)?;
            let thought = draft.add(12, &[q, x])?;
            if rng.once_in(2) && delegate(draft, rng, p, q, x).is_some() {
                return draft.assume(p, thought);
            }
            let control = draft.add(15, &[q, x])?;
            draft.assume(p, control)?;
            draft.assume(p, thought)
        }
        2 => {
            let parts = draft.parts();
            let pair = draft.both(x, rng.pick(&parts)?)?;
            draft.assume(p, pair)
        }
        _ => draft.assume(p, x),
    }
}

/// Freshness of the nonce, and control of the other over some of what he tells.
fn assume_about(draft: &mut Draft, rng: &mut Rng, p: u16, q: u16, nonce: u16, told: &[u16]) -> Option<()> {
    if !rng.once_in(4) {
        let fresh = draft.add(11, &[nonce])?;
        learn(draft, rng, p, fresh)?;
    }
    for x in told {
        if rng.once_in(3) || rng.once_in(2) && delegate(draft, rng, p, q, *x).is_some() {
            continue;
        }
        let control = draft.add(15, &[q, *x])?;
        draft.assume(p, control)?;
    }
    Some(())
}

/// Sends it as a message, alone or with something else, or has it seen from the start.
fn deliver(draft: &mut Draft, rng: &mut Rng, q: u16, receiver: u16, formula: u16) -> Option<()> {
    let parts = draft.parts();
    let formula = if rng.once_in(4) { draft.both(rng.pick(&parts)?, formula)? } else { formula };
    if rng.once_in(6) {
        let seen = draft.add(13, &[receiver, formula])?;
        draft.assume_statement(seen)
    } else {
        draft.send(q, receiver, formula);
        Some(())
    }
}

/// Goals: beliefs in random formulas, some asked twice, after different messages.
fn add_goals(draft: &mut Draft, rng: &mut Rng) -> Option<()> {
    for _ in 0..rng.between(0, 6) {
        let statements = draft.statements();
        let parts = draft.parts();
        let p = rng.pick(&draft.principals)?;
        let kind = if rng.once_in(4) { 13 } else { 12 };
        let made = draft.add(kind, &[p, rng.pick(&parts)?]);
        let statement = if rng.once_in(2) { rng.pick(&statements) } else { made };
        let statement = statement.or(made)?;
        for _ in 0..rng.between(1, 2) {
            draft.ask(rng.below(draft.messages.len() + 1) as u16, statement);
        }
    }
    Some(())
}

// ---------------------------------------------------------------------------------------------------------- dense books

/// A book in which one principal tells all others a long list under his public key, and they believe him much of it.
/// It has just so many formula records, 32 or more.
pub fn dense(principals: usize, formulas: usize) -> Draft {
    let mut draft = Draft::new(formulas);
    let people: Vec<u16> = (1..=principals).map(|name| draft.must(1, &[name as u16])).collect();
    let (server, first) = (people[principals - 1], people[0]);
    let (key, nonce) = (draft.must(2, &[1]), draft.must(3, &[1]));
    let (owned, fresh) = (draft.must(9, &[key, server]), draft.must(11, &[nonce]));
    let mut trusted = draft.must(4, &[owned, fresh]);
    let mut told = nonce;
    // What is needed at the end: a belief for each principal, the signed list, the goal's two records, and one spare.
    let reserve = principals + 4;
    for name in 2.. {
        let left = formulas - reserve - draft.formulas.len();
        if left < 4 {
            for more in 0..left {
                draft.must(3, &[1000 + more as u16]);
            }
            break;
        }
        let member = draft.must(3, &[name]);
        told = draft.must(4, &[member, told]);
        if name % 2 == 0 {
            let control = draft.must(15, &[server, member]);
            trusted = draft.must(4, &[control, trusted]);
        }
    }
    let signed = draft.must(6, &[told, key, server]);
    for p in people.iter().copied() {
        draft.assume(p, trusted);
        draft.send(server, p, signed);
    }
    let belief = draft.must(12, &[server, told]);
    let wanted = draft.must(12, &[first, belief]);
    draft.must(3, &[60_000]);
    draft.ask(1, wanted);
    draft
}

/// A book at every limit. All principals share one key in pairs, and each is told two long lists under it.
pub fn crowded() -> Draft {
    let mut draft = Draft::new(256);
    let people: Vec<u16> = (1..=8).map(|name| draft.must(1, &[name])).collect();
    let (key, nonce) = (draft.must(2, &[1]), draft.must(3, &[1]));
    for p in people.iter().copied() {
        for q in people.iter().copied().filter(|q| *q != p) {
            let shared = draft.shared_key(p, key, q).unwrap();
            draft.assume(p, shared);
        }
    }
    let fresh = draft.must(11, &[nonce]);
    for p in people.iter().copied() {
        draft.assume(p, fresh);
    }
    let mut lists = [nonce, nonce];
    for name in 2..=70 {
        let member = draft.must(3, &[name]);
        let list = &mut lists[usize::from(name % 2)];
        *list = draft.must(4, &[member, *list]);
    }
    for list in lists {
        let seals = [people[0], people[1]].map(|from| draft.must(5, &[list, key, from]));
        for i in 0..8 {
            let (sender, seal) = if i == 0 { (people[1], seals[1]) } else { (people[0], seals[0]) };
            draft.send(sender, people[i], seal);
        }
    }
    fill_up(&mut draft, lists[0]);
    draft
}

/// Beliefs of principals in one another's beliefs in parts of a list, as goals, until the book is full.
fn fill_up(draft: &mut Draft, list: u16) {
    for i in 0.. {
        let (p, q) = (draft.principals[i % 8], draft.principals[(i / 8 + i + 1) % 8]);
        let Some(thought) = draft.believes(q, list) else { break };
        let Some(wanted) = draft.believes(p, thought) else { break };
        draft.ask((i % 17) as u16, wanted);
    }
    while draft.goals.len() < 32 {
        let asked = draft.goals[draft.goals.len() % 5][1];
        draft.ask(16, asked);
    }
}

// ---------------------------------------------------------------------------------------------------------- long chains

/// "Q controls" nested: believing one link gives control over the next, and the numbers of the records fall along the chain.
pub fn falling_chain() -> Draft {
    let mut draft = Draft::new(256);
    let (p, q) = (draft.must(1, &[1]), draft.must(1, &[2]));
    let last = draft.must(3, &[1]);
    let mut links = vec![last];
    for _ in 0..124 {
        links.push(draft.must(15, &[q, links[links.len() - 1]]));
    }
    let (first, rest) = links.split_last().unwrap();
    let mut all = rest[0];
    for link in &rest[1..] {
        all = draft.must(4, &[*link, all]);
    }
    let thought = draft.must(12, &[q, all]);
    draft.assume(p, *first);
    draft.assume(p, thought);
    draft.send(q, p, last);
    let wanted = draft.must(12, &[p, last]);
    draft.ask(0, wanted);
    draft
}

/// A public key of the last principal opens a message with his next one, for all others alike. The records of the keys stand
/// in zigzag order, so that neither going up nor going down through the records finds more than a link at a time.
pub fn zigzag_chain(principals: usize) -> Draft {
    let links = 33;
    let mut draft = Draft::new(256);
    let people: Vec<u16> = (1..=principals).map(|name| draft.must(1, &[name as u16])).collect();
    let (teller, others) = people.split_last().unwrap();
    let nonce = draft.must(3, &[1]);
    let keys: Vec<u16> = (0..links).map(|i| draft.must(2, &[i as u16])).collect();
    let mut owned = vec![0; links];
    for i in zigzag(links) {
        owned[i] = draft.must(9, &[keys[i], *teller]);
    }
    let (mut seen, mut trusted) = (nonce, draft.must(11, &[nonce]));
    for i in zigzag(links).into_iter().filter(|i| *i > 0) {
        let told = draft.must(4, &[owned[i], nonce]);
        let signed = draft.must(6, &[told, keys[i - 1], *teller]);
        let control = draft.must(15, &[*teller, owned[i]]);
        seen = draft.must(4, &[signed, seen]);
        trusted = draft.must(4, &[control, trusted]);
    }
    trusted = draft.must(4, &[owned[0], trusted]);
    for p in others.iter().copied() {
        draft.assume(p, trusted);
        draft.send(*teller, p, seen);
    }
    let wanted = draft.must(12, &[people[0], owned[links - 1]]);
    draft.ask(1, wanted);
    draft
}

/// 0, 2, 4, .. and then back: .., 5, 3, 1.
fn zigzag(links: usize) -> Vec<usize> {
    let back: Vec<usize> = (1..links).step_by(2).collect();
    (0..links).step_by(2).chain(back.into_iter().rev()).collect()
}

// ----------------------------------------------------------------------------------------------------------- delegations

/// 256 formulas, 60 keys, and a server whom all others trust in whose keys are good: for every key, or spelled out for each key of
/// which he speaks. He tells them 40 such things in a list under his own key: instances of as many of the 8 delegations as is said.
pub fn trusted_server(is_spelled_out: bool, spread: usize) -> Draft {
    let mut draft = Draft::new(256);
    let people: Vec<u16> = (1..=8).map(|name| draft.must(1, &[name])).collect();
    let keys: Vec<u16> = (1..=60).map(|name| draft.must(2, &[name])).collect();
    let (server, nonce) = (people[7], draft.must(3, &[1]));
    let (owned, fresh) = (draft.must(9, &[keys[59], server]), draft.must(11, &[nonce]));
    let mut trusted = draft.must(4, &[owned, fresh]);
    let mut told = nonce;
    let good = |draft: &mut Draft, i: usize, key: u16| match i % 8 {
        i if i < 4 => draft.must(9, &[key, people[i]]),
        i => draft.must(8, &[people[i - 4], key, people[i - 3]]),
    };
    for (i, key) in keys[..40].iter().enumerate() {
        let member = good(&mut draft, i % spread, *key);
        told = draft.must(4, &[member, told]);
        if is_spelled_out {
            let control = draft.must(15, &[server, member]);
            trusted = draft.must(4, &[control, trusted]);
        }
    }
    for i in 0..if is_spelled_out { 0 } else { 8 } {
        let variable = draft.must(16, &[1]);
        let member = good(&mut draft, i, variable);
        let all = draft.for_every(variable, server, member).expect("space for a delegation");
        trusted = draft.must(4, &[all, trusted]);
    }
    let signed = draft.must(6, &[told, keys[59], server]);
    for p in people[..7].iter().copied() {
        draft.assume(p, trusted);
        draft.send(server, p, signed);
    }
    let member = good(&mut draft, 0, keys[0]);
    let wanted = draft.must(12, &[people[0], member]);
    draft.ask(1, wanted);
    for name in 2.. {
        if draft.add(3, &[name]).is_none() {
            return draft;
        }
    }
    draft
}

/// P1 trusts P2 in one thing for every key, once for each of 36 variables; there are as many keys, and P2 believes it of twelve.
pub fn many_variables() -> Draft {
    let mut draft = Draft::new(256);
    let (p, q) = (draft.must(1, &[1]), draft.must(1, &[2]));
    let keys: Vec<u16> = (1..=36).map(|name| draft.must(2, &[name])).collect();
    let variables: Vec<u16> = (1..=36).map(|name| draft.must(16, &[name])).collect();
    let (mut trusted, mut told) = (draft.must(3, &[1]), draft.must(3, &[2]));
    for variable in variables {
        let open = draft.must(9, &[variable, q]);
        let all = draft.for_every(variable, q, open).expect("space for a delegation");
        trusted = draft.must(4, &[all, trusted]);
    }
    for key in &keys[24..] {
        let owned = draft.must(9, &[*key, q]);
        told = draft.must(4, &[owned, told]);
    }
    let thought = draft.must(12, &[q, told]);
    draft.assume(p, trusted);
    draft.assume(p, thought);
    let owned = draft.must(9, &[keys[35], q]);
    let control = draft.must(15, &[q, owned]);
    for x in [owned, control] {
        let wanted = draft.must(12, &[p, x]);
        draft.ask(0, wanted);
    }
    draft
}

/// P2 is trusted for every key in a conjunction that doubles at each record: as a tree it has 2 to the power of `depth` members. P1 believes
/// that P2 believes it of K1, and that he believes another in which the last member has K2. The goals: the first follows, and that P2
/// controls it; the other does not.
pub fn doubled_delegation(depth: usize) -> Draft {
    let mut draft = Draft::new(256);
    let (p, q) = (draft.must(1, &[1]), draft.must(1, &[2]));
    let keys = [draft.must(2, &[1]), draft.must(2, &[2]), draft.must(16, &[1])];
    let mut wholes = keys.map(|key| draft.must(9, &[key, q]));
    for _ in 0..depth {
        let [good, other, open] = wholes;
        let other = draft.must(4, &[good, other]);
        wholes = [draft.must(4, &[good, good]), other, draft.must(4, &[open, open])];
    }
    let [good, other, open] = wholes;
    let all = draft.for_every(keys[2], q, open).expect("space for a delegation");
    let control = draft.must(15, &[q, good]);
    draft.assume(p, all);
    for x in [good, other] {
        let thought = draft.must(12, &[q, x]);
        draft.assume(p, thought);
    }
    for x in [good, control, other] {
        let wanted = draft.must(12, &[p, x]);
        draft.ask(0, wanted);
    }
    draft
}

// --------------------------------------------------------------------------------------------------------------- limits

/// A full book with one record more than there may be of one class: it is refused with 9, or earlier.
pub fn one_above(rng: &mut Rng) -> Vec<u8> {
    let mut draft = full(rng);
    match rng.below(5) {
        0 => draft.assumptions.push(draft.assumptions[0]),
        1 => draft.messages.push(draft.messages[0]),
        2 => draft.goals.push(draft.goals[0]),
        3 => draft.formulas.push(Record::new(3, &[60_000])),
        _ => {
            let last = draft.formulas.len() - 1;
            draft.formulas[last] = Record::new(1, &[60_000]);
        }
    }
    draft.bytes()
}

/// Plants trees that are no records of the book: conjunctions above all, which rules 12, 13 and 20 may then build.
pub fn plant_others(book: &mut Book, rng: &mut Rng) {
    let is_part = |number: &usize| book.is_part(*number as u16);
    let mut pool: Vec<Id> = (0..book.trees.len()).filter(is_part).map(|number| book.trees[number]).collect();
    pool.extend(plant_instances(book));
    for _ in 0..80 {
        let Some(p) = rng.pick(&book.principals) else { return };
        let p = book.trees[usize::from(p)];
        let (Some(x), Some(y)) = (rng.pick(&pool), rng.pick(&pool)) else { return };
        let tree = match rng.below(12) {
            0 => Tree::Fresh(x),
            1 => Tree::Said(p, x),
            2 => Tree::Believes(p, x),
            3 => Tree::Controls(p, x),
            4 => Tree::Sees(p, x),
            _ => Tree::Both(x, y),
        };
        pool.push(book.forest.plant(tree));
    }
}

/// Puts every key that is planted for the variable of every kind 17, and two keys that no record has: what they control then, and who
/// controls it.
fn plant_instances(book: &mut Book) -> Vec<Id> {
    let absent = [60_001, 60_002].map(|name| book.forest.plant(Tree::Key(name)));
    let keys: Vec<Id> = book.forest.all().filter(|(_, tree)| matches!(tree, Tree::Key(_))).map(|(id, _)| id).collect();
    assert!(absent.iter().all(|key| keys.contains(key)));
    let all: Vec<Tree> = book.forest.all().map(|(_, tree)| tree).collect();
    let mut planted = Vec::new();
    for tree in all {
        let Tree::ForEvery(v, z) = tree else { continue };
        for key in &keys {
            let control = book.forest.plant_put(v, *key, z, &mut Map::default());
            planted.push(control);
            planted.extend(book.forest.tree(control).parts().last());
        }
    }
    planted
}

// --------------------------------------------------------------------------------------------------------------- damage

/// A copy of the book with some damage.
pub fn damaged(book: &[u8], rng: &mut Rng) -> Vec<u8> {
    let mut bytes = book.to_vec();
    for _ in 0..rng.between(1, 3) {
        if rng.once_in(2) {
            damage_bytes(&mut bytes, rng);
        } else {
            bytes = damage_records(&bytes, rng);
        }
    }
    bytes
}

/// Flips, sets, inserts, removes or cuts.
pub fn damage_bytes(bytes: &mut Vec<u8>, rng: &mut Rng) {
    let at = rng.below(bytes.len());
    match rng.below(6) {
        0 if !bytes.is_empty() => bytes[at] ^= 1 << rng.below(8),
        1 if !bytes.is_empty() => bytes[at] = rng.below(40) as u8,
        2 if !bytes.is_empty() => bytes[at] = bytes[at].wrapping_add(if rng.once_in(2) { 1 } else { 255 }),
        3 => bytes.insert(at, rng.next() as u8),
        4 if !bytes.is_empty() => drop(bytes.remove(at)),
        _ => bytes.truncate(at),
    }
}

/// Cuts the bytes into records as far as they go; the rest is kept as it is.
fn cut(bytes: &[u8]) -> (Vec<Vec<u8>>, Vec<u8>) {
    let mut records = Vec::new();
    let mut rest = bytes;
    while let Some(length) = rest.first().and_then(|kind| reference::record_length(*kind)) {
        if length > rest.len() {
            break;
        }
        records.push(rest[..length].to_vec());
        rest = &rest[length..];
    }
    (records, rest.to_vec())
}

/// Changes a field or a kind, or repeats, swaps, moves or drops a record.
fn damage_records(bytes: &[u8], rng: &mut Rng) -> Vec<u8> {
    let (mut records, rest) = cut(bytes);
    if !records.is_empty() {
        let i = rng.below(records.len());
        let j = rng.below(records.len());
        match rng.below(11) {
            0 | 1 => change_field(&mut records[i], rng, j),
            2 => repeat_field(&mut records[i], rng),
            3 => records[i][0] = rng.between(1, 17) as u8,
            4 => records.insert(j, records[i].clone()),
            5 => records.swap(i, j),
            6 => drop(records.remove(i)),
            7 => {
                let record = records.remove(i);
                records.insert(j.min(records.len()), record);
            }
            8 | 9 => records.push(aimed_record(&records, rng)),
            _ => records.insert(j, random_record(rng, i)),
        }
    }
    let mut bytes: Vec<u8> = records.concat();
    bytes.extend(rest);
    bytes
}

/// Sets a field to a number that mostly is small; `near` is a number that may be of interest.
fn change_field(record: &mut [u8], rng: &mut Rng, near: usize) {
    let field = rng.below(record.len() / 2);
    let value = match rng.below(4) {
        0 => near,
        1 => rng.below(12),
        2 => rng.below(260),
        _ => rng.below(65_536),
    } as u16;
    record[1 + 2 * field..3 + 2 * field].copy_from_slice(&value.to_be_bytes());
}

/// Sets a field to the value of another one of the same record.
fn repeat_field(record: &mut [u8], rng: &mut Rng) {
    let count = record.len() / 2;
    let (from, to) = (1 + 2 * rng.below(count), 1 + 2 * rng.below(count));
    record.copy_within(from..from + 2, to);
}

/// A record about variables for the end of the book: of several the first that is refused for them, if there is one.
fn aimed_record(records: &[Vec<u8>], rng: &mut Rng) -> Vec<u8> {
    let kinds: Vec<u8> = records.iter().map(|record| record[0]).filter(|kind| *kind <= 17).collect();
    let is_aimed = |record: &Vec<u8>| {
        let refusal = reference::read(&[records.concat(), record.clone()].concat()).err();
        matches!(refusal.map(|refusal| refusal.number), Some(22 | 23))
    };
    let mut drawn: Vec<Vec<u8>> = (0..8).map(|_| record_about_variables(&kinds, rng)).collect();
    let chosen = drawn.iter().position(is_aimed).unwrap_or(0);
    drawn.swap_remove(chosen)
}

/// A kind 17 of any variable and any control, or a message or goal of any formula or statement, whatever variables they have.
fn record_about_variables(kinds: &[u8], rng: &mut Rng) -> Vec<u8> {
    let mut one_of = |wanted: std::ops::RangeInclusive<u8>| {
        let numbers: Vec<u16> = (0..kinds.len()).filter(|i| wanted.contains(&kinds[*i])).map(|i| i as u16).collect();
        rng.pick(&numbers)
    };
    let delegation = one_of(16..=16).zip(one_of(15..=15)).map(|(v, z)| Record::new(17, &[v, z]));
    let (p, q) = (one_of(1..=1), one_of(1..=1));
    let message = p.zip(q).zip(one_of(4..=17)).map(|((p, q), x)| Record::new(33, &[p, q, x]));
    let statement = one_of(12..=13);
    let after = rng.below(3) as u16;
    let chosen = match rng.below(4) {
        0 | 1 => delegation,
        2 => message,
        _ => statement.map(|statement| Record::new(34, &[after, statement])),
    };
    chosen.map_or_else(|| random_record(rng, kinds.len()), |record| record.bytes())
}

/// Any record, with fields that are mostly below `below` and small.
pub fn random_record(rng: &mut Rng, below: usize) -> Vec<u8> {
    let kinds = [1, 2, 3, 4, 5, 6, 7, 8, 9, 10, 11, 12, 13, 14, 15, 16, 17, 32, 33, 34];
    let kind = rng.pick(&kinds).unwrap();
    let mut fields = [0; 3];
    for field in &mut fields {
        *field = if rng.once_in(3) { rng.below(8) } else { rng.below(below + 2) } as u16;
    }
    Record { kind, fields }.bytes()
}

// ----------------------------------------------------------------------------------------------------- certain books

/// The certificate of document 01. The signed part is from the principal with this formula number: 2 in the document.
pub fn certificate(from: u16) -> Draft {
    let mut draft = Draft::new(256);
    let records: [(u8, &[u16]); 16] = [
        (1, &[1]),
        (1, &[2]),
        (1, &[3]),
        (2, &[1]),
        (2, &[2]),
        (3, &[1]),
        (9, &[3, 1]),
        (4, &[6, 5]),
        (6, &[7, 4, from]),
        (9, &[4, 2]),
        (12, &[0, 9]),
        (11, &[5]),
        (12, &[0, 11]),
        (15, &[2, 6]),
        (12, &[0, 13]),
        (12, &[0, 6]),
    ];
    for (kind, fields) in records {
        draft.add(kind, fields);
    }
    draft.assumptions = vec![10, 12, 14];
    draft.messages = vec![[2, 0, 8]];
    draft.goals = vec![[1, 15]];
    draft
}

/// Kerberos as source document 000 idealises it in section 4: A is P1, B is P2, S is P3; the keys of A and S, of B and S and
/// of A and B are K1, K2 and K3; the time stamps of S and A are N1 and N2. The last assumption, that A believes his own time
/// stamp fresh, is not printed there, but "A believes B believes" the key needs it. In message 2 the first two members are
/// grouped, since order and grouping count here. The goals: the four results, then the third of them without message 4.
pub fn kerberos() -> Draft {
    let mut draft = Draft::new(256);
    let [a, b, s] = [1, 2, 3].map(|name| draft.must(1, &[name]));
    let [key_as, key_bs, key_ab] = [1, 2, 3].map(|name| draft.must(2, &[name]));
    let [time_s, time_a] = [1, 2].map(|name| draft.must(3, &[name]));
    let shared_as = draft.must(8, &[a, key_as, s]);
    let shared_bs = draft.must(8, &[b, key_bs, s]);
    let shared_ab = draft.must(8, &[a, key_ab, b]);
    let granted = draft.must(4, &[time_s, shared_ab]);
    let ticket = draft.must(5, &[granted, key_bs, s]);
    let reply = draft.must(4, &[granted, ticket]);
    let message_2 = draft.must(5, &[reply, key_as, s]);
    let stamped = draft.must(4, &[time_a, shared_ab]);
    let authenticator = draft.must(5, &[stamped, key_ab, a]);
    let message_3 = draft.must(4, &[ticket, authenticator]);
    let message_4 = draft.must(5, &[stamped, key_ab, b]);
    let control = draft.must(15, &[s, shared_ab]);
    let [fresh_s, fresh_a] = [time_s, time_a].map(|time| draft.must(11, &[time]));
    let assumed = [
        (a, shared_as),
        (b, shared_bs),
        (s, shared_as),
        (s, shared_bs),
        (s, shared_ab),
        (a, control),
        (b, control),
        (a, fresh_s),
        (b, fresh_s),
        (b, fresh_a),
        (a, fresh_a),
    ];
    for (p, x) in assumed {
        draft.assume(p, x);
    }
    draft.send(s, a, message_2);
    draft.send(a, b, message_3);
    draft.send(b, a, message_4);
    let a_knows = draft.must(12, &[a, shared_ab]);
    let b_knows = draft.must(12, &[b, shared_ab]);
    let a_is_sure = draft.must(12, &[a, b_knows]);
    let b_is_sure = draft.must(12, &[b, a_knows]);
    draft.goals = vec![[1, a_knows], [2, b_knows], [3, a_is_sure], [2, b_is_sure], [2, a_is_sure]];
    draft
}

/// A datum, and how many bytes it adds before the rest of a list.
type Brick = (u16, usize);

/// A book whose principal 0 has something to see whose text for this audience, after "P1 sees ", is of just this length.
pub fn long_text(audience: Audience, length: usize, rng: &mut Rng) -> Draft {
    let mut draft = Draft::new(256);
    let p = draft.must(1, &[1]);
    let bricks = match audience {
        Audience::Owner => bricks_by_name(&mut draft),
        Audience::Guest => bricks_by_number(&mut draft, rng),
    };
    let [first, second] = [0; 2].map(|_| bricks[rng.below(bricks.len())].0);
    let mut whole = draft.must(4, &[first, second]);
    let mut long = text_length(audience, &draft, p, whole);
    let mut blocks = vec![(whole, long)];
    // At least 10 bytes are left for the bricks at the end, which make up any such number.
    let has_room = |long: usize| long + 9 < length;
    // (X, X) prints X twice, the second time without its brackets.
    while has_room(2 * long + 2) {
        whole = draft.must(4, &[whole, whole]);
        long = 2 * long + 2;
        blocks.push((whole, long));
    }
    // A block before the rest adds two bytes more than it has.
    while let Some((block, adds)) = blocks.pop() {
        while has_room(long + adds + 2) {
            whole = draft.must(4, &[block, whole]);
            long += adds + 2;
        }
    }
    while long < length {
        let (datum, adds) = fitting_brick(&bricks, length - long, rng);
        whole = draft.must(4, &[datum, whole]);
        long += adds;
    }
    let seen = draft.must(13, &[p, whole]);
    draft.assumptions.push(seen);
    draft
}

/// Names of one to five figures: N1 adds 4 bytes, N10000 adds 8.
fn bricks_by_name(draft: &mut Draft) -> Vec<Brick> {
    [(1, 4), (10, 5), (100, 6), (1000, 7), (10_000, 8)].map(|(name, adds)| (draft.must(3, &[name]), adds)).into()
}

/// Formula numbers of one to three figures, the names being any: N#1 adds 5 bytes, N#100 adds 7.
fn bricks_by_number(draft: &mut Draft, rng: &mut Rng) -> Vec<Brick> {
    for name in distinct_names(100, 0, 65_535, rng) {
        draft.must(3, &[name]);
    }
    vec![(1, 5), (10, 6), (100, 7)]
}

/// One of the bricks behind which others can make up what is left.
fn fitting_brick(bricks: &[Brick], left: usize, rng: &mut Rng) -> Brick {
    let (least, most) = (bricks[0].1, bricks[bricks.len() - 1].1);
    let is_sum = |left: usize| (0..=left).any(|count| count * least <= left && left <= count * most);
    let fits = |brick: &&Brick| brick.1 <= left && is_sum(left - brick.1);
    let fitting: Vec<Brick> = bricks.iter().filter(fits).copied().collect();
    rng.pick(&fitting).expect("a sum of bricks")
}

/// A book with a formula nested as deep as can be, all brackets at its front.
pub fn nested() -> Draft {
    let mut draft = Draft::new(256);
    let (p, datum) = (draft.must(1, &[1]), draft.must(3, &[1]));
    let mut whole = datum;
    for _ in 0..253 {
        whole = draft.must(4, &[whole, datum]);
    }
    let seen = draft.must(13, &[p, whole]);
    draft.assumptions.push(seen);
    draft.ask(0, seen);
    draft
}

fn text_length(audience: Audience, draft: &Draft, p: u16, x: u16) -> usize {
    let mut book = reference::read(&draft.bytes()).expect("an accepted book");
    let mut fact = vec![1, 0, p as u8, 0, 0];
    fact.extend_from_slice(&x.to_be_bytes());
    let text = reference::fact_text(audience, &mut book, &fact, reference::MOST_TEXT);
    text.expect("a short text").len() - "P1 sees ".len()
}
