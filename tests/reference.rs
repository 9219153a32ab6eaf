//! Document 01 a second time, with document 02's wishes 1 to 5 and 7, written from the documents alone. Formulas are trees in a forest
//! in which equal trees have equal numbers. A fact is a statement: the tree "P sees X" or "P believes X", never opened, so that a
//! rule is a match over trees. What follows is found for all principals together, message by message, by following each new
//! statement to its consequences.

use std::collections::HashMap;
use std::hash::{BuildHasherDefault, Hash, Hasher};

pub const MOST_TEXT: usize = 4096;
pub const MOST_STEPS: usize = 65535;

/// A hash map with a quick hash; the keys are small and not chosen by an enemy.
pub type Map<K, V> = HashMap<K, V, BuildHasherDefault<Quick>>;

#[derive(Default)]
pub struct Quick(u64);

impl Quick {
    fn mix(&mut self, value: u64) {
        self.0 = (self.0.rotate_left(5) ^ value).wrapping_mul(0x9E37_79B9_7F4A_7C15);
    }
}

impl Hasher for Quick {
    fn write(&mut self, bytes: &[u8]) {
        for byte in bytes {
            self.mix(u64::from(*byte));
        }
    }
    fn write_u8(&mut self, value: u8) {
        self.mix(u64::from(value));
    }
    fn write_u16(&mut self, value: u16) {
        self.mix(u64::from(value));
    }
    fn write_u32(&mut self, value: u32) {
        self.mix(u64::from(value));
    }
    fn write_usize(&mut self, value: usize) {
        self.mix(value as u64);
    }
    fn write_isize(&mut self, value: isize) {
        self.mix(value as u64);
    }
    fn finish(&self) -> u64 {
        self.0.rotate_left(26)
    }
}

/// A refusal: its number in the table of document 01, and what is returned with it.
#[derive(Clone, Copy, PartialEq, Eq, Debug)]
pub struct Refusal {
    pub number: u8,
    pub place: u64,
}

fn refusal(number: u8, place: usize) -> Refusal {
    Refusal { number, place: place as u64 }
}

// ---------------------------------------------------------------------------------------------------------------- trees

/// The number of a tree in its forest.
pub type Id = u32;

#[derive(Clone, Copy, PartialEq, Eq, Hash, Debug)]
pub enum Tree {
    Principal(u16),
    Key(u16),
    Datum(u16),
    /// (X, Y)
    Both(Id, Id),
    /// X encrypted under K, from R
    Sealed(Id, Id, Id),
    /// X signed under the inverse of K, from R
    Signed(Id, Id, Id),
    /// X combined with secret Y
    Combined(Id, Id),
    /// P and Q share K; P has the smaller name
    SharedKey(Id, Id, Id),
    /// K is the public key of P
    PublicKey(Id, Id),
    /// P and Q share the secret X; P has the smaller name
    SharedSecret(Id, Id, Id),
    Fresh(Id),
    Believes(Id, Id),
    Sees(Id, Id),
    Said(Id, Id),
    Controls(Id, Id),
    /// a key variable
    Variable(u16),
    /// for every V, Z
    ForEvery(Id, Id),
}

impl Tree {
    /// The trees in its fields.
    pub fn parts(self) -> impl Iterator<Item = Id> {
        let fields = match self {
            Tree::Principal(_) | Tree::Key(_) | Tree::Datum(_) | Tree::Variable(_) => [None; 3],
            Tree::Fresh(x) => [Some(x), None, None],
            Tree::Both(x, y) | Tree::Combined(x, y) | Tree::PublicKey(x, y) => [Some(x), Some(y), None],
            Tree::Believes(x, y) | Tree::Sees(x, y) | Tree::Said(x, y) => [Some(x), Some(y), None],
            Tree::Controls(x, y) | Tree::ForEvery(x, y) => [Some(x), Some(y), None],
            Tree::Sealed(x, y, z) | Tree::Signed(x, y, z) => [Some(x), Some(y), Some(z)],
            Tree::SharedKey(x, y, z) | Tree::SharedSecret(x, y, z) => [Some(x), Some(y), Some(z)],
        };
        fields.into_iter().flatten()
    }

    /// The same with these trees in its fields.
    fn with_parts(self, parts: &[Id]) -> Tree {
        match (self, parts) {
            (Tree::Both(..), &[x, y]) => Tree::Both(x, y),
            (Tree::Sealed(..), &[x, key, from]) => Tree::Sealed(x, key, from),
            (Tree::Signed(..), &[x, key, from]) => Tree::Signed(x, key, from),
            (Tree::Combined(..), &[x, y]) => Tree::Combined(x, y),
            (Tree::SharedKey(..), &[p, key, q]) => Tree::SharedKey(p, key, q),
            (Tree::PublicKey(..), &[key, p]) => Tree::PublicKey(key, p),
            (Tree::SharedSecret(..), &[p, x, q]) => Tree::SharedSecret(p, x, q),
            (Tree::Fresh(_), &[x]) => Tree::Fresh(x),
            (Tree::Believes(..), &[p, x]) => Tree::Believes(p, x),
            (Tree::Sees(..), &[p, x]) => Tree::Sees(p, x),
            (Tree::Said(..), &[p, x]) => Tree::Said(p, x),
            (Tree::Controls(..), &[p, x]) => Tree::Controls(p, x),
            (Tree::ForEvery(..), &[v, z]) => Tree::ForEvery(v, z),
            (leaf, _) => leaf,
        }
    }
}

/// All trees spoken of. Equal trees are planted once.
#[derive(Clone, Default)]
pub struct Forest {
    trees: Vec<Tree>,
    ids: Map<Tree, Id>,
    clear: Vec<bool>,
    /// of each tree the variables that stand outside every kind 17, in rising order
    loose: Vec<Vec<Id>>,
    /// of each tree whether it is of kind 17 or holds one
    delegates: Vec<bool>,
}

impl Forest {
    pub fn tree(&self, id: Id) -> Tree {
        self.trees[id as usize]
    }

    pub fn find(&self, tree: Tree) -> Option<Id> {
        self.ids.get(&tree).copied()
    }

    pub fn plant(&mut self, tree: Tree) -> Id {
        if let Some(id) = self.find(tree) {
            return id;
        }
        let id = self.trees.len() as Id;
        let clear = self.is_clear_over(tree);
        let loose = self.loose_over(id, tree);
        let delegates = matches!(tree, Tree::ForEvery(..)) || tree.parts().any(|part| self.delegates(part));
        self.trees.push(tree);
        self.clear.push(clear);
        self.loose.push(loose);
        self.delegates.push(delegates);
        self.ids.insert(tree, id);
        id
    }

    /// Neither itself encrypted or signed nor holding such a tree.
    pub fn is_clear(&self, id: Id) -> bool {
        self.clear[id as usize]
    }

    fn is_clear_over(&self, tree: Tree) -> bool {
        match tree {
            Tree::Sealed(..) | Tree::Signed(..) => false,
            Tree::Both(x, y) | Tree::Combined(x, y) => self.is_clear(x) && self.is_clear(y),
            Tree::SharedSecret(_, x, _) | Tree::Fresh(x) => self.is_clear(x),
            Tree::Believes(_, x) | Tree::Sees(_, x) | Tree::Said(_, x) | Tree::Controls(_, x) => self.is_clear(x),
            Tree::ForEvery(_, z) => self.is_clear(z),
            _ => true,
        }
    }

    /// The variables that stand in it outside every kind 17.
    pub fn loose(&self, id: Id) -> &[Id] {
        &self.loose[id as usize]
    }

    fn loose_over(&self, id: Id, tree: Tree) -> Vec<Id> {
        match tree {
            Tree::Variable(_) => vec![id],
            Tree::ForEvery(..) => vec![],
            _ => {
                let mut all: Vec<Id> = tree.parts().flat_map(|part| self.loose(part)).copied().collect();
                all.sort();
                all.dedup();
                all
            }
        }
    }

    /// Is it of kind 17, or does it hold one?
    fn delegates(&self, id: Id) -> bool {
        self.delegates[id as usize]
    }

    /// All trees.
    pub fn all(&self) -> impl Iterator<Item = (Id, Tree)> + '_ {
        self.trees.iter().enumerate().map(|(id, tree)| (id as Id, *tree))
    }

    /// The tree with this key throughout in the place of the variable, planted where it is not: what stands in a kind 17 stays. What
    /// was put already is in `done`, so that a tree is walked once however often it is a part.
    pub fn plant_put(&mut self, v: Id, key: Id, id: Id, done: &mut Map<Id, Id>) -> Id {
        if id == v {
            return key;
        }
        if !self.loose(id).contains(&v) {
            return id;
        }
        if let Some(put) = done.get(&id) {
            return *put;
        }
        let tree = self.tree(id);
        let parts: Vec<Id> = tree.parts().map(|part| self.plant_put(v, key, part, done)).collect();
        let put = self.plant(tree.with_parts(&parts));
        done.insert(id, put);
        put
    }

    /// The same if it is planted. `key` is none for the keys that are not: what has the variable is then not planted with one of them.
    fn find_put(&self, v: Id, key: Option<Id>, id: Id, done: &mut Map<Id, Option<Id>>) -> Option<Id> {
        if id == v {
            return key;
        }
        if !self.loose(id).contains(&v) {
            return Some(id);
        }
        if let Some(put) = done.get(&id) {
            return *put;
        }
        let tree = self.tree(id);
        let parts: Option<Vec<Id>> = tree.parts().map(|part| self.find_put(v, key, part, done)).collect();
        let put = parts.and_then(|parts| self.find(tree.with_parts(&parts)));
        done.insert(id, put);
        put
    }

    /// Is one tree the other with one key, the same throughout, in the place of the variable?
    fn is_put(&self, v: Id, id: Id, put: Id) -> bool {
        self.alike(v, id, put, &mut None, &mut Map::default())
    }

    /// Goes through both trees together. `key` is what stands in the place of the variable; pairs of trees in `done` were alike.
    fn alike(&self, v: Id, id: Id, put: Id, key: &mut Option<Id>, done: &mut Map<(Id, Id), ()>) -> bool {
        if id == v {
            return matches!(self.tree(put), Tree::Key(_)) && *key.get_or_insert(put) == put;
        }
        if !self.loose(id).contains(&v) {
            return id == put;
        }
        if done.contains_key(&(id, put)) {
            return true;
        }
        let (tree, other) = (self.tree(id), self.tree(put));
        let others: Vec<Id> = other.parts().collect();
        let is_alike = tree.with_parts(&others) == other
            && tree.parts().zip(others).all(|(part, other)| self.alike(v, part, other, key, done));
        if is_alike {
            done.insert((id, put), ());
        }
        is_alike
    }

    fn name(&self, principal: Id) -> u16 {
        match self.tree(principal) {
            Tree::Principal(name) => name,
            _ => panic!("no principal"),
        }
    }

    /// The tree of the key shared by p and q, if it is planted.
    fn find_shared_key(&self, p: Id, key: Id, q: Id) -> Option<Id> {
        if self.name(p) < self.name(q) {
            self.find(Tree::SharedKey(p, key, q))
        } else {
            self.find(Tree::SharedKey(q, key, p))
        }
    }

    fn find_shared_secret(&self, p: Id, secret: Id, q: Id) -> Option<Id> {
        if self.name(p) < self.name(q) {
            self.find(Tree::SharedSecret(p, secret, q))
        } else {
            self.find(Tree::SharedSecret(q, secret, p))
        }
    }
}

// -------------------------------------------------------------------------------------------------------------- records

/// What a field of a record holds.
#[derive(Clone, Copy, PartialEq, Eq)]
enum Field {
    Name,
    MessageNumber,
    Principal,
    /// a key or a key variable
    Key,
    /// X, Y or a message's formula
    Part,
    /// V of a kind 17
    Variable,
    /// Z of a kind 17
    Control,
    /// an assumption's or goal's formula
    Stated,
}

/// The fields of a record by its kind; none for an unknown kind.
fn fields_of(kind: u8) -> Option<&'static [Field]> {
    use Field::*;
    let fields: &'static [Field] = match kind {
        1 | 2 | 3 | 16 => &[Name],
        4 => &[Part, Part],
        5 | 6 => &[Part, Key, Principal],
        7 => &[Part, Part],
        8 => &[Principal, Key, Principal],
        9 => &[Key, Principal],
        10 => &[Principal, Part, Principal],
        11 => &[Part],
        12 | 13 | 14 | 15 => &[Principal, Part],
        17 => &[Variable, Control],
        32 => &[Stated],
        33 => &[Principal, Principal, Part],
        34 => &[MessageNumber, Stated],
        _ => return None,
    };
    Some(fields)
}

/// Bytes of a record of this kind, the kind byte included.
pub fn record_length(kind: u8) -> Option<usize> {
    fields_of(kind).map(|fields| 1 + 2 * fields.len())
}

#[derive(Clone, Copy, PartialEq, Eq, Hash, Debug)]
pub struct Record {
    pub kind: u8,
    pub fields: [u16; 3],
}

impl Record {
    pub fn new(kind: u8, fields: &[u16]) -> Record {
        let mut all = [0; 3];
        all[..fields.len()].copy_from_slice(fields);
        Record { kind, fields: all }
    }

    pub fn bytes(&self) -> Vec<u8> {
        let mut bytes = vec![self.kind];
        let count = fields_of(self.kind).map_or(0, |fields| fields.len());
        for field in &self.fields[..count] {
            bytes.extend_from_slice(&field.to_be_bytes());
        }
        bytes
    }

    /// The record at the front of the bytes, or 1 for an unknown kind, or 2 for a cut record.
    fn at_front(bytes: &[u8]) -> Result<Record, u8> {
        let fields = fields_of(bytes[0]).ok_or(1)?;
        if bytes.len() < 1 + 2 * fields.len() {
            return Err(2);
        }
        let mut record = Record { kind: bytes[0], fields: [0; 3] };
        for i in 0..fields.len() {
            record.fields[i] = two_bytes(&bytes[1 + 2 * i..]);
        }
        Ok(record)
    }

    fn is_formula(&self) -> bool {
        self.kind <= 17
    }

    /// The fields together with what they hold.
    fn contents(&self) -> impl Iterator<Item = (Field, u16)> + '_ {
        fields_of(self.kind).unwrap().iter().copied().zip(self.fields)
    }

    /// 0 for formulas, then assumptions, messages, goals.
    fn class(&self) -> u8 {
        match self.kind {
            32 => 1,
            33 => 2,
            34 => 3,
            _ => 0,
        }
    }
}

fn two_bytes(bytes: &[u8]) -> u16 {
    u16::from_be_bytes([bytes[0], bytes[1]])
}

// ----------------------------------------------------------------------------------------------------------------- book

#[derive(Clone, Copy, Debug)]
pub struct Message {
    pub sender: Id,
    pub formula: Id,
    /// the statement "receiver sees formula"
    pub seen: Id,
}

#[derive(Clone, Copy, Debug)]
pub struct Goal {
    pub after: u16,
    pub statement: Id,
}

/// A book as far as it is read, or an accepted one.
#[derive(Clone, Default)]
pub struct Book {
    pub forest: Forest,
    pub formulas: Vec<Record>,
    /// the tree of each formula record
    pub trees: Vec<Id>,
    /// formula numbers of the principals, in book order
    pub principals: Vec<u16>,
    pub assumptions: Vec<Id>,
    pub messages: Vec<Message>,
    pub goals: Vec<Goal>,
    numbers: Map<Id, u16>,
    known: Map<Record, u16>,
    /// the kind of the last record that is no formula record, or 0
    latest: u8,
}

#[derive(Clone, Copy, PartialEq, Eq, Debug)]
pub struct Counts {
    pub formulas: usize,
    pub principals: usize,
    pub assumptions: usize,
    pub messages: usize,
    pub goals: usize,
}

/// The faults of a record that is whole, in the order in which they are looked for. Each may rely on those before it.
const FAULTS: [(u8, fn(&Book, &Record) -> bool); 11] = [
    (3, Book::is_out_of_order),
    (9, Book::is_over_limit),
    (4, Book::is_dangling),
    (5, Book::is_of_wrong_sort),
    (6, Book::is_not_rising),
    (23, Book::is_wrong_delegation),
    (7, Book::is_to_sender),
    (10, Book::is_no_statement),
    (22, Book::has_loose_variable),
    (11, Book::is_after_last),
    (8, Book::is_repeated),
];

/// Reads a book: the first faulty record with the first number that fits, or the book.
pub fn read(bytes: &[u8]) -> Result<Book, Refusal> {
    let mut book = Book::default();
    let mut rest = bytes;
    while !rest.is_empty() {
        let number = book.records();
        let record = Record::at_front(rest).map_err(|fault| refusal(fault, number))?;
        if let Some(fault) = book.first_fault(&record) {
            return Err(refusal(fault, number));
        }
        book.take(record);
        rest = &rest[record_length(record.kind).unwrap()..];
    }
    Ok(book)
}

impl Book {
    pub fn records(&self) -> usize {
        self.formulas.len() + self.assumptions.len() + self.messages.len() + self.goals.len()
    }

    pub fn counts(&self) -> Counts {
        Counts {
            formulas: self.formulas.len(),
            principals: self.principals.len(),
            assumptions: self.assumptions.len(),
            messages: self.messages.len(),
            goals: self.goals.len(),
        }
    }

    fn first_fault(&self, record: &Record) -> Option<u8> {
        FAULTS.iter().find(|(_, is_there)| is_there(self, record)).map(|(number, _)| *number)
    }

    /// Assumptions, messages and goals keep their order among themselves; formula records stand anywhere.
    fn is_out_of_order(&self, record: &Record) -> bool {
        !record.is_formula() && record.kind < self.latest
    }

    fn is_over_limit(&self, record: &Record) -> bool {
        match record.class() {
            0 => self.formulas.len() >= 256 || record.kind == 1 && self.principals.len() >= 8,
            1 => self.assumptions.len() >= 64,
            2 => self.messages.len() >= 16,
            _ => self.goals.len() >= 32,
        }
    }

    fn is_dangling(&self, record: &Record) -> bool {
        let refers = |field| !matches!(field, Field::Name | Field::MessageNumber);
        record.contents().any(|(field, value)| refers(field) && usize::from(value) >= self.formulas.len())
    }

    fn is_of_wrong_sort(&self, record: &Record) -> bool {
        record.contents().any(|(field, value)| match field {
            Field::Principal => self.kind_of(value) != Some(1),
            Field::Key => !matches!(self.kind_of(value), Some(2 | 16)),
            Field::Part => !self.is_part(value),
            Field::Variable => self.kind_of(value) != Some(16),
            Field::Control => self.kind_of(value) != Some(15),
            _ => false,
        })
    }

    /// May it stand as X or Y?
    pub fn is_part(&self, formula: u16) -> bool {
        matches!(self.kind_of(formula), Some(3..=15 | 17))
    }

    fn is_not_rising(&self, record: &Record) -> bool {
        matches!(record.kind, 8 | 10) && self.name_of(record.fields[0]) >= self.name_of(record.fields[2])
    }

    /// A kind 17 whose Z holds another one or a variable other than V.
    fn is_wrong_delegation(&self, record: &Record) -> bool {
        if record.kind != 17 {
            return false;
        }
        let [v, z] = [0, 1].map(|i| self.trees[usize::from(record.fields[i])]);
        self.forest.delegates(z) || self.forest.loose(z).iter().any(|loose| *loose != v)
    }

    fn is_to_sender(&self, record: &Record) -> bool {
        record.kind == 33 && record.fields[0] == record.fields[1]
    }

    fn is_no_statement(&self, record: &Record) -> bool {
        record.contents().any(|(field, value)| field == Field::Stated && !matches!(self.kind_of(value), Some(12 | 13)))
    }

    /// An assumption, a message or a goal whose formula has a variable outside every kind 17.
    fn has_loose_variable(&self, record: &Record) -> bool {
        let speaks = |field| matches!(field, Field::Part | Field::Stated);
        !record.is_formula() && record.contents().any(|(field, value)| speaks(field) && self.is_open(value))
    }

    /// Has the formula a variable outside every kind 17?
    pub fn is_open(&self, formula: u16) -> bool {
        !self.forest.loose(self.trees[usize::from(formula)]).is_empty()
    }

    fn is_after_last(&self, record: &Record) -> bool {
        record.kind == 34 && usize::from(record.fields[0]) > self.messages.len()
    }

    fn is_repeated(&self, record: &Record) -> bool {
        record.is_formula() && self.known.contains_key(record)
    }

    /// The kind of a formula record, if it is there.
    pub fn kind_of(&self, formula: u16) -> Option<u8> {
        self.formulas.get(usize::from(formula)).map(|record| record.kind)
    }

    fn name_of(&self, principal: u16) -> u16 {
        self.formulas[usize::from(principal)].fields[0]
    }

    /// Takes in a record without fault.
    fn take(&mut self, record: Record) {
        if !record.is_formula() {
            self.latest = record.kind;
        }
        match record.kind {
            32 => self.assumptions.push(self.trees[usize::from(record.fields[0])]),
            33 => self.take_message(record),
            34 => {
                let statement = self.trees[usize::from(record.fields[1])];
                self.goals.push(Goal { after: record.fields[0], statement });
            }
            _ => self.take_formula(record),
        }
    }

    fn take_message(&mut self, record: Record) {
        let [sender, receiver, formula] = record.fields.map(|field| self.trees[usize::from(field)]);
        let seen = self.forest.plant(Tree::Sees(receiver, formula));
        self.messages.push(Message { sender, formula, seen });
    }

    fn take_formula(&mut self, record: Record) {
        let number = self.formulas.len() as u16;
        let tree = self.tree_of(&record);
        let id = self.forest.plant(tree);
        if record.kind == 1 {
            self.principals.push(number);
        }
        self.numbers.insert(id, number);
        self.known.insert(record, number);
        self.trees.push(id);
        self.formulas.push(record);
    }

    fn tree_of(&self, record: &Record) -> Tree {
        let [name, _, _] = record.fields;
        let of = |i: usize| self.trees[usize::from(record.fields[i])];
        match record.kind {
            1 => Tree::Principal(name),
            2 => Tree::Key(name),
            3 => Tree::Datum(name),
            4 => Tree::Both(of(0), of(1)),
            5 => Tree::Sealed(of(0), of(1), of(2)),
            6 => Tree::Signed(of(0), of(1), of(2)),
            7 => Tree::Combined(of(0), of(1)),
            8 => Tree::SharedKey(of(0), of(1), of(2)),
            9 => Tree::PublicKey(of(0), of(1)),
            10 => Tree::SharedSecret(of(0), of(1), of(2)),
            11 => Tree::Fresh(of(0)),
            12 => Tree::Believes(of(0), of(1)),
            13 => Tree::Sees(of(0), of(1)),
            14 => Tree::Said(of(0), of(1)),
            15 => Tree::Controls(of(0), of(1)),
            16 => Tree::Variable(name),
            _ => Tree::ForEvery(of(0), of(1)),
        }
    }

    pub fn goal(&self, number: u32) -> Result<Goal, Refusal> {
        let goal = self.goals.get(number as usize).copied();
        goal.ok_or(Refusal { number: 13, place: u64::from(number) })
    }
}

// ------------------------------------------------------------------------------------------------------------- entering

#[derive(Clone, Copy, PartialEq, Eq, Debug)]
pub enum Entered {
    Present(usize),
    Appended(usize),
}

/// Enters a record into a buffer of which `used` bytes are a book.
pub fn enter(buffer: &mut [u8], used: usize, record: &[u8]) -> Result<Entered, Refusal> {
    if used > buffer.len() {
        return Err(refusal(12, 0));
    }
    let book = read(&buffer[..used])?;
    let number = book.records();
    let whole = whole_record(record).map_err(|fault| refusal(fault, number))?;
    if let Some(present) = book.known.get(&whole) {
        return Ok(Entered::Present(usize::from(*present)));
    }
    if let Some(fault) = book.first_fault(&whole) {
        return Err(refusal(fault, number));
    }
    let end = used + record.len();
    if end > buffer.len() {
        return Err(refusal(12, number));
    }
    buffer[used..end].copy_from_slice(record);
    Ok(Entered::Appended(number_in_class(&book, &whole)))
}

/// The record that the bytes are, no more and no less.
fn whole_record(bytes: &[u8]) -> Result<Record, u8> {
    if bytes.is_empty() {
        return Err(2);
    }
    let record = Record::at_front(bytes)?;
    if bytes.len() != record_length(record.kind).unwrap() {
        return Err(2);
    }
    Ok(record)
}

/// The number that the next record of this class has in its own count.
fn number_in_class(book: &Book, record: &Record) -> usize {
    match record.class() {
        0 => book.formulas.len(),
        1 => book.assumptions.len(),
        2 => book.messages.len() + 1,
        _ => book.goals.len(),
    }
}

// ---------------------------------------------------------------------------------------------------------------- facts

/// A statement taken apart as a fact is written: mode, P, Q, X.
struct Opened {
    mode: u8,
    p: Id,
    q: Option<Id>,
    x: Id,
}

impl Book {
    fn opened(&self, statement: Id) -> Opened {
        let (p, x) = match self.forest.tree(statement) {
            Tree::Sees(p, x) => return Opened { mode: 1, p, q: None, x },
            Tree::Believes(p, x) => (p, x),
            _ => panic!("no statement"),
        };
        match self.forest.tree(x) {
            Tree::Fresh(x) => Opened { mode: 3, p, q: None, x },
            Tree::Said(q, x) => Opened { mode: 4, p, q: Some(q), x },
            Tree::Believes(q, x) => Opened { mode: 5, p, q: Some(q), x },
            _ => Opened { mode: 2, p, q: None, x },
        }
    }

    /// The seven bytes of a statement whose parts are records.
    pub fn written(&self, statement: Id) -> Option<[u8; 7]> {
        let fact = self.opened(statement);
        let p = self.numbers.get(&fact.p)?.to_be_bytes();
        let q = match fact.q {
            Some(q) => self.numbers.get(&q)?.to_be_bytes(),
            None => [0, 0],
        };
        let x = self.numbers.get(&fact.x)?.to_be_bytes();
        Some([fact.mode, p[0], p[1], q[0], q[1], x[0], x[1]])
    }

    /// The statement that the bytes of a fact mean; none if it is malformed.
    pub fn statement(&mut self, fact: &[u8]) -> Option<Id> {
        let bytes: [u8; 7] = fact.try_into().ok()?;
        let mode = bytes[0];
        let [p, q, x] = [1, 3, 5].map(|at| two_bytes(&bytes[at..]));
        let q_is_right = match mode {
            1 | 2 | 3 => q == 0,
            4 | 5 => self.kind_of(q) == Some(1),
            _ => return None,
        };
        let is_unopened = mode == 2 && matches!(self.kind_of(x), Some(11 | 12 | 14));
        if !q_is_right || self.kind_of(p) != Some(1) || !self.is_part(x) || self.is_open(x) || is_unopened {
            return None;
        }
        Some(self.plant_fact(mode, p, q, x))
    }

    fn plant_fact(&mut self, mode: u8, p: u16, q: u16, x: u16) -> Id {
        let [p, q, x] = [p, q, x].map(|number| self.trees[usize::from(number)]);
        let believed = match mode {
            1 => return self.forest.plant(Tree::Sees(p, x)),
            2 => x,
            3 => self.forest.plant(Tree::Fresh(x)),
            4 => self.forest.plant(Tree::Said(q, x)),
            _ => self.forest.plant(Tree::Believes(q, x)),
        };
        self.forest.plant(Tree::Believes(p, believed))
    }
}

// -------------------------------------------------------------------------------------------------------- what follows

/// How a statement came about: a step kind, and its numbers or the statements of its premises.
#[derive(Clone, Copy, Debug)]
pub enum Reason {
    Assumption(usize),
    Message(usize),
    Rule(u8, Id, Option<Id>),
}

/// A statement that follows, in the order of finding.
#[derive(Clone, Copy, Debug)]
pub struct Found {
    pub statement: Id,
    pub after: u8,
    pub reason: Reason,
}

/// All that follows from a book.
pub struct Following {
    pub log: Vec<Found>,
    /// for each statement that follows its place in the log
    found: Map<Id, usize>,
    principals: Vec<Id>,
    /// conjunctions by their first and by their second part: the other part and the whole
    by_first: Map<Id, Vec<(Id, Id)>>,
    by_second: Map<Id, Vec<(Id, Id)>>,
    /// what a principal sees encrypted, signed or combined: the statement and the tree seen
    seen: Map<Id, Vec<(Id, Id)>>,
    /// of each kind 17 what it delegates
    delegations: Map<Id, Delegation>,
    /// P, Q and X' where P believes that Q controls X' by a kind 17: the statements of such beliefs
    trusted: Map<(Id, Id, Id), Vec<Id>>,
    /// whether rules 21 and 22 are used
    puts_keys: bool,
    now: u8,
}

/// For every V, Q controls X: Q, and X and "Q controls X" with one key after the other in the place of V, as far as they are planted.
#[derive(Clone, Default)]
struct Delegation {
    q: Id,
    formulas: Vec<Id>,
    controls: Vec<Id>,
}

/// Follows the book to its end, message by message. Conjunctions are joined, and keys are put for variables, where what comes of it
/// is planted in the forest.
pub fn follow(book: &mut Book) -> Following {
    follow_by(book, true)
}

/// The same with rules 21 and 22, or without them.
pub fn follow_by(book: &mut Book, puts_keys: bool) -> Following {
    let mut all = Following::over(book, puts_keys);
    for (number, statement) in book.assumptions.clone().into_iter().enumerate() {
        all.enter(statement, Reason::Assumption(number));
    }
    all.settle(&mut book.forest, 0);
    for (i, message) in book.messages.clone().into_iter().enumerate() {
        all.now = i as u8 + 1;
        let known = all.log.len();
        all.enter(message.seen, Reason::Message(i + 1));
        all.settle(&mut book.forest, known);
    }
    all
}

impl Following {
    fn over(book: &Book, puts_keys: bool) -> Following {
        let mut all = Following {
            log: Vec::new(),
            found: Map::default(),
            principals: book.principals.iter().map(|number| book.trees[usize::from(*number)]).collect(),
            by_first: Map::default(),
            by_second: Map::default(),
            seen: Map::default(),
            delegations: delegations(&book.forest),
            trusted: Map::default(),
            puts_keys,
            now: 0,
        };
        for (id, tree) in book.forest.all().filter(|(id, _)| book.forest.loose(*id).is_empty()) {
            if let Tree::Both(x, y) = tree {
                all.by_first.entry(x).or_default().push((y, id));
                all.by_second.entry(y).or_default().push((x, id));
            }
        }
        all
    }

    /// The first message after which the statement follows.
    pub fn first(&self, statement: Id) -> Option<u8> {
        self.found.get(&statement).map(|place| self.log[*place].after)
    }

    fn holds(&self, statement: Id) -> bool {
        self.found.contains_key(&statement)
    }

    fn enter(&mut self, statement: Id, reason: Reason) {
        if !self.holds(statement) {
            self.found.insert(statement, self.log.len());
            self.log.push(Found { statement, after: self.now, reason });
        }
    }

    /// Goes through the log from a place on, which grows as it goes.
    fn settle(&mut self, forest: &mut Forest, from: usize) {
        let mut next = from;
        while next < self.log.len() {
            let statement = self.log[next].statement;
            match forest.tree(statement) {
                Tree::Sees(p, x) => self.consider_seen(forest, statement, p, x),
                Tree::Believes(p, x) => self.consider_believed(forest, statement, p, x),
                _ => panic!("no statement"),
            }
            next += 1;
        }
    }

    fn sees(&mut self, forest: &mut Forest, rule: u8, p: Id, x: Id, first: Id, second: Option<Id>) {
        let statement = forest.plant(Tree::Sees(p, x));
        self.enter(statement, Reason::Rule(rule, first, second));
    }

    fn believes(&mut self, forest: &mut Forest, rule: u8, p: Id, x: Id, first: Id, second: Option<Id>) {
        let statement = forest.plant(Tree::Believes(p, x));
        self.enter(statement, Reason::Rule(rule, first, second));
    }

    fn believes_tree(&mut self, forest: &mut Forest, rule: u8, p: Id, x: Tree, first: Id, second: Option<Id>) {
        let x = forest.plant(x);
        self.believes(forest, rule, p, x, first, second);
    }

    /// The statement "P believes X", if it holds.
    fn belief(&self, forest: &Forest, p: Id, x: Option<Id>) -> Option<Id> {
        forest.find(Tree::Believes(p, x?)).filter(|statement| self.holds(*statement))
    }

    fn consider_seen(&mut self, forest: &mut Forest, statement: Id, p: Id, x: Id) {
        match forest.tree(x) {
            Tree::Both(a, b) => {
                self.sees(forest, 6, p, a, statement, None);
                self.sees(forest, 7, p, b, statement, None);
            }
            Tree::Combined(a, secret) => {
                self.sees(forest, 8, p, a, statement, None);
                self.consider_combined(forest, statement, p, a, secret);
                self.seen.entry(p).or_default().push((statement, x));
            }
            Tree::Sealed(a, key, from) if from != p => {
                self.consider_sealed(forest, statement, p, a, key);
                self.seen.entry(p).or_default().push((statement, x));
            }
            Tree::Signed(a, key, from) if from != p => {
                self.consider_signed(forest, statement, p, a, key);
                self.seen.entry(p).or_default().push((statement, x));
            }
            _ => {}
        }
    }

    fn consider_combined(&mut self, forest: &mut Forest, statement: Id, p: Id, a: Id, secret: Id) {
        for q in self.principals.clone() {
            if let Some(shared) = self.belief(forest, p, forest.find_shared_secret(p, secret, q)) {
                self.believes_tree(forest, 3, p, Tree::Said(q, a), shared, Some(statement));
            }
        }
    }

    fn consider_sealed(&mut self, forest: &mut Forest, statement: Id, p: Id, a: Id, key: Id) {
        for q in self.principals.clone() {
            if let Some(shared) = self.belief(forest, p, forest.find_shared_key(p, key, q)) {
                self.believes_tree(forest, 1, p, Tree::Said(q, a), shared, Some(statement));
                self.sees(forest, 9, p, a, shared, Some(statement));
            }
        }
        if let Some(own) = self.belief(forest, p, forest.find(Tree::PublicKey(key, p))) {
            self.sees(forest, 10, p, a, own, Some(statement));
        }
    }

    fn consider_signed(&mut self, forest: &mut Forest, statement: Id, p: Id, a: Id, key: Id) {
        for q in self.principals.clone() {
            if let Some(owned) = self.belief(forest, p, forest.find(Tree::PublicKey(key, q))) {
                self.believes_tree(forest, 2, p, Tree::Said(q, a), owned, Some(statement));
                self.sees(forest, 11, p, a, owned, Some(statement));
            }
        }
    }

    /// Rules 21 and 22: P comes to believe in a kind 17.
    fn consider_delegation(&mut self, forest: &mut Forest, statement: Id, p: Id, all: Id) {
        let Delegation { q, formulas, controls } = self.delegations.get(&all).cloned().unwrap_or_default();
        for control in controls {
            self.believes(forest, 22, p, control, statement, None);
        }
        for x in formulas {
            self.trusted.entry((p, q, x)).or_default().push(statement);
            if let Some(belief) = self.belief(forest, p, forest.find(Tree::Believes(q, x))) {
                self.believes(forest, 21, p, x, statement, Some(belief));
            }
        }
    }

    fn consider_believed(&mut self, forest: &mut Forest, statement: Id, p: Id, x: Id) {
        self.consider_joining(forest, statement, p, x);
        match forest.tree(x) {
            Tree::SharedKey(a, key, b) => self.consider_shared_key(forest, statement, p, other_of(p, a, b), key),
            Tree::PublicKey(key, q) => self.consider_public_key(forest, statement, p, q, key),
            Tree::SharedSecret(a, y, b) => self.consider_shared_secret(forest, statement, p, other_of(p, a, b), y),
            Tree::Fresh(y) => self.consider_fresh(forest, statement, p, y),
            Tree::Said(q, y) => self.consider_said(forest, statement, p, q, y),
            Tree::Believes(q, y) => self.consider_second_belief(forest, statement, p, q, y),
            Tree::Controls(q, y) => self.consider_control(forest, statement, p, q, y),
            Tree::ForEvery(..) if self.puts_keys => self.consider_delegation(forest, statement, p, x),
            Tree::Both(a, b) => {
                self.believes(forest, 18, p, a, statement, None);
                self.believes(forest, 19, p, b, statement, None);
            }
            _ => {}
        }
    }

    /// Rule 20 with the new belief as the first part, then as the second.
    fn consider_joining(&mut self, forest: &mut Forest, statement: Id, p: Id, x: Id) {
        for (y, whole) in self.by_first.get(&x).cloned().unwrap_or_default() {
            if let Some(other) = self.belief(forest, p, Some(y)) {
                self.believes(forest, 20, p, whole, statement, Some(other));
            }
        }
        for (y, whole) in self.by_second.get(&x).cloned().unwrap_or_default() {
            if let Some(other) = self.belief(forest, p, Some(y)) {
                self.believes(forest, 20, p, whole, other, Some(statement));
            }
        }
    }

    fn consider_shared_key(&mut self, forest: &mut Forest, statement: Id, p: Id, q: Option<Id>, key: Id) {
        let Some(q) = q else { return };
        for (seeing, tree) in self.seen.get(&p).cloned().unwrap_or_default() {
            match forest.tree(tree) {
                Tree::Sealed(a, k, _) if k == key => {
                    self.believes_tree(forest, 1, p, Tree::Said(q, a), statement, Some(seeing));
                    self.sees(forest, 9, p, a, statement, Some(seeing));
                }
                _ => {}
            }
        }
    }

    fn consider_public_key(&mut self, forest: &mut Forest, statement: Id, p: Id, q: Id, key: Id) {
        for (seeing, tree) in self.seen.get(&p).cloned().unwrap_or_default() {
            match forest.tree(tree) {
                Tree::Signed(a, k, _) if k == key => {
                    self.believes_tree(forest, 2, p, Tree::Said(q, a), statement, Some(seeing));
                    self.sees(forest, 11, p, a, statement, Some(seeing));
                }
                Tree::Sealed(a, k, _) if k == key && q == p => {
                    self.sees(forest, 10, p, a, statement, Some(seeing));
                }
                _ => {}
            }
        }
    }

    fn consider_shared_secret(&mut self, forest: &mut Forest, statement: Id, p: Id, q: Option<Id>, secret: Id) {
        let Some(q) = q else { return };
        for (seeing, tree) in self.seen.get(&p).cloned().unwrap_or_default() {
            match forest.tree(tree) {
                Tree::Combined(a, y) if y == secret => {
                    self.believes_tree(forest, 3, p, Tree::Said(q, a), statement, Some(seeing));
                }
                _ => {}
            }
        }
    }

    fn consider_fresh(&mut self, forest: &mut Forest, statement: Id, p: Id, y: Id) {
        for (_, whole) in self.by_first.get(&y).cloned().unwrap_or_default() {
            self.believes_tree(forest, 12, p, Tree::Fresh(whole), statement, None);
        }
        for (_, whole) in self.by_second.get(&y).cloned().unwrap_or_default() {
            self.believes_tree(forest, 13, p, Tree::Fresh(whole), statement, None);
        }
        if forest.is_clear(y) {
            for q in self.principals.clone() {
                if let Some(said) = self.belief(forest, p, forest.find(Tree::Said(q, y))) {
                    self.believes_tree(forest, 4, p, Tree::Believes(q, y), statement, Some(said));
                }
            }
        }
    }

    fn consider_said(&mut self, forest: &mut Forest, statement: Id, p: Id, q: Id, y: Id) {
        if let Some(fresh) = self.belief(forest, p, forest.find(Tree::Fresh(y))) {
            if forest.is_clear(y) {
                self.believes_tree(forest, 4, p, Tree::Believes(q, y), fresh, Some(statement));
            }
        }
        if let Tree::Both(a, b) = forest.tree(y) {
            self.believes_tree(forest, 14, p, Tree::Said(q, a), statement, None);
            self.believes_tree(forest, 15, p, Tree::Said(q, b), statement, None);
        }
    }

    fn consider_second_belief(&mut self, forest: &mut Forest, statement: Id, p: Id, q: Id, y: Id) {
        if let Some(control) = self.belief(forest, p, forest.find(Tree::Controls(q, y))) {
            self.believes(forest, 5, p, y, control, Some(statement));
        }
        for delegation in self.trusted.get(&(p, q, y)).cloned().unwrap_or_default() {
            self.believes(forest, 21, p, y, delegation, Some(statement));
        }
        if let Tree::Both(a, b) = forest.tree(y) {
            self.believes_tree(forest, 16, p, Tree::Believes(q, a), statement, None);
            self.believes_tree(forest, 17, p, Tree::Believes(q, b), statement, None);
        }
    }

    fn consider_control(&mut self, forest: &mut Forest, statement: Id, p: Id, q: Id, y: Id) {
        if let Some(belief) = self.belief(forest, p, forest.find(Tree::Believes(q, y))) {
            self.believes(forest, 5, p, y, statement, Some(belief));
        }
    }
}

/// What each kind 17 of the forest delegates: each key that is planted is put for V, and then one of those that are not.
fn delegations(forest: &Forest) -> Map<Id, Delegation> {
    let keys = forest.all().filter(|(_, tree)| matches!(tree, Tree::Key(_))).map(|(id, _)| Some(id));
    let keys: Vec<Option<Id>> = keys.chain([None]).collect();
    let mut done: Map<(Id, Option<Id>), Map<Id, Option<Id>>> = Map::default();
    let mut all: Map<Id, Delegation> = Map::default();
    for (id, tree) in forest.all() {
        let Tree::ForEvery(v, z) = tree else { continue };
        let Tree::Controls(q, x) = forest.tree(z) else { panic!("no control") };
        let delegation = all.entry(id).or_insert(Delegation { q, ..Delegation::default() });
        for key in &keys {
            let done = done.entry((v, *key)).or_default();
            delegation.formulas.extend(forest.find_put(v, *key, x, done));
            delegation.controls.extend(forest.find_put(v, *key, z, done));
        }
        for found in [&mut delegation.formulas, &mut delegation.controls] {
            found.sort();
            found.dedup();
        }
    }
    all
}

/// The other one of a and b, if p is one of them.
fn other_of(p: Id, a: Id, b: Id) -> Option<Id> {
    if p == a {
        Some(b)
    } else if p == b {
        Some(a)
    } else {
        None
    }
}

// ---------------------------------------------------------------------------------------------------- survey and verdict

impl Book {
    /// F
    pub fn places(&self) -> usize {
        self.principals.len() * self.formulas.len() * self.width()
    }

    fn width(&self) -> usize {
        3 + 2 * self.principals.len()
    }

    fn rank(&self, principal: Id) -> usize {
        let is_it = |number: &u16| self.trees[usize::from(*number)] == principal;
        self.principals.iter().position(is_it).expect("a principal of the book")
    }

    /// The place of a statement whose X is a record.
    pub fn place(&self, statement: Id) -> Option<usize> {
        let fact = self.opened(statement);
        let x = usize::from(*self.numbers.get(&fact.x)?);
        let b = fact.q.map_or(0, |q| self.rank(q));
        let column = match fact.mode {
            4 => 3 + b,
            5 => 3 + self.principals.len() + b,
            mode => usize::from(mode) - 1,
        };
        Some((self.rank(fact.p) * self.formulas.len() + x) * self.width() + column)
    }

    /// The bytes of the survey.
    pub fn survey(&self, following: &Following) -> Vec<u8> {
        let mut table = vec![0; self.places()];
        for found in &following.log {
            if let Some(place) = self.place(found.statement) {
                table[place] = 1 + found.after;
            }
        }
        table
    }
}

/// How many places hold a fact after message m.
pub fn held_after(table: &[u8], m: u16) -> usize {
    table.iter().filter(|byte| **byte != 0 && u16::from(**byte) <= 1 + m).count()
}

/// Is the goal reached?
pub fn is_reached(following: &Following, goal: Goal) -> bool {
    following.first(goal.statement).is_some_and(|first| u16::from(first) <= goal.after)
}

// ----------------------------------------------------------------------------------------------------------- derivations

/// A step as it is written.
#[derive(Clone, Copy, PartialEq, Eq, Debug)]
pub struct Step {
    pub kind: u8,
    pub fact: [u8; 7],
    pub numbers: [u16; 2],
}

/// How many numbers stand behind the fact of a step; none for an unknown kind.
fn numbers_of(kind: u8) -> Option<usize> {
    match kind {
        64 | 65 => Some(1),
        66..=70 | 74..=76 | 85 | 86 => Some(2),
        71..=73 | 77..=84 | 87 => Some(1),
        _ => None,
    }
}

impl Step {
    pub fn at_front(bytes: &[u8]) -> Option<Step> {
        let count = numbers_of(bytes[0])?;
        if bytes.len() < 8 + 2 * count {
            return None;
        }
        let mut numbers = [0; 2];
        for i in 0..count {
            numbers[i] = two_bytes(&bytes[8 + 2 * i..]);
        }
        Some(Step { kind: bytes[0], fact: bytes[1..8].try_into().unwrap(), numbers })
    }

    pub fn length(&self) -> usize {
        8 + 2 * numbers_of(self.kind).unwrap_or(0)
    }

    /// The numbers of the premises; none for assumptions and messages.
    pub fn premises(&self) -> &[u16] {
        match self.kind {
            64 | 65 => &[],
            kind => &self.numbers[..numbers_of(kind).unwrap_or(0)],
        }
    }

    pub fn write(&self, bytes: &mut Vec<u8>) {
        bytes.push(self.kind);
        bytes.extend_from_slice(&self.fact);
        for number in &self.numbers[..numbers_of(self.kind).unwrap_or(0)] {
            bytes.extend_from_slice(&number.to_be_bytes());
        }
    }
}

/// The steps of a derivation that is whole.
pub fn steps_of(derivation: &[u8]) -> Option<Vec<Step>> {
    let mut steps = Vec::new();
    let mut rest = derivation;
    while !rest.is_empty() {
        let step = Step::at_front(rest)?;
        rest = &rest[step.length()..];
        steps.push(step);
    }
    Some(steps)
}

impl Following {
    /// The steps of all that follows up to message m, in the order of finding: a derivation of each of its facts.
    pub fn steps(&self, book: &Book, m: u16) -> Vec<Step> {
        let held = self.log.iter().take_while(|found| u16::from(found.after) <= m);
        held.map(|found| self.step(book, found)).collect()
    }

    /// Where the statement stands among them.
    pub fn position(&self, statement: Id) -> Option<usize> {
        self.found.get(&statement).copied()
    }

    fn step(&self, book: &Book, found: &Found) -> Step {
        let place = |statement: Id| self.found[&statement] as u16;
        let (kind, numbers) = match found.reason {
            Reason::Assumption(number) => (64, [number as u16, 0]),
            Reason::Message(number) => (65, [number as u16, 0]),
            Reason::Rule(rule, first, second) => (65 + rule, [place(first), second.map_or(0, place)]),
        };
        Step { kind, fact: book.written(found.statement).expect("a fact over records"), numbers }
    }
}

impl Following {
    /// A derivation of a goal that is reached: what it needs of the log, in the order of finding.
    pub fn derivation(&self, book: &Book, goal: Goal) -> Vec<u8> {
        let last = self.found[&goal.statement];
        let mut number = vec![None; last + 1];
        let mut needed = vec![false; last + 1];
        needed[last] = true;
        for place in (0..=last).rev() {
            if let (true, Reason::Rule(_, first, second)) = (needed[place], self.log[place].reason) {
                needed[self.found[&first]] = true;
                second.into_iter().for_each(|second| needed[self.found[&second]] = true);
            }
        }
        let mut bytes = Vec::new();
        for (count, place) in (0..=last).filter(|place| needed[*place]).enumerate() {
            number[place] = Some(count as u16);
            let mut step = self.step(book, &self.log[place]);
            let premises = step.premises().len();
            for premise in &mut step.numbers[..premises] {
                *premise = number[usize::from(*premise)].expect("an earlier step");
            }
            step.write(&mut bytes);
        }
        bytes
    }
}

/// Checks a derivation of a goal: the first wrong step with the first number of 21, 16, 17, 18, 19 that fits, at the end 20.
pub fn check(book: &mut Book, goal: u32, derivation: &[u8]) -> Result<(), Refusal> {
    let goal = book.goal(goal)?;
    let mut statements = Vec::new();
    let mut rest = derivation;
    while !rest.is_empty() {
        let number = statements.len();
        let (statement, length) = check_step(book, goal, &statements, rest).map_err(|fault| refusal(fault, number))?;
        statements.push(statement);
        rest = &rest[length..];
    }
    if statements.last() == Some(&goal.statement) {
        Ok(())
    } else {
        Err(refusal(20, statements.len()))
    }
}

/// The statement of the step at the front and its length, or the number of the refusal.
fn check_step(book: &mut Book, goal: Goal, earlier: &[Id], rest: &[u8]) -> Result<(Id, usize), u8> {
    if earlier.len() >= MOST_STEPS {
        return Err(21);
    }
    let step = Step::at_front(rest).ok_or(16)?;
    let statement = book.statement(&step.fact).ok_or(17)?;
    if step.premises().iter().any(|premise| usize::from(*premise) >= earlier.len()) {
        return Err(18);
    }
    if !is_right(book, goal, earlier, &step, statement) {
        return Err(19);
    }
    Ok((statement, step.length()))
}

fn is_right(book: &Book, goal: Goal, earlier: &[Id], step: &Step, statement: Id) -> bool {
    let number = step.numbers[0];
    match step.kind {
        64 => book.assumptions.get(usize::from(number)) == Some(&statement),
        65 => {
            let is_there = 1 <= number && number <= goal.after;
            is_there && book.messages.get(usize::from(number) - 1).map(|message| message.seen) == Some(statement)
        }
        kind => {
            let premises: Vec<Tree> =
                step.premises().iter().map(|premise| book.forest.tree(earlier[usize::from(*premise)])).collect();
            is_instance(&book.forest, kind - 65, &premises, book.forest.tree(statement))
        }
    }
}

/// Is this conclusion what the rule concludes from these premises?
fn is_instance(forest: &Forest, rule: u8, premises: &[Tree], conclusion: Tree) -> bool {
    match rule {
        1 => by_shared_key(forest, premises).is_some_and(|(p, q, x)| is_belief(forest, conclusion, p, Tree::Said(q, x))),
        2 => by_public_key(forest, premises).is_some_and(|(p, q, x)| is_belief(forest, conclusion, p, Tree::Said(q, x))),
        3 => by_secret(forest, premises).is_some_and(|(p, q, x)| is_belief(forest, conclusion, p, Tree::Said(q, x))),
        4 => by_freshness(forest, premises).is_some_and(|(p, q, x)| is_belief(forest, conclusion, p, Tree::Believes(q, x))),
        5 => by_control(forest, premises).is_some_and(|(p, x)| conclusion == Tree::Believes(p, x)),
        6 | 7 => {
            seen_pair(forest, premises[0]).is_some_and(|(p, parts)| conclusion == Tree::Sees(p, side(parts, rule == 6)))
        }
        8 => seen_combined(forest, premises[0]).is_some_and(|(p, x, _)| conclusion == Tree::Sees(p, x)),
        9 => by_shared_key(forest, premises).is_some_and(|(p, _, x)| conclusion == Tree::Sees(p, x)),
        10 => by_own_key(forest, premises).is_some_and(|(p, x)| conclusion == Tree::Sees(p, x)),
        11 => by_public_key(forest, premises).is_some_and(|(p, _, x)| conclusion == Tree::Sees(p, x)),
        12 | 13 => is_wider_freshness(forest, premises[0], conclusion, rule == 12),
        14 | 15 => said_pair(forest, premises[0])
            .is_some_and(|(p, q, parts)| is_belief(forest, conclusion, p, Tree::Said(q, side(parts, rule == 14)))),
        16 | 17 => thought_pair(forest, premises[0])
            .is_some_and(|(p, q, parts)| is_belief(forest, conclusion, p, Tree::Believes(q, side(parts, rule == 16)))),
        18 | 19 => believed_pair(forest, premises[0])
            .is_some_and(|(p, parts)| conclusion == Tree::Believes(p, side(parts, rule == 18))),
        20 => is_joined(forest, premises, conclusion),
        21 => is_trusted(forest, premises, conclusion),
        22 => is_control_by_delegation(forest, premises[0], conclusion),
        _ => false,
    }
}

/// Is it "p believes" this tree?
fn is_belief(forest: &Forest, statement: Tree, p: Id, tree: Tree) -> bool {
    matches!(statement, Tree::Believes(who, x) if who == p && forest.tree(x) == tree)
}

fn side(parts: (Id, Id), is_first: bool) -> Id {
    if is_first {
        parts.0
    } else {
        parts.1
    }
}

/// The premises of rule 1: P, Q and X.
fn by_shared_key(forest: &Forest, premises: &[Tree]) -> Option<(Id, Id, Id)> {
    let Tree::Believes(p, key) = premises[0] else { return None };
    let Tree::SharedKey(a, key, b) = forest.tree(key) else { return None };
    let Tree::Sees(viewer, seal) = premises[1] else { return None };
    let Tree::Sealed(x, under, from) = forest.tree(seal) else { return None };
    let q = other_of(p, a, b)?;
    (viewer == p && under == key && from != p).then_some((p, q, x))
}

/// The premises of rule 2.
fn by_public_key(forest: &Forest, premises: &[Tree]) -> Option<(Id, Id, Id)> {
    let Tree::Believes(p, key) = premises[0] else { return None };
    let Tree::PublicKey(key, q) = forest.tree(key) else { return None };
    let Tree::Sees(viewer, signed) = premises[1] else { return None };
    let Tree::Signed(x, under, from) = forest.tree(signed) else { return None };
    (viewer == p && under == key && from != p).then_some((p, q, x))
}

/// The premises of rule 3.
fn by_secret(forest: &Forest, premises: &[Tree]) -> Option<(Id, Id, Id)> {
    let Tree::Believes(p, shared) = premises[0] else { return None };
    let Tree::SharedSecret(a, secret, b) = forest.tree(shared) else { return None };
    let (viewer, x, with) = seen_combined(forest, premises[1])?;
    let q = other_of(p, a, b)?;
    (viewer == p && with == secret).then_some((p, q, x))
}

/// The premises of rule 4.
fn by_freshness(forest: &Forest, premises: &[Tree]) -> Option<(Id, Id, Id)> {
    let Tree::Believes(p, fresh) = premises[0] else { return None };
    let Tree::Fresh(x) = forest.tree(fresh) else { return None };
    let Tree::Believes(hearer, said) = premises[1] else { return None };
    let Tree::Said(q, y) = forest.tree(said) else { return None };
    (hearer == p && y == x && forest.is_clear(x)).then_some((p, q, x))
}

/// The premises of rule 5: P and X.
fn by_control(forest: &Forest, premises: &[Tree]) -> Option<(Id, Id)> {
    let Tree::Believes(p, control) = premises[0] else { return None };
    let Tree::Controls(q, x) = forest.tree(control) else { return None };
    is_belief(forest, premises[1], p, Tree::Believes(q, x)).then_some((p, x))
}

/// The premises of rule 10.
fn by_own_key(forest: &Forest, premises: &[Tree]) -> Option<(Id, Id)> {
    let Tree::Believes(p, key) = premises[0] else { return None };
    let Tree::PublicKey(key, owner) = forest.tree(key) else { return None };
    let Tree::Sees(viewer, seal) = premises[1] else { return None };
    let Tree::Sealed(x, under, from) = forest.tree(seal) else { return None };
    (owner == p && viewer == p && under == key && from != p).then_some((p, x))
}

fn seen_pair(forest: &Forest, statement: Tree) -> Option<(Id, (Id, Id))> {
    let Tree::Sees(p, pair) = statement else { return None };
    let Tree::Both(x, y) = forest.tree(pair) else { return None };
    Some((p, (x, y)))
}

fn seen_combined(forest: &Forest, statement: Tree) -> Option<(Id, Id, Id)> {
    let Tree::Sees(p, combined) = statement else { return None };
    let Tree::Combined(x, secret) = forest.tree(combined) else { return None };
    Some((p, x, secret))
}

fn believed_pair(forest: &Forest, statement: Tree) -> Option<(Id, (Id, Id))> {
    let Tree::Believes(p, pair) = statement else { return None };
    let Tree::Both(x, y) = forest.tree(pair) else { return None };
    Some((p, (x, y)))
}

fn said_pair(forest: &Forest, statement: Tree) -> Option<(Id, Id, (Id, Id))> {
    let Tree::Believes(p, said) = statement else { return None };
    let Tree::Said(q, pair) = forest.tree(said) else { return None };
    let Tree::Both(x, y) = forest.tree(pair) else { return None };
    Some((p, q, (x, y)))
}

fn thought_pair(forest: &Forest, statement: Tree) -> Option<(Id, Id, (Id, Id))> {
    let Tree::Believes(p, thought) = statement else { return None };
    let Tree::Believes(q, pair) = forest.tree(thought) else { return None };
    let Tree::Both(x, y) = forest.tree(pair) else { return None };
    Some((p, q, (x, y)))
}

/// Rules 12 and 13: freshness of a part makes the whole fresh.
fn is_wider_freshness(forest: &Forest, premise: Tree, conclusion: Tree, is_first: bool) -> bool {
    let Tree::Believes(p, fresh) = premise else { return false };
    let Tree::Fresh(part) = forest.tree(fresh) else { return false };
    let Tree::Believes(who, wider) = conclusion else { return false };
    let Tree::Fresh(whole) = forest.tree(wider) else { return false };
    let Tree::Both(x, y) = forest.tree(whole) else { return false };
    who == p && side((x, y), is_first) == part
}

/// Rule 20.
fn is_joined(forest: &Forest, premises: &[Tree], conclusion: Tree) -> bool {
    let Some((p, (x, y))) = believed_pair(forest, conclusion) else { return false };
    premises[0] == Tree::Believes(p, x) && premises[1] == Tree::Believes(p, y)
}

/// "P believes for every V, Q controls X": P, V, Q and X.
fn delegated(forest: &Forest, statement: Tree) -> Option<(Id, Id, Id, Id)> {
    let Tree::Believes(p, all) = statement else { return None };
    let Tree::ForEvery(v, control) = forest.tree(all) else { return None };
    let Tree::Controls(q, x) = forest.tree(control) else { return None };
    Some((p, v, q, x))
}

/// Rule 21.
fn is_trusted(forest: &Forest, premises: &[Tree], conclusion: Tree) -> bool {
    let Some((p, v, q, x)) = delegated(forest, premises[0]) else { return false };
    let Tree::Believes(who, put) = conclusion else { return false };
    who == p && is_belief(forest, premises[1], p, Tree::Believes(q, put)) && forest.is_put(v, x, put)
}

/// Rule 22.
fn is_control_by_delegation(forest: &Forest, premise: Tree, conclusion: Tree) -> bool {
    let Some((p, v, q, x)) = delegated(forest, premise) else { return false };
    let Tree::Believes(who, control) = conclusion else { return false };
    let Tree::Controls(whom, put) = forest.tree(control) else { return false };
    who == p && whom == q && forest.is_put(v, x, put)
}

/// Is there a fact that the table does not hold and that one rule gives from facts that it holds? The fact and the rule.
pub fn missing_fact(book: &mut Book, table: &[u8]) -> Option<([u8; 7], u8)> {
    let (held, others): (Vec<_>, Vec<_>) = all_facts(book).into_iter().partition(|(_, place)| table[*place] != 0);
    let forest = &book.forest;
    let held: Vec<Tree> = held.into_iter().map(|(statement, _)| forest.tree(statement)).collect();
    for (statement, _) in others {
        let gives = |rule: &u8| is_given(forest, *rule, &held, forest.tree(statement));
        if let Some(rule) = (1..=22).find(gives) {
            return Some((book.written(statement)?, rule));
        }
    }
    None
}

/// All facts over records, with their places.
fn all_facts(book: &mut Book) -> Vec<(Id, usize)> {
    let mut facts = Vec::new();
    let formulas = 0..book.formulas.len() as u16;
    for p in book.principals.clone() {
        for x in formulas.clone() {
            for mode in 1..=5 {
                let others = if mode > 3 { book.principals.clone() } else { vec![0] };
                for q in others {
                    let [p, q, x] = [p, q, x].map(u16::to_be_bytes);
                    if let Some(statement) = book.statement(&[mode, p[0], p[1], q[0], q[1], x[0], x[1]]) {
                        facts.push((statement, book.place(statement).expect("a place")));
                    }
                }
            }
        }
    }
    facts
}

fn is_given(forest: &Forest, rule: u8, held: &[Tree], conclusion: Tree) -> bool {
    if numbers_of(65 + rule) == Some(1) {
        return held.iter().any(|premise| is_instance(forest, rule, &[*premise], conclusion));
    }
    held.iter().any(|first| held.iter().any(|second| is_instance(forest, rule, &[*first, *second], conclusion)))
}

// ----------------------------------------------------------------------------------------------------------------- text

/// For whom a text is: for him whose book it is, or for a guest, who may not know which data are carried.
#[derive(Clone, Copy, PartialEq, Eq, Debug)]
pub enum Audience {
    Owner,
    Guest,
}

impl Audience {
    pub const ALL: [Audience; 2] = [Audience::Owner, Audience::Guest];
}

/// Text that stops growing when it is above 4,096 bytes.
struct Text<'a> {
    bytes: Vec<u8>,
    /// how a datum prints, by its tree and its name
    datum: &'a dyn Fn(Id, u16) -> String,
}

impl Text<'_> {
    fn is_full(&self) -> bool {
        self.bytes.len() > MOST_TEXT
    }

    fn put(&mut self, words: &str) {
        self.bytes.extend_from_slice(words.as_bytes());
    }

    fn formula(&mut self, forest: &Forest, id: Id) {
        if self.is_full() {
            return;
        }
        match forest.tree(id) {
            Tree::Principal(name) => self.put(&format!("P{name}")),
            Tree::Key(name) => self.put(&format!("K{name}")),
            Tree::Datum(name) => self.put(&(self.datum)(id, name)),
            Tree::Both(x, y) => self.list(forest, x, y),
            Tree::Sealed(x, key, from) => self.sealed(forest, x, key, "", from),
            Tree::Signed(x, key, from) => self.sealed(forest, x, key, "'", from),
            Tree::Combined(x, y) => {
                self.put("<");
                self.formula(forest, x);
                self.put(">");
                self.formula(forest, y);
            }
            Tree::SharedKey(p, key, q) => self.three(forest, p, " -", key, "- ", q),
            Tree::SharedSecret(p, x, q) => self.three(forest, p, " =", x, "= ", q),
            Tree::PublicKey(key, p) => self.two(forest, key, " of ", p),
            Tree::Fresh(x) => {
                self.put("fresh ");
                self.formula(forest, x);
            }
            Tree::Believes(p, x) => self.two(forest, p, " believes ", x),
            Tree::Sees(p, x) => self.two(forest, p, " sees ", x),
            Tree::Said(p, x) => self.two(forest, p, " said ", x),
            Tree::Controls(p, x) => self.two(forest, p, " controls ", x),
            Tree::Variable(name) => self.put(&format!("V{name}")),
            Tree::ForEvery(v, z) => {
                self.put("all ");
                self.two(forest, v, ": ", z);
            }
        }
    }

    fn list(&mut self, forest: &Forest, first: Id, rest: Id) {
        self.put("(");
        self.formula(forest, first);
        let mut rest = rest;
        while let Tree::Both(x, y) = forest.tree(rest) {
            if self.is_full() {
                return;
            }
            self.put(", ");
            self.formula(forest, x);
            rest = y;
        }
        self.put(", ");
        self.formula(forest, rest);
        self.put(")");
    }

    fn sealed(&mut self, forest: &Forest, x: Id, key: Id, mark: &str, from: Id) {
        self.put("{");
        self.formula(forest, x);
        self.put("}");
        self.formula(forest, key);
        self.put(mark);
        self.put(" from ");
        self.formula(forest, from);
    }

    fn two(&mut self, forest: &Forest, left: Id, word: &str, right: Id) {
        self.formula(forest, left);
        self.put(word);
        self.formula(forest, right);
    }

    fn three(&mut self, forest: &Forest, p: Id, before: &str, x: Id, after: &str, q: Id) {
        self.formula(forest, p);
        self.put(before);
        self.formula(forest, x);
        self.put(after);
        self.formula(forest, q);
    }
}

/// The text of a written fact for an audience, and for a buffer of this length.
pub fn fact_text(audience: Audience, book: &mut Book, fact: &[u8], buffer_length: usize) -> Result<Vec<u8>, Refusal> {
    let statement = book.statement(fact).ok_or(refusal(17, 0))?;
    let mut text = Text { bytes: Vec::new(), datum: &|id, name| book.datum_text(audience, id, name) };
    text.formula(&book.forest, statement);
    if text.is_full() || text.bytes.len() > buffer_length {
        return Err(refusal(15, 0));
    }
    Ok(text.bytes)
}

impl Book {
    /// To its owner a datum prints by its name, to a guest by the number of its formula record.
    fn datum_text(&self, audience: Audience, datum: Id, name: u16) -> String {
        match audience {
            Audience::Owner => format!("N{name}"),
            Audience::Guest => format!("N#{}", self.numbers[&datum]),
        }
    }
}

// --------------------------------------------------------------------------------------------------------------- listing

impl Book {
    /// The written fact of a place.
    fn fact_at(&self, place: usize) -> [u8; 7] {
        let (p, n) = (self.principals.len(), self.formulas.len());
        let (row, column) = (place / self.width(), place % self.width());
        let (mode, q) = match column {
            0..=2 => (1 + column as u8, 0),
            _ if column < 3 + p => (4, self.principals[column - 3]),
            _ => (5, self.principals[column - 3 - p]),
        };
        let [p, q, x] = [self.principals[row / n], q, (row % n) as u16].map(u16::to_be_bytes);
        [mode, p[0], p[1], q[0], q[1], x[0], x[1]]
    }

    fn line_of(&mut self, audience: Audience, place: usize, byte: u8) -> Vec<u8> {
        if byte == 0 {
            return Vec::new();
        }
        let text = match fact_text(audience, self, &self.fact_at(place), MOST_TEXT) {
            Ok(text) => text,
            Err(Refusal { number: 15, .. }) => b"too long".to_vec(),
            Err(_) => return Vec::new(),
        };
        [format!("{} ", byte - 1).as_bytes(), &text, b"\n"].concat()
    }

    /// The lines of a listing by a table, whatever it holds: one for each place, empty where it has none, and the last two.
    pub fn lines(&mut self, audience: Audience, table: &[u8]) -> Vec<Vec<u8>> {
        let places = self.places();
        let mut lines: Vec<Vec<u8>> = (0..places).map(|place| self.line_of(audience, place, table[place])).collect();
        let held = table[..places].iter().filter(|byte| **byte != 0).count();
        let byte = |goal: &Goal| self.place(goal.statement).map_or(0, |place| table[place]);
        let is_marked = |goal: &&Goal| byte(goal) != 0 && u16::from(byte(goal)) <= 1 + goal.after;
        let (reached, all) = (self.goals.iter().filter(is_marked).count(), self.goals.len());
        lines.push(format!("held {held}\n").into_bytes());
        lines.push(format!("goals {reached} of {all}, {} per cent\n", per_cent(reached, all)).into_bytes());
        lines
    }
}

/// The whole number that is nearest to the share of goals reached, of two as near the even one; 0 where there are no goals.
fn per_cent(reached: usize, all: usize) -> usize {
    (0..=100).min_by_key(|figure| ((figure * all).abs_diff(100 * reached), figure % 2)).unwrap_or(0)
}

/// As many whole lines from one on as fit, and the line to go on from; none where it is over.
pub fn piece(lines: &[Vec<u8>], from: usize, room: usize) -> Result<Option<(Vec<u8>, usize)>, Refusal> {
    if from >= lines.len() {
        return Ok(None);
    }
    let (mut bytes, mut next) = (Vec::new(), from);
    while next < lines.len() && bytes.len() + lines[next].len() <= room {
        bytes.extend_from_slice(&lines[next]);
        next += 1;
    }
    if bytes.is_empty() {
        return Err(refusal(14, 0));
    }
    Ok(Some((bytes, next)))
}

// -------------------------------------------------------------------------------------------------------- honest senders

/// A formula that a sender has put into a section of his own, and so must believe.
#[derive(Clone, Copy, PartialEq, Eq, PartialOrd, Ord, Debug)]
pub struct Asked {
    /// the message, counted from 1
    pub message: u16,
    pub formula: u16,
    /// the first message after which he believes it, if he ever does
    pub believed: Option<u8>,
}

impl Asked {
    /// Does he believe it before he sends it?
    pub fn is_believed(&self) -> bool {
        self.believed.is_some_and(|after| u16::from(after) < self.message)
    }
}

/// A walk through a message. It follows every path, but turns back at a tree that it has come to before, in the open or inside a section
/// from the sender as now.
struct Walk<'a> {
    forest: &'a Forest,
    sender: Id,
    been: Map<(Id, bool), ()>,
    /// what it came to inside, and is neither a datum nor walked through
    met: Vec<Id>,
}

impl Walk<'_> {
    fn come_to(&mut self, id: Id, inside: bool) {
        if self.been.insert((id, inside), ()).is_some() {
            return;
        }
        match self.forest.tree(id) {
            Tree::Both(x, y) => [x, y].into_iter().for_each(|part| self.come_to(part, inside)),
            Tree::Combined(x, _) => self.come_to(x, inside),
            Tree::Sealed(x, _, from) | Tree::Signed(x, _, from) => {
                if from == self.sender {
                    self.come_to(x, true);
                }
            }
            Tree::Datum(_) => {}
            Tree::Principal(_) | Tree::Key(_) | Tree::Variable(_) => panic!("no part of a message"),
            _ if inside => self.met.push(id),
            _ => {}
        }
    }
}

impl Book {
    /// What each message asks its sender to believe, by message and then by formula number.
    pub fn asked(&self, following: &Following) -> Vec<Asked> {
        let mut all = Vec::new();
        for (message, Message { sender, formula, .. }) in (1..).zip(self.messages.iter().copied()) {
            let mut walk = Walk { forest: &self.forest, sender, been: Map::default(), met: Vec::new() };
            walk.come_to(formula, false);
            for x in walk.met {
                let belief = self.forest.find(Tree::Believes(sender, x));
                let believed = belief.and_then(|statement| following.first(statement));
                all.push(Asked { message, formula: self.numbers[&x], believed });
            }
        }
        all.sort();
        all
    }
}

/// The report of what is asked: the pairs of message and formula where the sender does not believe it, for a buffer of this length.
pub fn report(asked: &[Asked], length: usize) -> Result<Vec<u8>, Refusal> {
    let named = asked.iter().filter(|one| !one.is_believed());
    let bytes: Vec<u8> = named.flat_map(|one| [one.message, one.formula]).flat_map(u16::to_be_bytes).collect();
    if length < bytes.len() { Err(refusal(14, 0)) } else { Ok(bytes) }
}

// --------------------------------------------------------------------------------------------------------------- reasons

/// Refusals in words, from number 1 on.
const REASONS: [&str; 23] = [
    "an unknown kind byte",
    "a body that is not of its kind's length",
    "an assumption behind a message or a goal, or a message behind a goal",
    "a reference that is not to an earlier formula",
    "a reference of the wrong sort",
    "two principals whose names are equal or falling",
    "a sender that is the receiver",
    "a formula that is there already",
    "one more than the limit of its kind",
    "an assumption or a goal that is not of kind 12 or 13",
    "a goal after a message that is not there",
    "no space for it, or a used length above the buffer's",
    "there is no such goal",
    "a buffer that is too short",
    "a text above 4,096 bytes or above its buffer",
    "an unknown kind of step, or a step that is cut",
    "a malformed fact",
    "a premise that is not an earlier step",
    "it does not follow",
    "the steps end here, and the last one is not the goal",
    "a step numbered 65,535 or above",
    "an assumption, a message or a goal with a variable outside every kind 17",
    "a kind 17 that holds another kind 17 or another variable",
];

/// The sentence of a refusal's number, into a buffer of this length.
pub fn reason(number: u32, length: usize) -> Result<&'static [u8], Refusal> {
    let place = (number as usize).wrapping_sub(1);
    let sentence = REASONS.get(place).map_or(&b""[..], |text| text.as_bytes());
    if length < sentence.len() { Err(Refusal { number: 14, place: 0 }) } else { Ok(sentence) }
}
