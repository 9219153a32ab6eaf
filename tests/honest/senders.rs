//! Books to try honest senders on: drawn ones, in which senders put into sections of their own what they believe and what they do not, and
//! books with long reports and long walks.

use crate::books::{self, Draft, Rng};

// ---------------------------------------------------------------------------------------------------------------- drawn

/// A book in which each message asks its sender something, most often several things. Of these he believes some from the start, learns
/// some from an earlier message, some too late, and some never.
pub fn drawn(rng: &mut Rng) -> Draft {
    let most = if rng.once_in(8) { 256 } else { rng.between(24, 140) };
    let mut draft = Draft::new(most);
    for (kind, count) in [(1, rng.between(2, 5)), (2, rng.between(1, 3)), (3, rng.between(1, 3)), (16, rng.below(3))] {
        for name in 1..=count as u16 {
            let _ = draft.add(kind, &[name]);
        }
    }
    for _ in 0..if rng.once_in(6) { 16 } else { rng.between(1, 7) } {
        let _ = message(&mut draft, rng);
    }
    if rng.once_in(3) {
        draft
    } else {
        books::shuffled(&draft, rng)
    }
}

/// One message, and what its sender believes of it. Now and then somebody else sends the same.
fn message(draft: &mut Draft, rng: &mut Rng) -> Option<()> {
    let [sender, receiver] = two_of(draft, rng);
    let mut stated = Vec::new();
    let body = body(draft, rng, sender, 3, &mut stated)?;
    let own = section(draft, rng, body, sender)?;
    let other = other_than(draft, rng, sender);
    let whole = match rng.below(10) {
        0 => body,
        1 => draft.both(body, own)?,
        2 => draft.both(own, body)?,
        3 => draft.add(7, &[own, body])?,
        4 => section(draft, rng, own, other)?,
        _ => own,
    };
    let mut later = Vec::new();
    for x in stated {
        match rng.below(6) {
            0 | 1 => believe(draft, rng, sender, x)?,
            2 => teach(draft, rng, sender, x)?,
            3 => later.push(x),
            _ => {}
        }
        if matches!(draft.kind(x), 12 | 13) && rng.once_in(3) {
            draft.assume_statement(x)?;
        }
    }
    draft.send(sender, receiver, whole);
    if rng.once_in(6) {
        draft.send(other, sender, whole);
    }
    later.into_iter().try_for_each(|x| teach(draft, rng, sender, x))
}

/// What a section holds: statements and data, in conjunctions, in combinations, and in sections from the sender and from others. The
/// statements are added to `stated`, whether they are asked about or not.
fn body(draft: &mut Draft, rng: &mut Rng, sender: u16, depth: usize, stated: &mut Vec<u16>) -> Option<u16> {
    let mut inner = |draft: &mut Draft, rng: &mut Rng| body(draft, rng, sender, depth - 1, stated);
    match if depth == 0 { 3 + rng.below(3) } else { rng.below(14) } {
        3 => rng.pick(&draft.data),
        4 | 5 | 6 => {
            let x = statement(draft, rng, sender)?;
            stated.push(x);
            Some(x)
        }
        7 | 8 => {
            let (x, y) = (inner(draft, rng)?, inner(draft, rng)?);
            draft.add(7, &[x, y])
        }
        9 | 10 => {
            let x = inner(draft, rng)?;
            section(draft, rng, x, sender)
        }
        11 => {
            let (x, from) = (inner(draft, rng)?, other_than(draft, rng, sender));
            section(draft, rng, x, from)
        }
        _ => {
            let (x, y) = (inner(draft, rng)?, inner(draft, rng)?);
            draft.both(x, y)
        }
    }
}

fn section(draft: &mut Draft, rng: &mut Rng, body: u16, from: u16) -> Option<u16> {
    let key = rng.pick(&draft.keys)?;
    draft.add(if rng.once_in(2) { 5 } else { 6 }, &[body, key, from])
}

/// A formula of kind 8 to 15 or 17, often one that is there.
fn statement(draft: &mut Draft, rng: &mut Rng, sender: u16) -> Option<u16> {
    let parts = draft.parts();
    let there: Vec<u16> = parts.iter().copied().filter(|x| matches!(draft.kind(*x), 8..=15 | 17)).collect();
    if let (Some(x), true) = (rng.pick(&there), rng.once_in(3)) {
        return Some(x);
    }
    let [p, q] = two_of(draft, rng);
    let who = if rng.once_in(2) { sender } else { p };
    let (key, x) = (rng.pick(&draft.keys)?, rng.pick(&parts)?);
    match rng.between(8, 17) {
        8 => draft.shared_key(p, key, q),
        10 => draft.shared_secret(p, x, q),
        11 => draft.add(11, &[x]),
        kind @ 12..=15 => draft.add(kind as u8, &[who, x]),
        17 if !draft.variables.is_empty() => {
            let v = rng.pick(&draft.variables)?;
            let open = if rng.once_in(2) { draft.shared_key(p, v, q) } else { draft.add(9, &[v, p]) };
            draft.for_every(v, q, open?)
        }
        _ => draft.add(9, &[key, p]),
    }
}

/// P believes X from the start, alone or beside something else.
fn believe(draft: &mut Draft, rng: &mut Rng, p: u16, x: u16) -> Option<()> {
    let parts = draft.parts();
    match rng.below(4) {
        0 => {
            let pair = draft.both(x, rng.pick(&parts)?)?;
            draft.assume(p, pair)
        }
        1 => {
            let q = rng.pick(&draft.principals)?;
            let (control, thought) = (draft.add(15, &[q, x])?, draft.add(12, &[q, x])?);
            draft.assume(p, control)?;
            draft.assume(p, thought)
        }
        _ => draft.assume(p, x),
    }
}

/// Somebody tells P X, and P believes him; which X with a section in it he does not.
fn teach(draft: &mut Draft, rng: &mut Rng, p: u16, x: u16) -> Option<()> {
    let q = other_than(draft, rng, p);
    let (key, nonce) = (rng.pick(&draft.keys)?, rng.pick(&draft.data)?);
    let fresh = draft.add(11, &[nonce])?;
    let control = draft.add(15, &[q, x])?;
    let body = draft.both(x, nonce)?;
    let (opening, told) = if rng.once_in(2) {
        (draft.shared_key(p, key, q)?, draft.add(5, &[body, key, q])?)
    } else {
        (draft.add(9, &[key, q])?, draft.add(6, &[body, key, q])?)
    };
    for given in [fresh, control, opening] {
        draft.assume(p, given)?;
    }
    draft.send(q, p, told);
    Some(())
}

fn other_than(draft: &Draft, rng: &mut Rng, p: u16) -> u16 {
    let others: Vec<u16> = draft.principals.iter().copied().filter(|q| *q != p).collect();
    rng.pick(&others).expect("two principals")
}

fn two_of(draft: &Draft, rng: &mut Rng) -> [u16; 2] {
    let first = rng.pick(&draft.principals).expect("a principal");
    [first, other_than(draft, rng, first)]
}

// --------------------------------------------------------------------------------------------------------------- certain

/// So many statements about P1, P2 and K1, the shortest first: K1 of P1, K1 of P2, P1 -K1- P2, then statements about those before.
fn statements(draft: &mut Draft, people: [u16; 2], key: u16, count: usize) -> Vec<u16> {
    let [p, q] = people;
    let mut all = vec![draft.must(9, &[key, p]), draft.must(9, &[key, q]), draft.must(8, &[p, key, q])];
    for next in 0..count - 3 {
        let (x, turn) = (all[next / 9], next % 9);
        all.push(match turn {
            8 => draft.must(11, &[x]),
            _ => draft.must(12 + turn as u8 / 2, &[people[turn % 2], x]),
        });
    }
    all
}

/// All of them in one conjunction.
fn joined(draft: &mut Draft, members: &[u16]) -> u16 {
    let (first, rest) = members.split_first().expect("a member");
    rest.iter().fold(*first, |whole, x| draft.must(4, &[*x, whole]))
}

/// The longest report that there is, and the formulas that it names for each of the 16 messages. Two principals, a key and a section are
/// needed; a conjunction has one member more than it has records, so that of 252 other formulas 126 can be named.
pub fn longest_report() -> (Draft, Vec<u16>) {
    let mut draft = Draft::new(256);
    let people = [1, 2].map(|name| draft.must(1, &[name]));
    let key = draft.must(2, &[1]);
    let named = statements(&mut draft, people, key, 126);
    let body = joined(&mut draft, &named);
    let section = draft.must(5, &[body, key, people[0]]);
    draft.must(3, &[1]);
    (0..16).for_each(|_| draft.send(people[0], people[1], section));
    (draft, named)
}

/// K1 of P1, then so many conjunctions of the formula before with itself, in a section from P1: a tree of 2 to the power of `depth` members,
/// each of them formula 3.
pub fn doubled(depth: usize) -> Draft {
    let mut draft = Draft::new(256);
    let [p, q] = [1, 2].map(|name| draft.must(1, &[name]));
    let key = draft.must(2, &[1]);
    let mut whole = draft.must(9, &[key, p]);
    for _ in 0..depth {
        whole = draft.must(4, &[whole, whole]);
    }
    let section = draft.must(6, &[whole, key, p]);
    draft.send(p, q, section);
    draft
}

/// A book at the limits: each of 8 principals sends twice a list of 113 statements, in a section of his own and in the open beside it. Four
/// of them believe it, the others nothing.
pub fn long_walks() -> Draft {
    let mut draft = Draft::new(256);
    let people: Vec<u16> = (1..=8).map(|name| draft.must(1, &[name])).collect();
    let key = draft.must(2, &[1]);
    let listed = statements(&mut draft, [people[0], people[1]], key, 113);
    let body = joined(&mut draft, &listed);
    let first = draft.must(12, &[people[0], listed[0]]);
    for (i, p) in people.iter().enumerate() {
        let section = draft.must(5, &[body, key, *p]);
        let whole = draft.must(4, &[section, body]);
        (0..2).for_each(|_| draft.send(*p, people[(i + 1) % 8], whole));
        if i % 2 == 0 {
            draft.assume(*p, body);
        }
    }
    for name in 1..=2 {
        draft.must(3, &[name]);
    }
    draft.ask(0, first);
    draft
}
