//! What documents 01 and 02 say of certain books, tried on both sides.

use super::*;
use crate::books::{certificate, Draft};
use crate::reference::Record;

pub fn run(tally: &mut Tally, noise: &[u8]) {
    let mut certain = Certain { tally, noise };
    certain.certificates();
    certain.listing();
    certain.nine_steps();
    certain.protocols();
    certain.formulas_anywhere();
    certain.halves_to_even();
    certain.delegations();
    certain.doubled_delegations();
    certain.guests();
    certain.honest_senders();
    certain.long_reports();
    certain.refusals_in_words();
    certain.empty_book();
    certain.limits();
    certain.derivations_by_size();
    certain.longest_derivations();
    certain.longest_texts();
    small_stack();
}

struct Certain<'a> {
    tally: &'a mut Tally,
    noise: &'a [u8],
}

impl Certain<'_> {
    fn trial(&mut self, name: &'static str, draft: &Draft) -> Trial<'_> {
        self.trial_of(name, draft.bytes())
    }

    fn trial_of(&mut self, name: &'static str, book: Vec<u8>) -> Trial<'_> {
        Trial { case: None, name, book, rng: Rng::new(7), tally: self.tally, noise: self.noise }
    }

    /// Compares the whole book, and its first goal with what the document says: reached or not, and held.
    fn goal(&mut self, name: &'static str, draft: &Draft, reached: bool, held: usize) {
        let mut trial = self.trial(name, draft);
        trial.run();
        let places = 432;
        trial.compare_proof(places * 8, places * 12, 0, places, Ok((reached, held)));
    }

    fn certificates(&mut self) {
        self.goal("the certificate", &certificate(2), true, 15);
        let mut early = certificate(2);
        early.goals = vec![[0, 15]];
        self.goal("goal after 0", &early, false, 4);
        for (number, held) in [(12, 9), (14, 13)] {
            let mut without = certificate(2);
            without.assumptions.retain(|formula| *formula != number);
            self.goal("without an assumption", &without, false, held);
        }
        self.goal("record 8 from P1", &certificate(0), false, 5);
        let trial = self.trial("the certificate", &certificate(2));
        let mut table = [0; 432];
        trial.same("survey of the certificate", &[], library::survey(&trial.book, &mut table), Ok(15));
        trial.same("places 55 and 82", &[], (table[55], table[82]), (2, 1));
    }

    /// The listing that the document prints, from the survey and the texts.
    fn listing(&mut self) {
        let expected = "0 P1 believes fresh N1\n0 P1 believes fresh (K1 of P2, N1)\n\
            1 P1 sees {(K1 of P2, N1)}K2' from P1\n0 P1 believes K2 of P3\n0 P1 believes P3 controls K1 of P2\n";
        let trial = self.trial("record 8 from P1", &certificate(0));
        let mut table = [0; 432];
        library::survey(&trial.book, &mut table).expect("an accepted book");
        let mut lines = String::new();
        for (place, byte) in table.iter().enumerate().filter(|(_, byte)| **byte != 0) {
            let fact = fact_at(place);
            let mut text = [0; 100];
            let length = library::text(&trial.book, &fact, &mut text).expect("a sound fact");
            lines += &format!("{} {}\n", byte - 1, String::from_utf8_lossy(&text[..length]));
        }
        trial.same("listing", &[], lines.as_str(), expected);
    }

    /// Nine steps suffice for the certificate; the document's remarks on no steps and on premise 0.
    fn nine_steps(&mut self) {
        let mut trial = self.trial("the certificate", &certificate(2));
        let mut book = reference::read(&trial.book).expect("an accepted book");
        let fact = |mode: u8, q: u8, x: u8| [mode, 0, 0, 0, q, 0, x];
        let steps = [
            (64, fact(2, 0, 9), [0, 0]),
            (64, fact(3, 0, 5), [1, 0]),
            (64, fact(2, 0, 13), [2, 0]),
            (65, fact(1, 0, 8), [1, 0]),
            (67, fact(4, 2, 7), [0, 3]),
            (78, fact(3, 0, 7), [1, 0]),
            (69, fact(5, 2, 7), [5, 4]),
            (81, fact(5, 2, 6), [6, 0]),
            (70, fact(2, 0, 6), [2, 7]),
        ];
        let steps = steps.map(|(kind, fact, numbers)| Step { kind, fact, numbers });
        trial.compare_check(&mut book, 0, &written(&steps), Some(true));
        trial.same("no steps", &[], library::check(&trial.book, 0, &[]), Err(Refusal { number: 20, place: 0 }));
        let first = Step { kind: 85, fact: fact(2, 0, 9), numbers: [0, 0] };
        let answer = library::check(&trial.book, 0, &written(&[first]));
        trial.same("premise 0 of step 0", &[], answer, Err(Refusal { number: 18, place: 0 }));
        for _ in 0..200 {
            trial.compare_damaged(&mut book, 0, &written(&steps));
        }
    }

    /// Kerberos gives the four results that source document 000 names, and one of them not without message 4. Chains of
    /// links in unfavourable orders are followed to their ends. A book at every limit holds thousands of facts.
    fn protocols(&mut self) {
        self.verdicts("Kerberos", &books::kerberos(), &[true, true, true, true, false]);
        self.verdicts("a falling chain", &books::falling_chain(), &[true]);
        self.verdicts("a chain in zigzag", &books::zigzag_chain(8), &[true]);
        self.verdicts("a dense book", &books::dense(8, 256), &[true]);
        self.trial("a crowded book", &books::crowded()).run();
    }

    fn verdicts(&mut self, name: &'static str, draft: &Draft, expected: &[bool]) {
        let mut trial = self.trial(name, draft);
        trial.run();
        let places = library::places(&trial.book).expect("an accepted book");
        let (mut work, mut derivation) = (vec![0; places * 8], vec![0; places * 12]);
        for (goal, reached) in expected.iter().enumerate() {
            let proved = library::prove(&trial.book, goal as u32, &mut work, &mut derivation);
            trial.same("a result of the protocol", &[], proved.map(|proved| proved.reached), Ok(*reached));
        }
    }

    /// Document 02, wish 1: two books with the same records, one with its formulas beside their assumptions; what is refused; and
    /// records entered behind a goal.
    fn formulas_anywhere(&mut self) {
        let records = |all: &[(u8, &[u16])]| all.iter().map(|(kind, fields)| Record::new(*kind, fields)).collect::<Vec<_>>();
        let (start, one) = (records(&[(1, &[1]), (3, &[1]), (12, &[0, 1])]), records(&[(32, &[2])]));
        let (more, two) = (records(&[(3, &[2]), (12, &[0, 3])]), records(&[(32, &[4])]));
        let (end, goal) = (records(&[(4, &[1, 3]), (12, &[0, 5])]), records(&[(34, &[0, 6])]));
        let beside = books::bytes_of(&[&start[..], &one, &more, &two, &end, &goal].concat());
        let in_front = books::bytes_of(&[&start[..], &more, &end, &one, &two, &goal].concat());
        for book in [&beside, &in_front] {
            let mut trial = self.trial_of("formulas beside their assumptions", book.clone());
            trial.run();
            let mut table = [9; 40];
            trial.same("held", &[], library::survey(book, &mut table), Ok(3));
            let is_held = |place: usize| u8::from([6, 16, 26].contains(&place));
            trial.holds("the survey", &[], (0..35).all(|place| table[place] == is_held(place)) && table[35..] == [9; 5]);
            trial.compare_proof(35 * 8, 35 * 12, 0, 35, Ok((true, 3)));
        }
        let behind_goal = [in_front.clone(), books::bytes_of(&records(&[(3, &[9]), (32, &[2])]))].concat();
        let too_soon = books::bytes_of(&[&start[..], &two, &more].concat());
        let eight: Vec<Record> = (0..8).map(|name| Record::new(1, &[name])).collect();
        let ninth = books::bytes_of(&[&eight[..], &records(&[(3, &[1]), (12, &[0, 8]), (32, &[9]), (1, &[8])])].concat());
        for (book, number, place) in [(behind_goal, 3, 11), (too_soon, 4, 3), (ninth, 9, 11)] {
            let mut trial = self.trial_of("formulas anywhere", Vec::new());
            let refusal = trial.compare_reading(&book).err();
            trial.same("what is refused", &[("bytes", &book)], refusal, Some(Refusal { number, place }));
        }
        let mut buffer = in_front.clone();
        buffer.resize(60, 170);
        let mut trial = self.trial_of("entered behind a goal", in_front);
        for (record, answer) in [([3, 0, 7], Ok(Entered::Appended(7))), ([32, 0, 2], Err(Refusal { number: 3, place: 10 }))] {
            trial.compare_entry(&buffer, 40, &record);
            trial.same("entered behind a goal", &[], library::enter(&mut buffer.clone(), 40, &record), answer);
        }
    }

    /// Document 02, wish 2: the line of the goals for each number of goals that a book can have and each number of them reached; and
    /// the figures that are told there, or lie at the half or next to it.
    fn halves_to_even(&mut self) {
        let told = [(0, 0, 0), (1, 8, 12), (3, 8, 38), (5, 8, 62), (7, 8, 88), (3, 24, 12), (9, 24, 38), (5, 11, 45), (6, 11, 55)];
        for (reached, all) in (0..=32).flat_map(|all| (0..=all).map(move |reached| (reached, all))) {
            let mut trial = self.trial_of("halves to the even figure", with_reached(reached, all));
            let mut book = reference::read(&trial.book).expect("an accepted book");
            let mut table = [0; 25];
            trial.same("held", &[], library::survey(&trial.book, &mut table), Ok(1));
            for audience in Audience::ALL {
                let lines = book.lines(audience, &table);
                trial.compare_piece(audience, &table, &lines, lines.len() - 1, 100);
                if let Some((.., figure)) = told.iter().find(|case| (case.0, case.1) == (reached, all)) {
                    let line = format!("goals {reached} of {all}, {figure} per cent\n").into_bytes();
                    trial.same("the figure", &[], lines.last(), Some(&line));
                }
            }
        }
    }

    /// Document 02, wish 4: what follows from delegations, what is refused of them, and which derivations.
    fn delegations(&mut self) {
        let books = DELEGATIONS.iter().map(|(name, rest, places, goals)| (*name, [NAMES, rest].concat(), *places, *goals));
        let without_key: (_, _, &[usize], &[bool]) = ("without a key", WITHOUT_KEY.into(), &[15, 20, 29, 36], &[true, true]);
        for (name, book, held, goals) in books.chain([without_key]) {
            let mut trial = self.trial_of(name, unhex(&book));
            trial.run();
            let places = library::places(&trial.book).expect("an accepted book");
            let mut table = vec![9; places];
            trial.same("held", &[], library::survey(&trial.book, &mut table), Ok(held.len()));
            trial.holds("the survey", &[], (0..places).all(|place| table[place] == u8::from(held.contains(&place))));
            for (goal, reached) in goals.iter().enumerate() {
                trial.compare_proof(places * 8, places * 12, goal as u32, places, Ok((*reached, held.len())));
            }
        }
        let refusal = |told: Option<(u8, u64)>| told.map(|(number, place)| Refusal { number, place });
        for (rest, told) in READINGS {
            let mut trial = self.trial_of("what is refused of delegations", Vec::new());
            let book = unhex(&[NAMES, rest].concat());
            let answer = trial.compare_reading(&book).err();
            trial.same("what is refused of delegations", &[("bytes", &book)], answer, refusal(told));
        }
        for (goal, derivation, told) in CHECKS {
            let mut trial = self.trial_of("derivations with delegations", unhex(&[NAMES, DELEGATION].concat()));
            let mut book = reference::read(&trial.book).expect("an accepted book");
            let derivation = unhex(derivation);
            trial.compare_check(&mut book, goal, &derivation, Some(told.is_none()));
            let answer = library::check(&trial.book, goal, &derivation).err();
            trial.same("a derivation with a delegation", &[("derivation", &derivation)], answer, refusal(told));
        }
    }

    /// Conjunctions that double at each record, in a delegation; as many variables as keys; a server trusted for every key, or for each.
    fn doubled_delegations(&mut self) {
        for depth in [0, 1, 2, 5, 40, 79] {
            let is_alike = depth == 0;
            self.verdicts("doubled in a delegation", &books::doubled_delegation(depth), &[true, true, is_alike]);
        }
        self.verdicts("many variables", &books::many_variables(), &[true, true]);
        for spread in [1, 8] {
            self.verdicts("trusted for every key", &books::trusted_server(false, spread), &[true]);
            self.verdicts("trusted for each key", &books::trusted_server(true, spread), &[true]);
        }
    }

    /// Document 02, wish 5: what is told there of the guest's listings and of texts of one fact.
    fn guests(&mut self) {
        self.guest_listings();
        self.guest_texts();
        let trial = self.trial_of("a refused book for a guest", vec![0]);
        let answer = library::guest_text(&trial.book, &[], &mut []);
        trial.same("guest's text in a refused book", &[], answer, Err(Refusal { number: 1, place: 0 }));
    }

    fn guest_listings(&mut self) {
        for (name, book, told) in GUEST_LISTINGS {
            let mut trial = self.trial_of(name, unhex(book));
            trial.run();
            let mut table = vec![0; library::places(&trial.book).expect("an accepted book")];
            library::survey(&trial.book, &mut table).expect("a large table");
            let listing = trial.guest_listing_of(&trial.book.clone(), &table);
            trial.same("guest's listing", &[], String::from_utf8_lossy(&listing).as_ref(), told);
        }
    }

    /// Texts that are too long for the owner or for the guest alone, that just fit, and that are refused before that is looked at.
    fn guest_texts(&mut self) {
        for (audience, book, fact, length, told) in GUEST_TEXTS {
            let mut trial = self.trial_of("texts for a guest", unhex(book));
            let mut book = reference::read(&trial.book).expect("an accepted book");
            let fact = unhex(fact);
            trial.compare_text_in(audience, &mut book, &fact, length);
            let answer = text_for(audience)(&trial.book, &fact, &mut vec![0; length]);
            let told = told.map_err(|(number, place)| Refusal { number, place });
            trial.same("a text for a guest, or for the owner", &[("fact", &fact)], answer, told);
        }
    }

    /// Document 02, wish 7: what is told there of ten books, with a buffer of 16 bytes; and that a book is refused before its buffer.
    fn honest_senders(&mut self) {
        for (name, book, told) in REPORTS {
            let mut trial = self.trial_of(name, unhex(book));
            trial.run();
            report_told(&trial, &unhex(told), 16);
        }
        let trial = self.trial_of("a report on a refused book", vec![0]);
        let answer = library::honesty(&trial.book, &mut []);
        trial.same("a report on a refused book", &[], answer, Err(Refusal { number: 1, place: 0 }));
    }

    /// The longest report, of 8,064 bytes; a book at the limits with as long walks, where half of the senders believe what they send; and 250
    /// conjunctions of which each has the one before twice: whoever walked their parts each time would not come to an end.
    fn long_reports(&mut self) {
        let (draft, named) = senders::longest_report();
        let pairs = (1..=16).flat_map(|message| named.iter().flat_map(move |formula| [message, *formula]));
        let told: Vec<u8> = pairs.flat_map(u16::to_be_bytes).collect();
        let mut trial = self.trial("the longest report", &draft);
        trial.same("records at the limits", &[], (draft.formulas.len(), draft.messages.len()), (256, 16));
        trial.run();
        trial.same("the length of the longest report", &[], told.len(), 16 * 126 * 4);
        report_told(&trial, &told, 8200);
        let mut trial = self.trial("long walks", &senders::long_walks());
        trial.run();
        let answer = library::honesty(&trial.book, &mut vec![0; 16_384]);
        trial.same("half of the senders are honest", &[], answer, Ok(8 * 113 * 4));
        for depth in [0, 1, 20, 250] {
            let mut trial = self.trial("doubled in a section", &senders::doubled(depth));
            trial.run();
            report_told(&trial, &[0, 1, 0, 3], 16);
        }
    }

    /// The sentence of every refusal, and of numbers that are none, into buffers of every length up to the longest sentence.
    fn refusals_in_words(&mut self) {
        let trial = self.trial_of("refusals in words", Vec::new());
        for number in (0..=40).chain([255, 256, 257, 1 << 16, u32::MAX - 1, u32::MAX]) {
            for length in 0..=90 {
                let before = &trial.noise[..length];
                let mut lent = Lent::of(before);
                let library = library::reason(number, lent.slice());
                let reference = reference::reason(number, length);
                let mut after = before.to_vec();
                if let Ok(sentence) = reference {
                    after[..sentence.len()].copy_from_slice(sentence);
                }
                let (number_bytes, length_bytes) = (number.to_be_bytes(), length.to_be_bytes());
                let inputs = [("number", &number_bytes[..]), ("buffer length", &length_bytes[..])];
                trial.same("reason: the answer", &inputs, library, reference.map(|sentence| sentence.len()));
                trial.holds("reason: the buffer afterwards", &inputs, lent.content() == after && lent.has_margins());
            }
        }
    }

    fn empty_book(&mut self) {
        let mut trial = self.trial("the empty book", &Draft::new(0));
        trial.run();
        trial.same("places of the empty book", &[], library::places(&[]), Ok(0));
        trial.same("survey of the empty book", &[], library::survey(&[], &mut []), Ok(0));
        trial.same("report on the empty book", &[], library::honesty(&[], &mut []), Ok(0));
    }

    /// 256 formulas pass, the 257th is 9; 8 principals pass, the 9th is 9.
    fn limits(&mut self) {
        let formulas: Vec<Record> = (0..257).map(|name| Record::new(3, &[name])).collect();
        let variables: Vec<Record> = (0..257).map(|name| Record::new(16, &[name])).collect();
        let principals: Vec<Record> = (0..9).map(|name| Record::new(1, &[name])).collect();
        for (records, most) in [(formulas, 256), (variables, 256), (principals, 8)] {
            let mut trial = self.trial("at the limits", &Draft::new(0));
            let pass = trial.compare_reading(&books::bytes_of(&records[..most]));
            trial.holds("as many as there may be", &[], pass.is_ok());
            let above = trial.compare_reading(&books::bytes_of(&records)).err();
            trial.same("one more", &[], above, Some(Refusal { number: 9, place: most as u64 }));
        }
        for seed in 0..40 {
            let book = books::full(&mut Rng::new(seed));
            self.trial("a full book", &book).run();
            let above = books::one_above(&mut Rng::new(seed));
            let mut trial = self.trial("one above", &Draft::new(0));
            let refusal = trial.compare_reading(&above).err();
            trial.same("one above", &[("bytes", &above)], refusal.map(|refusal| refusal.number), Some(9));
        }
    }

    /// As many steps as a table of the checker has places, one less and one more; the last but one has the step before it for a premise.
    fn derivations_by_size(&mut self) {
        let mut draft = certificate(2);
        draft.goals = vec![[0, 12]];
        let mut trial = self.trial("as many steps as places", &draft);
        let mut book = reference::read(&trial.book).expect("an accepted book");
        let given = Step { kind: 64, fact: [3, 0, 0, 0, 0, 0, 5], numbers: [1, 0] };
        for size in [32u16, 512, 8192] {
            for steps in size - 1..=size + 1 {
                let joined = |premise| Step { kind: 78, fact: [3, 0, 0, 0, 0, 0, 7], numbers: [premise, 0] };
                let mut derivation = vec![given; usize::from(steps) - 2];
                derivation.extend([joined(steps - 3), given]);
                trial.compare_check(&mut book, 0, &written(&derivation), Some(true));
                derivation[usize::from(steps) - 2] = joined(steps - 2);
                trial.compare_check(&mut book, 0, &written(&derivation), Some(false));
            }
        }
    }

    /// 65,535 steps pass; whatever stands behind them is 21.
    fn longest_derivations(&mut self) {
        let mut draft = certificate(2);
        draft.goals = vec![[0, 10]];
        let mut trial = self.trial("65,535 steps", &draft);
        let mut book = reference::read(&trial.book).expect("an accepted book");
        let step = Step { kind: 64, fact: [2, 0, 0, 0, 0, 0, 9], numbers: [0, 0] };
        let mut derivation = written(&vec![step; reference::MOST_STEPS]);
        trial.compare_check(&mut book, 0, &derivation, Some(true));
        let cut = derivation.len() - 1;
        trial.compare_check(&mut book, 0, &derivation[..cut], Some(false));
        for more in [&[0][..], &[64], &written(&[step])] {
            let length = derivation.len();
            derivation.extend_from_slice(more);
            trial.compare_check(&mut book, 0, &derivation, Some(false));
            let answer = library::check(&trial.book, 0, &derivation);
            trial.same("one step more", &[], answer, Err(Refusal { number: 21, place: 65_535 }));
            derivation.truncate(length);
        }
    }

    /// Texts of 4,094 to 4,098 bytes as one audience is shown them, of which those up to 4,096 are written.
    fn longest_texts(&mut self) {
        for audience in Audience::ALL {
            (4094..=4098).for_each(|length| self.longest_text(audience, length));
        }
    }

    fn longest_text(&mut self, audience: Audience, length: usize) {
        let draft = books::long_text(audience, length - "P1 sees ".len(), &mut Rng::new(length as u64));
        let whole = draft.formulas[draft.formulas.len() - 1].fields[1];
        let fact = [1, 0, 0, 0, 0, 0, whole as u8];
        let mut trial = self.trial("long text", &draft);
        let mut book = reference::read(&trial.book).expect("an accepted book");
        let text = trial.compare_text_in(audience, &mut book, &fact, 5000);
        trial.same("length of a long text", &[], text, (length <= 4096).then_some(length));
        trial.compare_text_in(audience, &mut book, &fact, length);
        trial.compare_text_in(audience, &mut book, &fact, length - 1);
    }
}

/// P1, P2, P3, K1, K2, N1, V1, V2: formulas 0 to 7 of the books below.
const NAMES: &str = "010001 010002 010003 020001 020002 030001 100001 100002";

/// P1 believes that for every V1 P3 controls that V1 is shared by P1 and P2, and that P3 believes it of K1.
const DELEGATION: &str = "08000000060001 0f00020008 1100060009 0c0000000a 08000000030001 0c0002000c 0c0000000d 0c0000000c 0f0002000c \
    0c00000010 0900030001 0f00020012 0c00000013 20000b 20000e 220000000f 2200000011 2200000014";

/// A name, what stands behind the names, the places that hold 1, and for each goal whether it is reached.
type Delegated = (&'static str, &'static str, &'static [usize], &'static [bool]);

const DELEGATIONS: [Delegated; 6] = [
    ("delegation over any key", DELEGATION, &[91, 109, 116, 145], &[true, true, false]),
    ("one key throughout", "0900060000 0900060001 0400080009 0f0002000a 110006000b 0900030000 0900040001 04000d000e 0900030001 \
            04000d0010 0c0000000c 0c0002000f 0c00000013 0c00020011 0c00000015 0c0000000f 0c00000011 200012 200014 \
            200016 2200000017 2200000018", &[109, 118, 125, 134, 143, 145, 152, 154, 161], &[false, true]),
    ("no freshness of what has a variable", "0900060001 0400050008 0b0005 0c0000000a 20000b", &[47], &[]),
    ("another's delegation", "08000000060001 0f00020008 1100060009 0c0001000a 0c0000000b 08000000030001 0f0002000d 0c0001000e \
            0c0000000f 20000c 2200000010", &[97], &[false]),
    ("no other variable", "0900060001 0f00020008 1100060009 0900070001 0f0002000b 110007000c 0c0000000a 0c0000000d 20000e \
            220000000f", &[91], &[false]),
    ("clear by what is controlled", "0900060001 0f00020008 1100060009 05000500060002 0f0002000b 110006000c 0b000a 0e0002000a 0c0000000e \
            0c0000000f 0c0002000a 0c00000012 0b000d 0e0002000d 0c00000014 0c00000015 0c0002000d 0c00000018 200010 \
            200011 200016 200017 2200000013 2200000019", &[92, 95, 98, 119, 122], &[true, false]),
];

/// Without a key: for every V1 P2 controls N1, in which V1 does not stand.
const WITHOUT_KEY: &str = "010001 010002 030001 100001 0f00010002 1100030004 0c00000005 0c00010002 0c00000007 0c00000002 0c00000004 200006 \
    200008 2200000009 220000000a";

/// What stands behind the names, and the refusal.
const READINGS: [(&str, Option<(u8, u64)>); 10] = [
    ("08000000060001 0f00020008 1100050009", Some((5, 10))),
    ("08000000060001 0f00020008 1100060008", Some((5, 10))),
    ("08000000060001 0f00020008 1100070009", Some((23, 10))),
    ("08000000060001 0f00020008 1100060009 0f0001000a 110006000b", Some((23, 12))),
    ("0b0006", Some((5, 8))),
    ("0900060001 0c00000008 200009", Some((22, 10))),
    ("0900060001 0c00000008 200008", Some((10, 10))),
    ("0900060001 0c00000008 21000000000008", Some((7, 10))),
    ("0900060001 0c00000008 2200010009", Some((22, 10))),
    ("08000000060001 0f00020008 1100060009 2100000001000a", None),
];

/// Goals of the first of these books, derivations of them, and the refusal.
const CHECKS: [(u32, &str, Option<(u8, u64)>); 5] = [
    (0, "400200000000000a0000 400500000002000c0001 560200000000000c00000001", None),
    (0, "400200000000000a0000 400500000002000c0001 560200000000000c00010000", Some((19, 2))),
    (1, "400200000000000a0000 57020000000000100000", None),
    (1, "400200000000000a0000 57020000000000090000", Some((17, 1))),
    (0, "400200000000000a0000 400500000002000c0001 580200000000000c00000001", Some((16, 2))),
];

/// A name, the book, and its guest's listing. The second is the first with N777 for N1.
const GUEST_LISTINGS: [(&str, &str, &str); 3] = [
    ("the certificate for a guest", "010001 010002 010003 020001 020002 030001 0900030001 0400060005 06000700040000 0900040002 0c00000009 \
            0b0005 0c0000000b 0f00020006 0c0000000d 0c00000006 20000a 20000c 20000e 21000200000008 220001000f", OF_CERTIFICATE),
    ("another datum", "010001 010002 010003 020001 020002 030309 0900030001 0400060005 06000700040000 0900040002 0c00000009 \
            0b0005 0c0000000b 0f00020006 0c0000000d 0c00000006 20000a 20000c 20000e 21000200000008 220001000f", OF_CERTIFICATE),
    ("two data and a key", TWO_DATA, "0 P1 believes N#1\n0 P1 believes N#2\n0 P1 believes K7 of P1\n0 P1 believes (N#1, N#2)\n\
            0 P1 believes ((N#1, N#2), K7 of P1)\nheld 5\ngoals 0 of 0, 0 per cent\n"),
];

const OF_CERTIFICATE: &str = "0 P1 believes fresh N#5\n0 P1 believes fresh (K1 of P2, N#5)\n1 P1 sees {(K1 of P2, N#5)}K2' from P1\n\
    0 P1 believes K2 of P3\n0 P1 believes P3 controls K1 of P2\nheld 5\ngoals 0 of 1, 0 per cent\n";

/// P1 believes N9, N4 and that K7 is his: the data are formulas 1 and 2.
const TWO_DATA: &str = "010001 030009 030004 020007 0900030000 0400010002 0400050004 0c00000006 200007";

/// N65535 is combined with itself nine times over: 4,102 bytes to the owner, 2,566 to a guest.
const LONGER_FOR_OWNER: &str = "010001 010002 03ffff 0700020002 0700030003 0700040004 0700050005 0700060006 0700070007 0700080008 \
    0700090009 07000a000a 2100000001000b";

/// N1 is combined with itself more often: 3,590 bytes to the owner, and more than 4,096 to a guest.
const LONGER_FOR_GUEST: &str = "010001 010002 030001 0700020002 0700030003 0700040004 0700050005 0700060006 0700070007 0700080008 \
    0700090009 07000a000a 07000b000a 07000c0009 2100000001000d";

/// For whom, the book, the fact, the length of the buffer, and the length of the text or the refusal. The last facts are malformed, a
/// belief that stands unopened and one without its last byte: that is said before the buffer is looked at.
type GuestText = (Audience, &'static str, &'static str, usize, Result<usize, (u8, u64)>);

const GUEST_TEXTS: [GuestText; 11] = [
    (Audience::Owner, LONGER_FOR_OWNER, "0100010000000b", 5000, Err((15, 0))),
    (Audience::Guest, LONGER_FOR_OWNER, "0100010000000b", 5000, Ok(2566)),
    (Audience::Owner, LONGER_FOR_GUEST, "0100010000000d", 5000, Ok(3590)),
    (Audience::Guest, LONGER_FOR_GUEST, "0100010000000d", 5000, Err((15, 0))),
    (Audience::Guest, TWO_DATA, "02000000000005", 21, Err((15, 0))),
    (Audience::Guest, TWO_DATA, "02000000000005", 22, Ok(22)),
    (Audience::Guest, TWO_DATA, "02000000000005", 23, Ok(22)),
    (Audience::Guest, TWO_DATA, "02000000000007", 0, Err((17, 0))),
    (Audience::Guest, TWO_DATA, "02000000000007", 5000, Err((17, 0))),
    (Audience::Guest, TWO_DATA, "020000000000", 0, Err((17, 0))),
    (Audience::Guest, TWO_DATA, "020000000000", 5000, Err((17, 0))),
];

/// A name, the book, and its report.
const REPORTS: [(&str, &str, &str); 10] = [
    (
        "the certificate: its sender is not known to believe it",
        "010001 010002 010003 020001 020002 030001 0900030001 0400060005 06000700040002 0900040002 0c00000009 \
            0b0005 0c0000000b 0f00020006 0c0000000d 0c00000006 20000a 20000c 20000e 21000200000008 220001000f",
        "00010006",
    ),
    (
        "a section from somebody else is skipped",
        "010001 010002 010003 020001 020002 030001 0900030001 0400060005 06000700040000 0900040002 0c00000009 \
            0b0005 0c0000000b 0f00020006 0c0000000d 0c00000006 20000a 20000c 20000e 21000200000008 220001000f",
        "",
    ),
    (
        "what message 1 taught him he may send in message 2",
        "010001 010002 020001 030001 0900020000 08000000020001 05000400020000 05000400020001 0c00010005 \
            0f00000004 0c00010009 0b0004 0c0001000b 200008 20000a 20000c 21000000010006 21000100000007",
        "00010004",
    ),
    (
        "what message 2 teaches him he may not send in message 1",
        "010001 010002 020001 030001 0900020000 08000000020001 05000400020000 05000400020001 0c00010005 \
            0f00000004 0c00010009 0b0004 0c0001000b 200008 20000a 20000c 21000100000007 21000000010006",
        "00010004 00020004",
    ),
    (
        "in the open, in Y of a combination and in another's section",
        "010001 010002 020001 030001 0900020000 0b0003 05000400020001 0700060005 0400070004 0400080005 \
            06000900020000 04000a0005 0700050004 04000b000c 2100000001000d",
        "00010004 00010005",
    ),
    (
        "he believes it, and sends that he believes it",
        "010001 010002 020001 0900020000 0c00000003 05000400020000 0c00000004 200004 21000000010005",
        "00010004",
    ),
    (
        "he believes that he believes it",
        "010001 010002 020001 0900020000 0c00000003 05000400020000 0c00000004 200004 200006 21000000010005",
        "",
    ),
    (
        "he saw it, and sends that he sees it",
        "010001 010002 020001 030001 0d00000003 05000400020000 21000100000003 21000000010005",
        "00020004",
    ),
    (
        "a delegation is asked about",
        "010001 010002 020001 100001 0900030001 0f00000004 1100030005 06000600020000 0c00000006 21000000010007",
        "00010006",
    ),
    (
        "a delegation that is believed",
        "010001 010002 020001 100001 0900030001 0f00000004 1100030005 06000600020000 0c00000006 200008 \
            21000000010007",
        "",
    ),
];

/// The bytes of hexadecimal digits, between which blanks may stand.
fn unhex(digits: &str) -> Vec<u8> {
    let digits: Vec<u8> = digits.chars().filter_map(|digit| digit.to_digit(16)).map(|digit| digit as u8).collect();
    digits.chunks(2).map(|pair| pair[0] * 16 + pair[1]).collect()
}

/// A book with so many goals, of which so many are reached: one belief is assumed, another is not.
fn with_reached(reached: usize, all: usize) -> Vec<u8> {
    let start = [(1, &[1][..]), (3, &[1]), (3, &[2]), (12, &[0, 1]), (12, &[0, 2]), (32, &[3])];
    let goals = (0..all).map(|goal| Record::new(34, &[0, if goal < reached { 3 } else { 4 }]));
    books::bytes_of(&start.iter().map(|(kind, fields)| Record::new(*kind, fields)).chain(goals).collect::<Vec<_>>())
}

/// The report as it is told: at the front of a buffer of this length, in which the bytes count up from 200, and into one that is a byte short.
fn report_told(trial: &Trial<'_>, told: &[u8], length: usize) {
    let before: Vec<u8> = (0..length).map(|i| (200 + i) as u8).collect();
    let mut report = before.clone();
    trial.same("the length of the report", &[], library::honesty(&trial.book, &mut report), Ok(told.len()));
    trial.same("the report, and the bytes behind it", &[], hex(&report), hex(&[told, &before[told.len()..]].concat()));
    if !told.is_empty() {
        let mut short = before[1..told.len()].to_vec();
        let answer = library::honesty(&trial.book, &mut short);
        trial.same("a report that is a byte short", &[], answer, Err(Refusal { number: 14, place: 0 }));
        trial.holds("nothing of a report that is a byte short", &[], short == before[1..told.len()]);
    }
}

/// 300 KB of stack are enough for every call, as the header says: otherwise the program breaks off here.
fn small_stack() {
    let drafts = [books::crowded(), books::nested(), books::zigzag_chain(8), books::doubled_delegation(79), senders::long_walks()];
    for draft in drafts {
        let calls = std::thread::Builder::new().stack_size(300_000).spawn(move || call_all(&draft.bytes()));
        calls.expect("a thread").join().expect("calls that end");
    }
}

/// Every operation once, on a book with a goal.
fn call_all(book: &[u8]) {
    let places = library::places(book).expect("an accepted book");
    let (mut table, mut work, mut derivation) = (vec![0; places], vec![0; places * 8], vec![0; places * 12]);
    let mut text = vec![0; 4096];
    library::survey(book, &mut table).expect("a large table");
    library::honesty(book, &mut [0; 16_384]).expect("a large report");
    let proved = library::prove(book, 0, &mut work, &mut derivation).expect("large buffers");
    let _ = library::check(book, 0, &derivation[..proved.bytes]);
    let formulas = library::read(book).expect("an accepted book").formulas;
    for x in 0..formulas {
        let _ = library::text(book, &[1, 0, 0, 0, 0, 0, x as u8], &mut text);
        let _ = library::guest_text(book, &[1, 0, 0, 0, 0, 0, x as u8], &mut text);
    }
    Audience::ALL.into_iter().for_each(|audience| list_all(audience, book, &table));
    let mut buffer = book.to_vec();
    let _ = library::enter(&mut buffer, book.len(), &book[book.len() - 5..]);
}

/// A whole listing, line by line or in larger pieces.
fn list_all(audience: Audience, book: &[u8], table: &[u8]) {
    let (mut from, mut piece) = (0, vec![0; LONG_LINE]);
    while let Ok(Some((_, next))) = list_for(audience)(book, table, from, &mut piece) {
        from = next;
    }
}

/// The fact at a place of the certificate's survey: 3 principals, 0 to 2, and 16 formulas.
fn fact_at(place: usize) -> [u8; 7] {
    let (rest, column) = (place / 9, place % 9);
    let (p, x) = (rest / 16, rest % 16);
    let (mode, q) = match column {
        0..=2 => (column + 1, 0),
        3..=5 => (4, column - 3),
        _ => (5, column - 6),
    };
    [mode as u8, 0, p as u8, 0, q as u8, 0, x as u8]
}
