//! `states COUNT SEED`: makes random states, sound and unsound, and one call on
//! each, and compares what the proved and the independent agent do. Exits with
//! 1 on the first difference, and if a call never had an answer that it can
//! have.

use bench::proved::{self, Words};
use bench::states::agents::{answer, call_independent, call_proved, Answer, Form, Ours, Theirs};
use bench::states::call::{Call, Lent};
use bench::states::change::change;
use bench::states::counts::Counts;
use bench::states::spoil::spoil;
use bench::states::words::{devices_after, devices_in, fill_free, meant, words_of};
use bench::states::words::{orders_after, orders_in};
use bench::states::{fronts, make};
use independent::device::DEVICE_WORDS;
use independent::generate::random::Random;
use independent::{Front, State};
use std::fmt::Debug;
use std::panic::{catch_unwind, AssertUnwindSafe};
use std::process::ExitCode;

/// A state in both agents' forms, and a call on it.
struct Case {
    state: State,
    words: Words,
    /// What in the words has a value that the other form does not have.
    spoilt: Option<&'static str>,
    front: proved::Front,
    /// The front in the other form, if it has one.
    other_front: Option<Front>,
    call: Call,
    lent: Lent,
}

/// A call's answer and what it left.
struct Outcome<F> {
    answer: Answer,
    form: F,
    lent: Lent,
}

impl Case {
    /// A sound state, in two thirds of the cases with one or two changes. In
    /// half of the cases the words that have no meaning in it are random. A few
    /// have a spoilt word.
    fn random(random: &mut Random) -> Case {
        let mut state = make::sound(random);
        for _ in 0..random.pick(&[0, 0, 0, 1, 1, 1, 1, 2, 2]) {
            change(random, &mut state);
        }
        let mut words = words_of(&state);
        if random.once_in(2) {
            let shift = random.below(64);
            fill_free(&mut words, || random.next() >> shift);
        }
        let mut front = proved::Front::default();
        Case {
            spoilt: spoil(random, &mut words),
            words,
            call: Call::random(random, &state, &mut front),
            lent: Lent::random(random, &state),
            state,
            other_front: fronts::form_of(&front),
            front,
        }
    }

    /// The call on one agent's form.
    fn run<F>(&self, mut form: F, call: fn(&mut F, &Call, &mut Lent) -> Answer) -> Outcome<F> {
        let mut lent = self.lent.clone();
        Outcome {
            answer: call(&mut form, &self.call, &mut lent),
            form,
            lent,
        }
    }

    /// What the independent agent does; for words that it cannot have, what 01
    /// says of a state that is not sound.
    fn expected(&self) -> Outcome<Theirs> {
        let form = Form {
            state: self.state,
            front: self.other_front.clone().unwrap_or_default(),
        };
        if !self.is_beyond() {
            return self.run(form, call_independent);
        }
        let refusal = match self.call {
            Call::Show(..) => 0,
            _ => 8,
        };
        Outcome {
            answer: answer(refusal, 0, 0),
            form,
            lent: self.lent.clone(),
        }
    }

    fn is_setup(&self) -> bool {
        matches!(self.call, Call::Setup(..))
    }

    /// Whether the call is given words that the independent agent cannot have.
    fn is_beyond(&self) -> bool {
        let front = self.call.is_of_front() && self.other_front.is_none();
        front || self.spoilt.is_some() && !self.is_setup()
    }

    /// Whether the words after the call are those of the other state, and of
    /// devices and orders also those without a meaning: as they were given to the
    /// call, but for a delay that a new order or take writes.
    fn states_agree(&self, ours: &Words, theirs: &State) -> bool {
        if self.is_beyond() {
            return *ours == self.words;
        }
        let exact = match &self.call {
            Call::Setup([_, devices, _]) => {
                let listed = &devices[..theirs.devices.count * DEVICE_WORDS];
                devices_in(ours)[1..].starts_with(listed)
            }
            _ => {
                let orders = orders_after(&self.words, &self.state.orders, &theirs.orders);
                devices_in(ours) == devices_after(&self.words, theirs) && orders_in(ours) == orders
            }
        };
        exact && meant(*ours) == meant(words_of(theirs))
    }

    /// Whether the front after the call is the other one: its words, and its bytes
    /// that are kept. Only a piece may touch any byte.
    fn fronts_agree(&self, ours: &proved::Front, theirs: &Front) -> bool {
        let untouched = matches!(self.call, Call::Piece(..)) || ours.bytes == self.front.bytes;
        untouched && (self.is_beyond() || fronts::form_of(ours).as_ref() == Some(theirs))
    }

    /// What differs between the two, or from what 01 says of refusals; none if
    /// nothing does. A refused call other than setup must leave
    /// all words as they were, and all bytes of the front; after an accepted one
    /// words without a meaning count as 0, but for devices and orders, and bytes
    /// after those kept are free.
    fn difference(&self, ours: &Outcome<Ours>, theirs: &Outcome<Theirs>) -> Option<&'static str> {
        let kept = ours.answer.refusal != 0 && !self.is_setup();
        let given = (&self.words, &self.front, &self.state, &self.lent);
        let (form, other) = (&ours.form, &theirs.form);
        let tests = [
            (ours.answer == theirs.answer, "the answers differ"),
            (
                ours.lent.journal == theirs.lent.journal,
                "the journals differ",
            ),
            (ours.lent.output == theirs.lent.output, "the outputs differ"),
            (ours.lent.run == theirs.lent.run, "the runs differ"),
            (
                self.states_agree(&form.state, &other.state),
                "the states differ",
            ),
            (
                self.fronts_agree(&form.front, &other.front),
                "the fronts differ",
            ),
            (
                !kept || given == (&form.state, &form.front, &other.state, &ours.lent),
                "a refused call changed something",
            ),
        ];
        let failed = tests.iter().find(|(passed, _)| !passed);
        failed.map(|(_, name)| *name)
    }

    fn print(&self) {
        println!("state {:?}", self.state);
        println!("words {:?}", self.words);
        println!("front {:?} {:?}", self.front.words, self.other_front);
        println!("call {:?}", self.call);
        println!(
            "journal of {} words, output of {} bytes, run of {} words",
            self.lent.journal_words, self.lent.output_bytes, self.lent.run_words
        );
    }

    /// Compares the agents; none, after a report, if they differ.
    fn compare(&self) -> Option<(Answer, Lent)> {
        let form = Form {
            state: self.words,
            front: self.front.clone(),
        };
        let ours = self.run(form, call_proved);
        let theirs = self.expected();
        let Some(name) = self.difference(&ours, &theirs) else {
            return Some((ours.answer, ours.lent));
        };
        println!("{name}");
        self.print();
        let (form, other) = (&ours.form, &theirs.form);
        println!("proved {:?} {:?}", ours.answer, form.state);
        println!("independent {:?} {:?}", theirs.answer, other.state);
        let words = words_of(&other.state);
        print_unlike("state word", &meant(form.state), &meant(words));
        println!(
            "fronts: proved {:?} {:?}, independent {:?}",
            form.front.words,
            fronts::form_of(&form.front),
            other.front
        );
        print_unlike("journal word", &ours.lent.journal, &theirs.lent.journal);
        print_unlike("output byte", &ours.lent.output, &theirs.lent.output);
        print_unlike("run word", &ours.lent.run, &theirs.lent.run);
        None
    }
}

/// Prints the places at which two runs differ.
fn print_unlike<T: Debug + PartialEq>(name: &str, ours: &[T], theirs: &[T]) {
    for (at, (one, other)) in ours.iter().zip(theirs).enumerate() {
        if one != other {
            println!("{name} {at}: proved {one:?}, independent {other:?}");
        }
    }
}

/// Compares the agents and counts; false, after a report, if they differ or the
/// independent agent panics.
fn check(case: &Case, counts: &mut Counts) -> bool {
    let checked = catch_unwind(AssertUnwindSafe(|| {
        let answer = case.compare();
        let given = (&case.state, case.spoilt, &case.front);
        answer.map(|(answer, lent)| counts.add(given, &case.call, answer, &lent))
    }));
    if checked.is_err() {
        println!("the independent agent panicked");
        case.print();
    }
    matches!(checked, Ok(Some(())))
}

fn main() -> ExitCode {
    let numbers = std::env::args().skip(1).map(|word| word.parse());
    let Ok(Ok([count, seed])) = numbers
        .collect::<Result<Vec<u64>, _>>()
        .map(<[u64; 2]>::try_from)
    else {
        eprintln!("states COUNT SEED");
        return ExitCode::from(2);
    };
    let mut random = Random::new(seed);
    let mut counts = Counts::default();
    for number in 1..=count {
        let case = Case::random(&mut random);
        if !check(&case, &mut counts) {
            println!("at state {number} of seed {seed}");
            return ExitCode::FAILURE;
        }
    }
    counts.print();
    match counts.are_whole() {
        true => ExitCode::SUCCESS,
        false => ExitCode::FAILURE,
    }
}
