//! What the judge must say, by brute force over the replies of the real writer.

use crate::answer::Answer;
use crate::compare::{Cases, Expected};
use crate::device::Device;
use crate::limits;
use crate::oracle::RealWriter;
use crate::random::Random;
use crate::request;
use crate::session::{Call, Kind};
use crate::trace::{Claim, Trace, Traced};
use crate::{damage, large};
use real::io::writer_over;
use std::collections::{BTreeSet, HashMap};
use std::rc::Rc;

/// The one error code of the small worlds.
const CODE: u32 = 5;

/// Where a run can stand between two calls: the bytes held, and those out.
type Place = (Vec<u8>, Vec<u8>);

/// What one call can do from a place: the answer, what is then held, and what went out.
type Outcomes = Rc<BTreeSet<(Claim, Vec<u8>, Vec<u8>)>>;

/// One capacity, and what was found of its calls so far.
struct World {
    capacity: usize,
    /// How many replies one call may take. Two are enough; were they too few, the port would say
    /// possible where this says impossible, and the run would fail.
    replies: usize,
    known: HashMap<(Vec<u8>, Vec<u8>, bool), Outcomes>,
}

impl World {
    /// Every outcome of one call (`None`: a flush), over every script of the small alphabet.
    fn outcomes(&mut self, held: &[u8], slice: Option<&[u8]>) -> Outcomes {
        let key = (held.to_vec(), slice.unwrap_or_default().to_vec(), slice.is_some());
        if let Some(known) = self.known.get(&key) {
            return known.clone();
        }
        let call = slice.map_or(Call::Flush, |slice| Call::Write(slice.to_vec()));
        let mut found = BTreeSet::new();
        let offered = held.len().max(slice.map_or(0, <[u8]>::len)) as u32;
        let replies: Vec<u32> = (0..=offered)
            .chain([65_535, limits::INTERRUPTED, limits::INTERRUPTED + CODE])
            .collect();
        self.scripts(held, &call, &replies, &mut vec![], &mut found);
        let found = Rc::new(found);
        self.known.insert(key, found.clone());
        found
    }

    fn scripts(
        &self,
        held: &[u8],
        call: &Call,
        replies: &[u32],
        script: &mut Vec<u32>,
        found: &mut BTreeSet<(Claim, Vec<u8>, Vec<u8>)>,
    ) {
        let mut storage = held.to_vec();
        storage.resize(self.capacity, 0);
        let device = Device::writing(script.clone());
        let mut writer = RealWriter::Plain(writer_over(device, &storage, held.len()));
        let answer = writer.run(call);
        let (held_after, device) = writer.into_parts();
        if device.calls == device.used {
            found.insert((claimed(answer), held_after, device.medium));
        } else if script.len() < self.replies {
            // The run met the script's end, which no trace can claim: give it another reply.
            for &reply in replies {
                script.push(reply);
                self.scripts(held, call, replies, script, found);
                script.pop();
            }
        }
    }
}

fn claimed(answer: Answer) -> Claim {
    match answer {
        Answer::Count(n) => Claim::Ok(n as u32),
        Answer::Done => Claim::Ok(0),
        Answer::Interrupted => Claim::Interrupted,
        Answer::Zero => Claim::Zero,
        Answer::Error(code) => Claim::Error(code),
        other => panic!("no trace has {other}"),
    }
}

/// All traces of 1 to `calls` calls with slices to capacity + 2, all claims, and all cards that are
/// a beginning of what was answered, and some that are none.
pub fn small(to: &mut dyn Cases, calls: usize) {
    for capacity in 0..=3 {
        let mut world = World { capacity, replies: 4, known: HashMap::new() };
        let start = BTreeSet::from([(vec![], vec![])]);
        let mut trace = Trace { capacity, calls: vec![], card: vec![] };
        traces(to, &mut world, &mut trace, &start, calls);
    }
}

fn traces(
    to: &mut dyn Cases,
    world: &mut World,
    trace: &mut Trace,
    places: &BTreeSet<Place>,
    calls: usize,
) {
    cards(to, trace, places);
    if calls == 0 || to.over() {
        return;
    }
    for length in 0..=world.capacity + 2 {
        let slice = slice(trace.calls.len(), length);
        for claim in claims(Some(length as u32)) {
            let next = step(world, places, Some(&slice), claim);
            trace.calls.push(Traced::Write(slice.clone(), claim));
            traces(to, world, trace, &next, calls - 1);
            trace.calls.pop();
        }
    }
    for claim in claims(None) {
        let next = step(world, places, None, claim);
        trace.calls.push(Traced::Flush(claim));
        traces(to, world, trace, &next, calls - 1);
        trace.calls.pop();
    }
}

/// Bytes that no other call of a short trace has.
fn slice(call: usize, length: usize) -> Vec<u8> {
    (0..length).map(|i| (call * 16 + i) as u8).collect()
}

/// The claims to try; an ok above the length is one.
fn claims(length: Option<u32>) -> impl Iterator<Item = Claim> {
    let most = length.map_or(0, |length| length + 1);
    let failures = [Claim::Interrupted, Claim::Zero, Claim::Error(CODE)];
    (0..=most).map(Claim::Ok).chain(failures)
}

fn step(
    world: &mut World,
    places: &BTreeSet<Place>,
    slice: Option<&[u8]>,
    claim: Claim,
) -> BTreeSet<Place> {
    let mut next = BTreeSet::new();
    for (held, medium) in places {
        for (answer, held_after, sent) in world.outcomes(held, slice).iter() {
            if *answer == claim {
                next.insert((held_after.clone(), [&medium[..], sent].concat()));
            }
        }
    }
    next
}

/// A random trace of a middle world, where most claims are such that the trace can go on.
pub fn middle(to: &mut dyn Cases, random: &mut Random) {
    let capacity = 4 + random.to(4);
    let mut world = World { capacity, replies: 2, known: HashMap::new() };
    let mut trace = Trace { capacity, calls: vec![], card: vec![] };
    let mut places = BTreeSet::from([(vec![], vec![])]);
    for i in 0..=random.below(8) {
        let slice = slice(i, random.to(capacity + 2));
        let slice = (!random.one_in(3)).then_some(&slice[..]);
        let all: Vec<Claim> = claims(slice.map(|slice| slice.len() as u32)).collect();
        let mut claim = random.pick(&all);
        if !random.one_in(16) && !places.is_empty() {
            let (held, _) = places.iter().nth(random.below(places.len())).unwrap();
            let outcomes = world.outcomes(held, slice);
            claim = outcomes.iter().nth(random.below(outcomes.len())).unwrap().0;
        }
        places = step(&mut world, &places, slice, claim);
        trace.calls.push(match slice {
            Some(slice) => Traced::Write(slice.to_vec(), claim),
            None => Traced::Flush(claim),
        });
    }
    cards(to, &mut trace, &places);
}

/// Traces that no session can carry, for the judge as a function.
pub fn long(to: &mut dyn Cases) {
    let length = limits::BYTES / limits::TRACE_CALLS;
    let write = |i: usize| Traced::Write(slice(i, length), Claim::Ok(length as u32));
    let calls: Vec<_> = (0..limits::TRACE_CALLS).map(write).collect();
    let mut trace = Trace { capacity: limits::CAPACITY, calls, card: vec![] };
    let whole = answered(&trace);
    let mut ask = |bytes: &[u8], line: String| {
        to.add([b"j", bytes].concat(), Expected::Exactly(line.into_bytes()));
    };
    // Sixteen writes fill the buffer and the next one sends it, so the last 1,024 bytes are held.
    for left in [0, 1, limits::CAPACITY - 1, limits::CAPACITY, limits::CAPACITY + 1] {
        trace.card = whole[..whole.len() - left].to_vec();
        let word = if left == limits::CAPACITY { "possible" } else { "impossible" };
        ask(&trace.bytes(), format!("judge {word}\n"));
    }
    let mut surplus = trace.bytes();
    let place = surplus.len();
    assert!(place > limits::SESSION - 1_000);
    surplus.push(0);
    ask(&surplus, format!("judge refused 7 at {place}\n"));
    ask(&surplus[..place - 1], format!("judge refused 7 at {}\n", place - 1));
}

fn cards(to: &mut dyn Cases, trace: &mut Trace, places: &BTreeSet<Place>) {
    let whole = answered(trace);
    let mut wrong = vec![[&whole[..], b"z"].concat()];
    if let Some((last, before)) = whole.split_last() {
        wrong.push([before, &[last ^ 1]].concat());
    }
    let beginnings = (0..=whole.len()).map(|n| whole[..n].to_vec());
    for card in beginnings.chain(wrong) {
        let possible = places.iter().any(|(_, medium)| *medium == card);
        trace.card = card;
        verdict(to, trace, possible);
    }
}

/// The answered prefixes in call order.
fn answered(trace: &Trace) -> Vec<u8> {
    let mut whole = Vec::new();
    for call in &trace.calls {
        if let Traced::Write(slice, Claim::Ok(n)) = call {
            whole.extend_from_slice(&slice[..slice.len().min(*n as usize)]);
        }
    }
    whole
}

fn verdict(to: &mut dyn Cases, trace: &Trace, possible: bool) {
    let line = if possible { "judge possible\n" } else { "judge impossible\n" };
    to.lines(&trace.session(), line.into());
}

/// A random run of the real writer as a trace: possible, and impossible once spoiled in a way that
/// no replies could explain.
pub fn large(to: &mut dyn Cases, random: &mut Random) {
    let capacity = large::capacity(random);
    let script = large::script(random, capacity);
    let mut writer = RealWriter::new(Kind::Writer, capacity, Device::writing(script));
    let mut trace = Trace { capacity, calls: vec![], card: vec![] };
    let count = if random.one_in(64) { limits::TRACE_CALLS } else { random.to(16) };
    let mut left = limits::BYTES;
    while trace.calls.len() < count {
        let spare = capacity - writer.plain().buffer().len();
        let edge = random.pick(&[capacity, spare, 1]);
        let length = (edge + 1).saturating_sub(random.below(3)).min(left);
        left -= length;
        let slice = large::bytes(random, length, 0);
        let flush = random.one_in(3);
        let call = if flush { Call::Flush } else { Call::Write(slice.clone()) };
        let answer = writer.run(&call);
        if answer == Answer::Error(0) {
            // The script's end cannot be claimed. What it did before is explained by an error.
            break;
        }
        let claim = claimed(answer);
        trace.calls.push(if flush { Traced::Flush(claim) } else { Traced::Write(slice, claim) });
    }
    let met_end = writer.device().calls > writer.device().used;
    let (held, device) = writer.into_parts();
    if met_end {
        return;
    }
    trace.card = device.medium;
    verdict(to, &trace, true);

    let mut damaged = trace.session();
    damage::spoil(&mut damaged, random);
    to.input(&damaged);

    let whole = answered(&trace);
    assert_eq!(whole, [&trace.card[..], &held].concat());
    match random.below(4) {
        0 if !trace.card.is_empty() => {
            let at = random.below(trace.card.len());
            trace.card[at] ^= 1 << random.below(8);
        }
        1 if whole.len() < limits::BYTES => {
            trace.card = whole;
            trace.card.push(random.word() as u8);
        }
        2 if whole.len() > capacity => {
            // More is missing than the buffer can hold.
            trace.card = whole[..random.below(whole.len() - capacity)].to_vec();
        }
        _ => {
            let Some(at) = trace.calls.iter().position(|c| matches!(c, Traced::Write(..))) else {
                return;
            };
            if let Traced::Write(slice, claim) = &mut trace.calls[at] {
                *claim = Claim::Ok(slice.len() as u32 + 1 + random.to(9) as u32);
            }
        }
    }
    verdict(to, &trace, false);
}

/// The rows of the bench sheet on traces.
pub fn rows(to: &mut dyn Cases) {
    let write = |slice: &[u8]| Traced::Write(slice.to_vec(), Claim::Ok(slice.len() as u32));
    let abc = || vec![write(b"abc")];
    let then = |claim| vec![write(b"abc"), Traced::Flush(claim)];
    let rows: [(Vec<Traced>, &[u8], bool); 11] = [
        (abc(), b"", true),
        (abc(), b"a", false),
        (then(Claim::Error(5)), b"ab", true),
        (then(Claim::Error(5)), b"abc", true),
        (then(Claim::Zero), b"ab", true),
        (then(Claim::Zero), b"abc", false),
        (then(Claim::Interrupted), b"abc", true),
        (then(Claim::Interrupted), b"ab", false),
        (vec![write(b"abcd")], b"", false),
        (vec![write(b"abc"), write(b"de")], b"abc", true),
        (vec![write(b"abc"), write(b"de")], b"acb", false),
    ];
    for (calls, card, possible) in rows {
        verdict(to, &Trace { capacity: 4, calls, card: card.to_vec() }, possible);
    }
    to.add(request::session(&[3, 4, 0, 0]), Expected::Exactly(b"judge possible\n".to_vec()));
}

/// A trace as large as a session can carry: 256 calls, with flushes that leave many places open.
pub fn largest() -> Trace {
    let call = |i: usize| match i % 8 {
        7 => Traced::Flush(Claim::Error(CODE)),
        _ => Traced::Write(vec![i as u8; 70], Claim::Ok(70)),
    };
    let calls: Vec<_> = (0..limits::TRACE_CALLS).map(call).collect();
    let mut trace = Trace { capacity: limits::CAPACITY, calls, card: vec![] };
    trace.card = answered(&trace);
    assert!(trace.session().len() <= limits::SESSION);
    trace
}
