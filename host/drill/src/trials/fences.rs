//! Lent buffers between pages that nobody may touch, too-short lengths, damaged tables.

use std::sync::Arc;
use std::sync::atomic::{AtomicBool, Ordering};
use std::time::{Duration, Instant};

use sluicestream::lent::{Lent, OUTPUT, RING, TABLE_WORDS};
use sluicestream::{Datagrams, ffi};

use super::Seeds;
use crate::fence::{Fenced, Side};
use crate::machine::Machine;
use crate::random::Random;

/// Bytes that a call is passed or asked for, at most.
const PASSED: usize = 2 * RING;

/// The proved end with every buffer, also those of a single call, directly at a guard page.
struct Ground {
    table: Fenced<u64>,
    outgoing: Fenced<u8>,
    incoming: Fenced<u8>,
    marks: Fenced<u8>,
    output: Fenced<u8>,
    passed: Fenced<u8>,
    ended: Fenced<u8>,
}

impl Ground {
    fn new(side: Side) -> Ground {
        Ground {
            table: Fenced::new(TABLE_WORDS, side),
            outgoing: Fenced::new(RING, side),
            incoming: Fenced::new(RING, side),
            marks: Fenced::new(RING, side),
            output: Fenced::new(OUTPUT, side),
            passed: Fenced::new(PASSED, side),
            ended: Fenced::new(1, side),
        }
    }

    fn open(&mut self, epoch: u64, interval: u64) -> i64 {
        let Ground { table, outgoing, incoming, marks, .. } = self;
        ffi::open(table.all(), outgoing.all(), incoming.all(), marks.all(), epoch, interval)
    }

    fn give(&mut self, bytes: &[u8]) -> i64 {
        let passed = self.passed.at_fence(bytes.len());
        passed.copy_from_slice(bytes);
        ffi::give(self.table.all(), self.outgoing.all(), passed)
    }

    fn finish(&mut self) -> i64 {
        ffi::finish(self.table.all())
    }

    fn datagram(&mut self, bytes: &[u8]) -> i64 {
        let passed = self.passed.at_fence(bytes.len());
        passed.copy_from_slice(bytes);
        ffi::datagram(self.table.all(), self.incoming.all(), self.marks.all(), passed)
    }

    fn take(&mut self, out: &mut [u8]) -> (i64, u8) {
        let passed = self.passed.at_fence(out.len());
        passed.copy_from_slice(out);
        let ended = &mut self.ended.all()[0];
        *ended = 2;
        let answer = ffi::take(self.table.all(), self.incoming.all(), passed, ended);
        out.copy_from_slice(passed);
        (answer, *ended)
    }

    /// What the four lent buffers hold.
    fn copy(&mut self) -> Lent {
        Lent {
            table: Box::from(&*self.table.all()),
            outgoing: Box::from(&*self.outgoing.all()),
            incoming: Box::from(&*self.incoming.all()),
            marks: Box::from(&*self.marks.all()),
        }
    }

    fn restore(&mut self, lent: &Lent) {
        self.table.all().copy_from_slice(&lent.table);
        self.outgoing.all().copy_from_slice(&lent.outgoing);
        self.incoming.all().copy_from_slice(&lent.incoming);
        self.marks.all().copy_from_slice(&lent.marks);
    }

    fn tick(&mut self) -> i64 {
        ffi::tick(self.table.all(), self.outgoing.all(), self.output.all())
    }
}

/// Reads the answer of a call that an open end doesn't refuse.
fn value(answer: i64) -> usize {
    usize::try_from(answer).expect("an open end refuses nothing but datagrams")
}

/// A machine on fenced ground; FRONT says which side of its buffers is at the guard page.
pub struct OnGround<const FRONT: bool>(Ground);

/// Every buffer ends at a guard page.
pub type AtBack = OnGround<false>;
/// Every buffer begins at a guard page.
pub type AtFront = OnGround<true>;

impl<const FRONT: bool> OnGround<FRONT> {
    fn fresh() -> Self {
        OnGround(Ground::new(if FRONT { Side::Front } else { Side::Back }))
    }
}

impl<const FRONT: bool> Machine for OnGround<FRONT> {
    const NAME: &'static str = "sluicestream, at guard pages";

    fn open(epoch: u64, interval: u64) -> Result<Self, u8> {
        let mut end = Self::fresh();
        end.reopen(epoch, interval)?;
        Ok(end)
    }

    fn reopen(&mut self, epoch: u64, interval: u64) -> Result<(), u8> {
        let answer = self.0.open(epoch, interval);
        if answer < 0 { Err(answer.unsigned_abs() as u8) } else { Ok(()) }
    }

    fn give(&mut self, bytes: &[u8]) -> usize {
        value(self.0.give(bytes))
    }

    fn finish(&mut self) {
        value(self.0.finish());
    }

    fn datagram(&mut self, bytes: &[u8]) -> Result<(), u8> {
        let answer = self.0.datagram(bytes);
        if answer < 0 { Err(answer.unsigned_abs() as u8) } else { Ok(()) }
    }

    fn take(&mut self, out: &mut [u8]) -> (usize, bool) {
        let (answer, ended) = self.0.take(out);
        (value(answer), ended == 1)
    }

    fn tick(&mut self) -> impl Iterator<Item = &[u8]> {
        let used = value(self.0.tick());
        Datagrams::new(&self.0.output.all()[..used])
    }
}

/// Every too-short length of every buffer of every call, on an open end with bytes under way.
pub fn short_report(name: &'static str, seeds: Seeds) -> Result<String, String> {
    let calls: u64 = seeds.run(name, short)?.into_iter().sum();
    Ok(format!("{calls} calls with a buffer too short, all refused; all lent buffers as they were"))
}

fn short(seed: u64) -> Result<u64, String> {
    let mut random = Random::new(seed);
    let mut lent = Lent::new();
    let Lent { table, outgoing, incoming, marks } = &mut lent;
    let mut output = vec![0; OUTPUT];
    let mut bytes = vec![0; 3_000];
    random.fill(&mut bytes);
    ffi::open(table, outgoing, incoming, marks, 7, 50);
    ffi::give(table, outgoing, &bytes);
    let written = value(ffi::tick(table, outgoing, &mut output));
    let sent: Vec<Vec<u8>> = Datagrams::new(&output[..written]).map(<[u8]>::to_vec).collect();
    ffi::datagram(table, incoming, marks, &sent[0]);
    ffi::datagram(table, incoming, marks, &sent[2]);
    let copy = lent.clone();
    let mut calls = 0;
    for length in 0..RING {
        for (call, answer, expected) in too_short(&mut lent, length, &sent[1], &mut output) {
            if answer != -expected {
                return Err(format!("{call} with a length of {length} answers {answer}, expected {}", -expected));
            }
            calls += 1;
        }
        // Comparing 200 KB each time would take long; a change is there to be seen later just as well.
        if (length < 300 || length % 997 == 0 || length == RING - 1) && lent != copy {
            return Err(format!("a call with a length of {length} or a little less was refused and changed a buffer"));
        }
    }
    Ok(calls)
}

/// Each call with one of its buffers cut to `length`, where that is too short, and the refusal expected.
fn too_short(lent: &mut Lent, length: usize, datagram: &[u8], output: &mut [u8]) -> Vec<(&'static str, i64, i64)> {
    let Lent { table, outgoing, incoming, marks } = lent;
    let mut room = [0; 16];
    let mut ended = 0;
    let mut answers = vec![
        ("open: outgoing", ffi::open(table, &mut outgoing[..length], incoming, marks, 7, 50), 11),
        ("open: incoming", ffi::open(table, outgoing, &mut incoming[..length], marks, 7, 50), 11),
        ("open: marks", ffi::open(table, outgoing, incoming, &mut marks[..length], 7, 50), 11),
        ("open: interval first", ffi::open(table, outgoing, incoming, &mut marks[..length], 7, 0), 10),
        ("give: outgoing", ffi::give(table, &mut outgoing[..length], datagram), 11),
        ("datagram: incoming", ffi::datagram(table, &mut incoming[..length], marks, datagram), 11),
        ("datagram: marks", ffi::datagram(table, incoming, &mut marks[..length], datagram), 11),
        ("take: incoming", ffi::take(table, &mut incoming[..length], &mut room, &mut ended), 11),
        ("tick: outgoing", ffi::tick(table, &mut outgoing[..length], output), 11),
        ("tick: both", ffi::tick(table, &mut outgoing[..length], &mut output[..length.min(OUTPUT - 1)]), 11),
    ];
    if length < OUTPUT {
        answers.push(("tick: output", ffi::tick(table, outgoing, &mut output[..length]), 13));
    }
    if length < TABLE_WORDS {
        let table = &mut table[..length];
        answers.extend([
            ("open: table", ffi::open(table, outgoing, incoming, marks, 7, 50), 11),
            ("give: table", ffi::give(table, outgoing, datagram), 11),
            ("finish: table", ffi::finish(table), 11),
            ("datagram: table", ffi::datagram(table, incoming, marks, datagram), 11),
            ("take: table", ffi::take(table, incoming, &mut room, &mut ended), 11),
            ("tick: table", ffi::tick(table, outgoing, output), 11),
        ]);
    }
    answers
}

/// Damaged tables, all seeds; a call that doesn't return ends the process with a line that says so.
pub fn damaged_report(name: &'static str, seeds: Seeds) -> Result<String, String> {
    let watched = Watched::new(Duration::from_secs(60));
    let runs = seeds.run(name, |seed| {
        watched.next(seed);
        damaged(seed)
    })?;
    let (calls, refused) = runs.iter().fold((0, 0), |sum, run| (sum.0 + run.0, sum.1 + run.1));
    Ok(format!("{calls} calls on damaged buffers, all returned; {refused} refused, the others with a possible answer"))
}

/// Ends the process if a trial takes too long.
struct Watched {
    seed: Arc<std::sync::Mutex<(u64, Instant)>>,
    over: Arc<AtomicBool>,
}

impl Watched {
    fn new(patience: Duration) -> Watched {
        let seed = Arc::new(std::sync::Mutex::new((0, Instant::now())));
        let over = Arc::new(AtomicBool::new(false));
        let (its_seed, its_over) = (seed.clone(), over.clone());
        std::thread::spawn(move || {
            while !its_over.load(Ordering::Relaxed) {
                std::thread::sleep(Duration::from_millis(100));
                let (seed, since) = *its_seed.lock().expect("nothing panics while it is held");
                if since.elapsed() > patience && !its_over.load(Ordering::Relaxed) {
                    eprintln!("a call on a damaged table does not return: sluice drill --trial damaged --seed {seed}");
                    std::process::abort();
                }
            }
        });
        Watched { seed, over }
    }

    fn next(&self, seed: u64) {
        *self.seed.lock().expect("nothing panics while it is held") = (seed, Instant::now());
    }
}

impl Drop for Watched {
    fn drop(&mut self) {
        self.over.store(true, Ordering::Relaxed);
    }
}

/// Brings an end into some state, damages it, and calls it; answers calls and refusals.
fn damaged(seed: u64) -> Result<(u64, u64), String> {
    let mut random = Random::new(seed);
    let mut ground = Ground::new(random.pick(&[Side::Front, Side::Back]));
    let mut peer = yardstick::End::open(7, 3).map_err(|k| format!("open refused with {}", k.0))?;
    let (mut calls, mut refused) = (0, 0);
    for _ in 0..20 {
        bring_about(&mut ground, &mut peer, &mut random);
        let sound = ground.copy();
        for _ in 0..12 {
            ground.restore(&sound);
            damage(&mut ground, &mut random);
            for _ in 0..12 {
                let before = random.chance(20).then(|| ground.copy());
                let (name, answer) = call(&mut ground, &mut random)?;
                calls += 1;
                refused += u64::from(answer < 0);
                if answer < 0 && before.is_some_and(|before| before != ground.copy()) {
                    return Err(format!("{name} on a damaged table was refused with {} and changed a buffer", -answer));
                }
            }
        }
    }
    Ok((calls, refused))
}

/// An open end with bytes given, sent, arrived and missing.
fn bring_about(ground: &mut Ground, peer: &mut yardstick::End, random: &mut Random) {
    if random.chance(30) {
        ground.table.all().fill(0);
    }
    ground.open(7, random.between(1, 5));
    let _ = Machine::reopen(peer, 7, 3);
    let mut bytes = vec![0; 40_000];
    random.fill(&mut bytes);
    for _ in 0..random.below(12) {
        ground.give(&bytes[..random.below(40_000) as usize]);
        peer.give(&bytes[..random.below(40_000) as usize]);
        let used = usize::try_from(ground.tick()).unwrap_or(0);
        for datagram in Datagrams::new(&ground.output.all()[..used]) {
            if random.chance(80) {
                let _ = peer.datagram(datagram);
            }
        }
        let sent: Vec<Vec<u8>> = peer.tick().map(<[u8]>::to_vec).collect();
        for datagram in sent {
            if random.chance(80) {
                ground.datagram(&datagram);
            }
        }
        ground.take(&mut bytes[..random.clone().below(9_000) as usize]);
    }
}

/// Words that a table may hold by mistake.
fn word(random: &mut Random, old: u64) -> u64 {
    let any = random.bits();
    let small = random.below(100_000);
    let huge = 1 << random.below(64);
    random
        .pick(&[0, 1, 63, 64, 65, 200, small, 65_535, 65_536, huge, 1 << 62, (1 << 62) - 1, u64::MAX, any])
        .wrapping_add(if random.chance(30) { old } else { 0 })
}

/// One word, a few words, or all; the marks as well.
fn damage(ground: &mut Ground, random: &mut Random) {
    let table = ground.table.all();
    let words = table.len() as u64;
    match random.below(4) {
        0 => table.iter_mut().for_each(|word| *word = random.bits()),
        1 => {
            for _ in 0..random.between(2, 8) {
                let at = random.below(words) as usize;
                table[at] = word(random, table[at]);
            }
        }
        2 => {
            // The scalars stand at the front.
            let at = random.below(words.min(40)) as usize;
            table[at] = word(random, table[at]);
        }
        _ => {
            let at = random.below(words) as usize;
            table[at] = word(random, table[at]);
        }
    }
    if random.chance(30) {
        random.fill(ground.marks.all());
    }
}

/// Any call; an error where its answer is impossible.
fn call(ground: &mut Ground, random: &mut Random) -> Result<(&'static str, i64), String> {
    let mut bytes = vec![0; random.below(3_000) as usize];
    random.fill(&mut bytes);
    let (name, answer, most) = match random.below(6) {
        0 => ("give", ground.give(&bytes), bytes.len()),
        1 => ("finish", ground.finish(), 0),
        2 => ("take", ground.take(&mut bytes).0, bytes.len()),
        3 => ("tick", ground.tick(), OUTPUT),
        _ => ("datagram", ground.datagram(&datagram(random)), 0),
    };
    if answer < -13 || answer > most as i64 {
        return Err(format!("{name} on a damaged table answers {answer}, where at most {most} is possible"));
    }
    Ok((name, answer))
}

/// A datagram of the right epoch with fields at random.
fn datagram(random: &mut Random) -> Vec<u8> {
    let kind = random.pick(&[1, 1, 2, 3]);
    let length = if kind == 1 { random.between(1, 1_024) as usize } else { 0 };
    let mut bytes = vec![0; 32 + length];
    random.fill(&mut bytes[32..]);
    bytes[0] = kind;
    bytes[1] = u8::from(kind == 1 && random.chance(10));
    bytes[2..4].copy_from_slice(&(length as u16).to_be_bytes());
    bytes[4..12].copy_from_slice(&7u64.to_be_bytes());
    let (any, near, further) = (random.bits(), random.below(200), random.below(100_000));
    bytes[12..20].copy_from_slice(&random.pick(&[near + 1, further, any]).to_be_bytes());
    bytes[20..28].copy_from_slice(&random.pick(&[near, further, any, (1 << 62) - 500]).to_be_bytes());
    if kind == 2 {
        bytes[28..32].copy_from_slice(&(further as u32).to_be_bytes());
    }
    bytes
}
