//! Two queues at one table. Calls of both in a random order, each beside a plain list of what the queue holds and
//! beside a table that only that queue calls; tables of random bytes; and what the request names.

use crate::archive;
use crate::checker::{code, Checker};
use crate::lent::{Lent, Shown};
use opinion::make::blocks::random_block;
use opinion::make::damage::damage_block;
use opinion::make::damage_bytes::damage_bytes;
use opinion::make::decks::{assemble, random_deck};
use opinion::make::plan::{write_records, BlockPlan, DeckPlan};
use opinion::make::random::Random;
use opinion::make::shapes;
use opinion::queues::{sheet_bytes, Held, Queue, FIVE, SIX, TABLE};

const QUEUES: [Queue; 2] = [Queue::Day, Queue::Night];

#[derive(Clone, Debug)]
pub enum Call {
    Add(u16, usize, Vec<u8>),
    Look(u16, usize),
    Drop(u16),
    Compose(usize, Vec<u8>, usize),
}

/// What a call was told: its reply and the lent outputs.
struct Told {
    reply: u64,
    fields: Lent<u64>,
    out: Lent<u8>,
}

/// How often something was told that is no refusal.
#[derive(Default)]
struct Fine {
    added: usize,
    looked: usize,
    dropped: usize,
    composed: usize,
    emptied: usize,
    foreign: usize,
}

pub fn run(checker: &mut Checker, seed: u64, first: u64, cases: u64) {
    let fine = &mut Fine::default();
    named(checker);
    short_tables(checker);
    for case in first..first + cases {
        let name = format!("random queues {case} (compare --seed {seed} --first {case} --cases 1)");
        checker.case(name, |checker| {
            let random = &mut Random::for_case(seed ^ 0x7175_6575, case);
            if random.once_in(4) {
                fine.foreign += 1;
                foreign(checker, random);
            } else {
                interleaved(checker, random, fine);
            }
        });
    }
    let Fine { added, looked, dropped, composed, emptied, foreign } = fine;
    println!("queues: {added} blocks added, {looked} looked up, {dropped} dropped, {composed} sheets composed, {emptied} tables made empty between calls, {foreign} tables of random bytes");
}

impl Fine {
    fn count(&mut self, call: &Call, reply: u64) {
        let entry = match call {
            Call::Add(..) => &mut self.added,
            Call::Look(..) => &mut self.looked,
            Call::Drop(_) => &mut self.dropped,
            Call::Compose(..) => &mut self.composed,
        };
        *entry += (reply == 0) as usize;
    }
}

/// Makes the call at a table, and sees that it changed nothing that it must not.
fn perform(checker: &mut Checker, table: &mut [u8], queue: Queue, call: &Call) -> Told {
    let before = table.to_vec();
    let (mut fields, mut out) = (Lent::new(0), Lent::new(0));
    let reply = match call {
        Call::Add(number, atoms, bonds) => {
            let lent = Shown::new(bonds);
            archive::queue_add(table, queue as usize, *number, *atoms, lent.part())
        }
        Call::Look(number, room) => {
            fields = Lent::new(*room);
            archive::queue_look(table, queue as usize, *number, fields.part())
        }
        Call::Drop(number) => archive::queue_drop(table, queue as usize, *number),
        Call::Compose(kind, record, room) => {
            let lent = Shown::new(record);
            out = Lent::new(*room);
            archive::queue_compose(table, queue as usize, *kind, lent.part(), out.part())
        }
    };
    let reads = matches!(call, Call::Look(..) | Call::Compose(..));
    let changed = before != table;
    checker.holds(!changed || (reply == 0 && !reads), "the table was changed");
    if changed && table.len() >= TABLE {
        let other = if queue == Queue::Day { TABLE / 2..TABLE } else { 0..TABLE / 2 };
        checker.holds(before[other.clone()] == table[other], "the other queue's places were changed");
        checker.holds(before[TABLE..] == table[TABLE..], "bytes behind the table were changed");
    }
    Told { reply, fields, out }
}

/// The call by the list of what the queue holds, and what is wrong with what was told.
fn right(held: &mut Held, call: &Call, told: &Told) -> (u64, Option<String>) {
    match call {
        Call::Add(number, atoms, bonds) => (code(&held.add(*number, *atoms, bonds)), None),
        Call::Drop(number) => (code(&held.drop(*number)), None),
        Call::Look(number, room) => {
            let answer = held.look(*number, *room);
            (code(&answer), told.fields.fault(&answer.map_or(Vec::new(), |fields| fields.to_vec())))
        }
        Call::Compose(kind, record, room) => {
            let answer = held.compose(*kind, record, *room);
            (code(&answer), told.out.fault(&answer.unwrap_or_default()))
        }
    }
}

/// Some bytes that no call left.
fn some_bytes(random: &mut Random, len: usize) -> Vec<u8> {
    (0..len).map(|_| random.draw() as u8).collect()
}

fn emptied(checker: &mut Checker, random: &mut Random) -> Vec<u8> {
    let mut table = some_bytes(random, TABLE + 7);
    let behind = table[TABLE..].to_vec();
    checker.holds(archive::queue_empty(&mut table) == 0, "a table was not made empty");
    checker.holds(table[TABLE..] == behind, "making it empty changed bytes behind the table");
    table
}

/// Calls of both queues in a random order; now and then the table is made empty, which ends what both were told before.
fn interleaved(checker: &mut Checker, random: &mut Random, fine: &mut Fine) {
    let mut table = emptied(checker, random);
    let mut alone = [emptied(checker, random), emptied(checker, random)];
    let mut held = [Held::default(), Held::default()];
    let decks = [queue_deck(random), queue_deck(random)];
    for _ in 0..random.between(4, 60) {
        if random.once_in(60) {
            held = [Held::default(), Held::default()];
            for table in [&mut table].into_iter().chain(&mut alone) {
                checker.holds(archive::queue_empty(table) == 0, "a table was not made empty");
            }
            fine.emptied += 1;
        }
        let which = random.below(2);
        let call = random_call(random, &decks[which], &held[which]);
        let mut told = perform(checker, &mut table, QUEUES[which], &call);
        let mut lone = perform(checker, &mut alone[which], QUEUES[which], &call);
        let same =
            told.reply == lone.reply && told.fields.part() == lone.fields.part() && told.out.part() == lone.out.part();
        checker.holds(same, "a queue was told something else than its own calls alone");
        let (reply, fault) = right(&mut held[which], &call, &told);
        checker.agree(|| format!("{:?} {call:?}", QUEUES[which]), reply, told.reply, fault);
        fine.count(&call, told.reply);
        if let (Call::Compose(kind, record, _), 0) = (&call, told.reply) {
            as_deck(checker, &held[which], *kind, record, &told.out.part()[..sheet_bytes(*kind)]);
        }
    }
}

/// These calls, each of the day queue or of the night queue, at a table with so many bytes behind it: beside the lists of what the
/// queues hold.
pub fn calls(checker: &mut Checker, behind: usize, calls: &[(usize, Call)]) {
    let mut lent = Lent::new(TABLE + behind);
    let table = lent.part();
    checker.holds(archive::queue_empty(table) == 0, "a table was not made empty");
    let mut held = [Held::default(), Held::default()];
    for (which, call) in calls {
        let told = perform(checker, table, QUEUES[*which], call);
        let (reply, fault) = right(&mut held[*which], call, &told);
        checker.agree(|| format!("{:?} {call:?}", QUEUES[*which]), reply, told.reply, fault);
    }
}

/// The sheet is accepted behind the deck of the queue's blocks and the record, and is what writing gives.
fn as_deck(checker: &mut Checker, held: &Held, kind: usize, record: &[u8], sheet: &[u8]) {
    let deck = [&held.records()[..], record].concat();
    let judged = [&deck[..], sheet].concat();
    checker.holds(archive::judge(&judged) == 0, "the sheet is not accepted behind its deck");
    if kind == FIVE {
        let mut written = [0; 40];
        let reply = archive::write_sheet(&deck, &mut written);
        checker.holds(reply == 0 && written == *sheet, "writing gives another sheet");
    }
}

/// At most eight blocks, and an assembly of them.
fn queue_deck(random: &mut Random) -> DeckPlan {
    let mut deck = random_deck(random);
    deck.blocks.truncate(8);
    let order: Vec<usize> = (0..random.between(1, 12)).map(|_| random.below(deck.blocks.len())).collect();
    assemble(random, deck.blocks, &order)
}

fn add(block: &BlockPlan) -> Call {
    Call::Add(block.number, block.atoms as usize, block.bond_bytes())
}

/// A number that the queue holds, or one of its deck's, or any.
fn some_number(random: &mut Random, deck: &DeckPlan, held: &Held) -> u16 {
    let numbers = held.numbers();
    match random.below(8) {
        0 => random.below(4) as u16,
        1 => random.draw() as u16,
        2..=5 if !numbers.is_empty() => *random.pick(&numbers),
        _ => random.pick(&deck.blocks).number,
    }
}

fn random_call(random: &mut Random, deck: &DeckPlan, held: &Held) -> Call {
    match random.below(10) {
        0..=4 => {
            let mut block = random.pick(&deck.blocks).clone();
            if random.once_in(3) {
                block = random_block(random, 64);
                block.number = some_number(random, deck, held);
            } else if random.once_in(2) {
                block.number = random.between(1, 40) as u16;
            }
            if random.once_in(8) {
                damage_block(random, &mut block);
            }
            add(&block)
        }
        5 => Call::Look(some_number(random, deck, held), if random.once_in(8) { random.below(8) } else { 6 }),
        6 => Call::Drop(some_number(random, deck, held)),
        _ => {
            let record = assembly_record(random, deck, held);
            let kind = if random.once_in(2) { FIVE } else { SIX };
            let room = if random.once_in(8) { random.below(50) } else { sheet_bytes(kind) + random.below(3) };
            Call::Compose(kind, record, room)
        }
    }
}

/// An assembly of blocks that the queue holds, if any; now and then damaged.
fn assembly_record(random: &mut Random, deck: &DeckPlan, held: &Held) -> Vec<u8> {
    let numbers = held.numbers();
    let blocks: Vec<BlockPlan> = deck.blocks.iter().filter(|block| numbers.contains(&block.number)).cloned().collect();
    let plan = if blocks.is_empty() || random.once_in(6) {
        deck.clone()
    } else {
        let order: Vec<usize> = (0..random.between(1, 20)).map(|_| random.below(blocks.len())).collect();
        assemble(random, blocks, &order)
    };
    let last = plan.records().pop().expect("an assembly");
    let mut bytes = write_records(&[last]);
    if random.once_in(5) {
        damage_bytes(random, &mut bytes);
    }
    bytes
}

/// A table of random bytes, some numbers of which are set: the bytes fix each reply, and what must not change does not.
fn foreign(checker: &mut Checker, random: &mut Random) {
    let len = TABLE + random.below(9);
    let mut table = some_bytes(random, len);
    for place in 0..16 {
        let number = random.below(5) as u16;
        table[TABLE / 16 * place..TABLE / 16 * place + 2].copy_from_slice(&number.to_le_bytes());
    }
    let mut copy = table.clone();
    let deck = queue_deck(random);
    let held = Held::default();
    for _ in 0..20 {
        let which = random.below(2);
        let call = match random_call(random, &deck, &held) {
            Call::Look(_, room) => Call::Look(random.below(6) as u16, room),
            Call::Drop(_) => Call::Drop(random.below(6) as u16),
            Call::Compose(kind, _, room) => Call::Compose(kind, low_numbers(random), room),
            other => other,
        };
        let mut told = perform(checker, &mut table, QUEUES[which], &call);
        let mut again = perform(checker, &mut copy, QUEUES[which], &call);
        let same = told.reply == again.reply
            && told.fields.part() == again.fields.part()
            && told.out.part() == again.out.part();
        checker.holds(same && table == copy, "the same bytes told something else");
    }
}

/// A chain of placements of the numbers 1 to 4 by low atoms.
fn low_numbers(random: &mut Random) -> Vec<u8> {
    let count = random.between(1, 6);
    let mut bytes = vec![(2 + 6 * count) as u8, 0, 2, 0, count as u8, 0];
    for index in 0..count {
        let parent = if index == 0 { 0 } else { random.between(1, index) as u8 };
        let atom = |random: &mut Random| if index == 0 { 0 } else { random.between(1, 20) as u8 };
        bytes.extend_from_slice(&[random.between(1, 4) as u8, 0, parent, 0, atom(random), atom(random)]);
    }
    bytes
}

/// One step of a case by hand: the queue, the call and the reply that is right.
fn steps(checker: &mut Checker, table: &mut [u8], calls: &[(Queue, Call, u64)]) {
    for (queue, call, right) in calls {
        let told = perform(checker, table, *queue, call);
        checker.agree(|| format!("{queue:?} {call:?}"), *right, told.reply, None);
    }
}

/// What the request names.
fn named(checker: &mut Checker) {
    use Queue::{Day, Night};
    let refused = |number: u64, place: u64| number + 256 * place;
    let (ring, one) = (shapes::ring(6), shapes::path(1));
    let number = |block: &BlockPlan, number: u16| add(&BlockPlan { number, ..block.clone() });
    let compose = |record: &[u8], room: usize| Call::Compose(FIVE, record.to_vec(), room);
    let two_rings = [14, 0, 2, 0, 2, 0, 1, 0, 0, 0, 0, 0, 1, 0, 1, 0, 1, 1];
    checker.case("day 1 and night 1 are two blocks", |checker| {
        let mut table = vec![0; TABLE];
        let calls = [
            (Day, compose(&two_rings, 40), refused(16, 6)),
            (Day, number(&ring, 1), 0),
            (Night, Call::Look(1, 6), refused(30, 0)),
            (Night, number(&one, 1), 0),
            (Day, number(&one, 1), refused(29, 0)),
            (Day, number(&one, 0), refused(14, 0)),
            (Day, Call::Look(0, 6), refused(30, 0)),
            (Day, Call::Drop(0), refused(30, 0)),
            (Day, Call::Look(1, 5), refused(9, 0)),
            (Day, compose(&two_rings, 39), refused(9, 0)),
            (Day, compose(&[], 40), refused(11, 0)),
            (Day, compose(&[&two_rings[..], &[0]].concat(), 40), refused(11, 18)),
            (Day, compose(&two_rings, 40), 0),
            (Night, compose(&two_rings, 40), 0),
        ];
        steps(checker, &mut table, &calls);
        let (mut day, mut night) = ([0; 6], [0; 6]);
        archive::queue_look(&table, 0, 1, &mut day);
        archive::queue_look(&table, 7, 1, &mut night);
        checker.holds(day == [6, 27, 12, 15, 3, 3] && night == [1, 0, 0, 0, 0, 0], "other fields");
    });
    checker.case("both queues are full of the largest blocks", |checker| {
        // two blocks of number x joined at their last atoms, of which every byte of a place tells
        let two = |x: u8| vec![14, 0, 2, 0, 2, 0, x, 0, 0, 0, 0, 0, x, 0, 1, 0, 64, 64];
        let filled = (1..=8).flat_map(|x| [(1, number(&shapes::grid(8, 8), x)), (0, number(&shapes::double_ring(64), x))]);
        let asked = (1..=8u8).flat_map(|x| [0, 1].map(|which| (which, Call::Compose(SIX, two(x), 44))));
        calls(checker, 0, &filled.chain(asked).collect::<Vec<_>>());
    });
    checker.case("eight are held", |checker| {
        let mut table = vec![0; TABLE];
        let mut calls: Vec<(Queue, Call, u64)> = (1..=8).map(|x| (Day, number(&ring, 1000 + x), 0)).collect();
        calls.extend([
            (Day, number(&ring, 9), refused(28, 0)),
            (Day, number(&ring, 1003), refused(29, 0)),
            (Day, number(&ring, 0), refused(14, 0)),
            (Night, number(&ring, 9), 0),
            (Day, Call::Drop(1003), 0),
            (Day, Call::Drop(1003), refused(30, 0)),
            (Day, number(&one, 9), 0),
            (Day, number(&one, 1003), refused(28, 0)),
        ]);
        steps(checker, &mut table, &calls);
    });
}

/// 9 comes first, and nothing changes.
fn short_tables(checker: &mut Checker) {
    checker.case("short tables", |checker| {
        for len in [0, 1, TABLE / 2, TABLE - 1] {
            let mut table = vec![3; len];
            checker
                .holds(archive::queue_empty(&mut table) == 9 && table == vec![3; len], "a short table was made empty");
            for queue in QUEUES {
                for call in
                    [Call::Add(0, 0, vec![1]), Call::Look(0, 0), Call::Drop(0), Call::Compose(FIVE, vec![0; 40_000], 0)]
                {
                    let told = perform(checker, &mut table, queue, &call);
                    checker.holds(told.reply == 9, "not 9 for a short table");
                }
            }
        }
    });
}
