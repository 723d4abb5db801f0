//! Molecules listed in two ways: decks cut and numbered differently have one sheet, and either's is accepted behind the other; blocks numbered
//! differently have the same indices, and what is told of a bond follows the bond.

use crate::archive;
use crate::checker::Checker;
use opinion::deck::{read_deck, Form};
use opinion::make::blocks::{block_of_many_paths, random_block};
use opinion::make::decks::random_deck;
use opinion::make::plan::BlockPlan;
use opinion::make::random::Random;
use opinion::make::relisted::{listed, relist};
use opinion::make::shapes::doubling;
use opinion::molecule::write_out;

/// A kind of sheet: its number, the bytes of its record, and the function that writes it.
struct Kind {
    number: u8,
    bytes: usize,
    write: fn(&[u8], &mut [u8]) -> u64,
}

const KINDS: [Kind; 2] = [
    Kind { number: 3, bytes: 40, write: archive::write_sheet },
    Kind { number: 4, bytes: 44, write: archive::write_six },
];

pub fn run(checker: &mut Checker, seed: u64, first: u64, cases: u64) {
    let (mut decks, mut cut) = (0, 0);
    for case in first..first + cases {
        let name = format!("listed another way, case {case} (compare --seed {seed} --first {case} --cases 1)");
        checker.case(name, |checker| {
            let random = &mut Random::for_case(!seed, case);
            let molecule = write_out(&read_deck(&random_deck(random).bytes(), Form::Composed).expect("a good deck"));
            if let (Some(one), Some(two)) = (listed(random, &molecule), listed(random, &molecule)) {
                decks += 1;
                cut += (one.deck.placements.len() != two.deck.placements.len()) as usize;
                KINDS.iter().for_each(|kind| sheets(checker, random, kind, [&one.deck.bytes(), &two.deck.bytes()]));
            }
            let block = if random.once_in(10) { block_of_many_paths(random) } else { random_block(random, 64) };
            blocks(checker, random, &block);
        });
    }
    checker.case("a block with too many paths, listed another way", |checker| {
        let too_many = blocks(checker, &mut Random::new(seed), &doubling(32));
        checker.holds(too_many == 8, "is not refused with 8");
    });
    println!("listed another way: {decks} pairs of decks, {cut} of them cut into a different number of pieces; {cases} pairs of blocks");
}

/// The same bytes are written for both; each is accepted behind the other; a changed one is told the same behind both.
fn sheets(checker: &mut Checker, random: &mut Random, kind: &Kind, decks: [&[u8]; 2]) {
    let written = decks.map(|deck| {
        let mut sheet = vec![0; kind.bytes];
        checker.holds((kind.write)(deck, &mut sheet) == 0, "a good deck got no sheet");
        sheet
    });
    checker.holds(written[0][2] == kind.number, "a sheet of another kind");
    checker.holds(written[0] == written[1], "two sheets of one molecule");
    for (deck, sheet) in [(decks[0], &written[1]), (decks[1], &written[0])] {
        let exchanged = [deck, sheet].concat();
        checker.holds(archive::judge(&exchanged) == 0, "the other's sheet is not accepted");
        checker.judge(&exchanged);
    }
    let mut wrong = written[0].clone();
    wrong[4 + random.below(kind.bytes - 4)] ^= 1 << random.below(8);
    let verdicts = decks.map(|deck| archive::judge(&[deck, &wrong[..]].concat()));
    checker.holds(verdicts[0] % 256 == 255 && verdicts[0] == verdicts[1], "a wrong sheet is told differently");
}

/// A block and its numbering anew. Says the reply to the contributions.
fn blocks(checker: &mut Checker, random: &mut Random, block: &BlockPlan) -> u64 {
    let (other, names) = relist(random, block);
    let both = [block, &other];
    let partner = |&(u, v): &(u8, u8)| {
        let (u, v) = (names[u as usize - 1], names[v as usize - 1]);
        other.bonds.iter().position(|&bond| bond == (u, v) || bond == (v, u)).expect("each bond has a partner")
    };
    let partners: Vec<usize> = block.bonds.iter().map(partner).collect();
    let [one, two] = both.map(|block| {
        let mut fields = [0; 5];
        (archive::indices(block.atoms as usize, &block.bond_bytes(), &mut fields), fields)
    });
    checker.holds(one.0 == 0 && one == two, "the indices differ");
    let [one, two] = both.map(|block| {
        let mut value = [0];
        (archive::balaban(block.atoms as usize, &block.bond_bytes(), &mut value), value)
    });
    checker.holds(one.0 == 0 && one == two, "J differs");
    let szeged = follows(checker, both, &partners, archive::szeged, "Szeged index");
    checker.holds(szeged == 0, "a good block got no Szeged index");
    follows(checker, both, &partners, archive::contributions, "contributions")
}

/// Lends a number for each bond, and one number beside them.
type ForBonds = fn(usize, &[u8], &mut [u64], &mut [u64]) -> u64;

/// The same reply and number, and each bond's number is that of its partner.
fn follows(checker: &mut Checker, both: [&BlockPlan; 2], partners: &[usize], told: ForBonds, name: &str) -> u64 {
    let [one, two] = both.map(|block| {
        let (mut entries, mut beside) = (vec![0; block.bonds.len()], [0]);
        let reply = told(block.atoms as usize, &block.bond_bytes(), &mut entries, &mut beside);
        (reply, beside, entries)
    });
    checker.holds(one.0 == two.0 && one.1 == two.1, format!("{name}: the replies differ"));
    let followed = partners.iter().enumerate().all(|(bond, &partner)| one.2[bond] == two.2[partner]);
    checker.holds(followed, format!("{name}: a bond's number does not follow it"));
    one.0
}
