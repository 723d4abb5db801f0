//! The cases of every run: the documents' decks and blocks, a specimen of each refusal, and sweeps over buffer
//! lengths, cuts and single bytes.

use crate::archive;
use crate::checker::Checker;
use opinion::answers;
use opinion::count_sets;
use opinion::deck::{read_deck, sheet_record};
use opinion::documents::{ten_graphs, worked_example, ACEPLEIADYLENE, DIBENZFULVENE, FORTY, NAPHTHALENE};
use opinion::make::plan::BlockPlan;
use opinion::make::{shapes, specimens};
use opinion::molecule::Measurer;
use opinion::refusal::Refusal;

pub fn run(checker: &mut Checker) {
    documents(checker);
    refusals(checker);
    buffers(checker);
    places_asked(checker);
    cuts(checker);
    single_bytes(checker);
    xs(checker);
    trees(checker);
}

/// All calls that a deck without a sheet takes, with room enough.
fn whole_deck(checker: &mut Checker, deck: &[u8]) {
    checker.judge(deck);
    checker.compose(deck, 5);
    checker.write_sheet(deck, 40);
    checker.compose_six(deck, 6);
    checker.write_six(deck, 44);
    checker.placed_distance(deck, [1, 1, 1, 1], 1);
}

/// All calls that a block takes, with room enough.
fn whole_block(checker: &mut Checker, atoms: usize, bonds: &[u8]) {
    checker.check_block(atoms, bonds);
    checker.indices(atoms, bonds, 5);
    for atom in 0..=atoms.min(65) {
        checker.vertex(atoms, bonds, atom, 7);
        checker.farthest(atoms, bonds, atom, 1);
    }
    checker.contributions(atoms, bonds, bonds.len(), 1);
    checker.szeged(atoms, bonds, bonds.len(), 1);
    checker.balaban(atoms, bonds, 1);
    for x in [0.5, 1.0, 0.1] {
        checker.polynomial(atoms, bonds, x, 2);
    }
    checker.count_sets(atoms, bonds, 2);
}

fn documents(checker: &mut Checker) {
    let blocks = [NAPHTHALENE.block(), DIBENZFULVENE.block(), ACEPLEIADYLENE.block()];
    let shapes: Vec<BlockPlan> = [
        shapes::ring(4),
        shapes::squares(19),
        shapes::squares(20),
        shapes::path(64),
        shapes::star(7),
        shapes::double_ring(64),
        shapes::triple_ring(64),
        shapes::cube(6),
        shapes::doubling(32),
        shapes::tripling(21),
        shapes::grid(8, 8),
        // D is 1,000,000, the most that it may be
        shapes::bundles(&[4, 4, 4, 5, 5, 5, 5, 5, 5]),
    ]
    .into();
    for block in blocks.into_iter().chain(shapes) {
        let name = format!("a block of {} atoms and {} bonds", block.atoms, block.bonds.len());
        checker.case(name, |checker| {
            whole_block(checker, block.atoms as usize, &block.bond_bytes());
            whole_deck(checker, &shapes::alone(block).bytes());
        });
    }
    for (name, deck, _) in ten_graphs() {
        checker.case(name, |checker| {
            whole_deck(checker, &deck.bytes());
            for block in &deck.blocks {
                whole_block(checker, block.atoms as usize, &block.bond_bytes());
            }
        });
    }
    for joined in 0..=3 {
        let name = format!("document 000's worked example, {joined} joined");
        checker.case(name, |checker| whole_deck(checker, &worked_example(joined).bytes()));
    }
    checker.case("32 paths of 64 end to end", |checker| {
        let deck = shapes::longest_path().bytes();
        whole_deck(checker, &deck);
        checker.placed_distance(&deck, [1, 1, 32, 64], 1);
    });
}

/// The second opinion must say what is written by hand, and the library what the second opinion says.
fn refusals(checker: &mut Checker) {
    for specimen in specimens::blocks() {
        checker.case(specimen.name, |checker| {
            let by_hand = Err(Refusal { number: specimen.number, place: specimen.place });
            let found = answers::check_block(specimen.atoms, &specimen.bonds);
            checker.holds(found == by_hand, "the second opinion is not what was written by hand");
            whole_block(checker, specimen.atoms, &specimen.bonds);
        });
    }
    for specimen in specimens::decks() {
        checker.case(specimen.name, |checker| {
            let by_hand = Some(Refusal { number: specimen.number, place: specimen.place });
            let found = read_deck(&specimen.deck, specimen.form).err();
            checker.holds(found == by_hand, "the second opinion is not what was written by hand");
            whole_deck(checker, &specimen.deck);
            for sheet in [sheet_record(&[0; 5]), sheet_record(&[0; 6])] {
                checker.judge(&[&specimen.deck[..], &sheet].concat());
            }
        });
    }
}

/// Outputs of every length about what is needed, with good and with refused inputs.
fn buffers(checker: &mut Checker) {
    let good = FORTY.to_vec();
    let refused = FORTY[..39].to_vec();
    let long = vec![0; 32_769];
    for room in 0..=48 {
        checker.case(format!("a sheet into {room} bytes"), |checker| {
            for deck in [&good, &refused, &long] {
                checker.write_sheet(deck, room);
                checker.write_six(deck, room);
            }
        });
    }
    for room in 0..=12 {
        checker.case(format!("numbers into {room} entries"), |checker| {
            for deck in [&good, &refused, &long] {
                checker.compose(deck, room);
                checker.compose_six(deck, room);
                checker.placed_distance(deck, [1, 4, 2, 4], room);
                checker.placed_distance(deck, [1, 7, 2, 4], room);
            }
            let ring = shapes::ring(6).bond_bytes();
            for atoms in [6, 7] {
                checker.indices(atoms, &ring, room);
                checker.balaban(atoms, &ring, room);
                checker.polynomial(atoms, &ring, 0.5, room);
                checker.polynomial(atoms, &ring, 0.0, room);
                for atom in [0, 1, 7] {
                    checker.vertex(atoms, &ring, atom, room);
                    checker.farthest(atoms, &ring, atom, room);
                }
                for d_room in 0..=3 {
                    checker.contributions(atoms, &ring, room, d_room);
                    checker.szeged(atoms, &ring, room, d_room);
                }
            }
        });
    }
    for (squares, bonds) in [(19, 76), (20, 80)] {
        for room in bonds - 2..=bonds + 2 {
            checker.case(format!("shares of {squares} squares into {room} entries"), |checker| {
                let block = shapes::squares(squares);
                for d_room in 0..=2 {
                    checker.contributions(block.atoms as usize, &block.bond_bytes(), room, d_room);
                }
            });
        }
    }
}

/// Every placement and atom of a deck, and those that do not exist, far ones too.
fn places_asked(checker: &mut Checker) {
    let deck = worked_example(3).bytes();
    let asked = [0, 1, 2, 3, 4, 5, 6, 7, 255, 256, 257, 65_537, 1 << 32, (1 << 32) + 1, (1 << 32) + 6, usize::MAX];
    for k in asked {
        checker.case(format!("distances from placement {k}"), |checker| {
            for i in asked {
                for l in 0..=5 {
                    for j in 0..=7 {
                        checker.placed_distance(&deck, [k, i, l, j], 1);
                    }
                }
                checker.placed_distance(&deck, [1, 1, k, i], 1);
            }
        });
    }
    checker.case("vertices far beyond", |checker| {
        for atom in asked {
            checker.vertex(6, &shapes::ring(6).bond_bytes(), atom, 7);
            checker.vertex(atom, &shapes::ring(6).bond_bytes(), 1, 7);
            checker.farthest(6, &shapes::ring(6).bond_bytes(), atom, 1);
            checker.farthest(atom, &shapes::ring(6).bond_bytes(), 1, 1);
            checker.check_block(atom, &shapes::ring(6).bond_bytes());
        }
    });
}

/// Two decks with their sheets of either kind, cut at every length, and followed by up to 50 bytes more.
fn cuts(checker: &mut Checker) {
    let measurer = &mut Measurer::default();
    for (plan, six) in [(specimens::two_rings(), false), (specimens::two_rings(), true), (worked_example(3), true)] {
        let composed = plan.bytes();
        let sheet = if six {
            answers::write_six(measurer, &composed, 44)
        } else {
            answers::write_sheet(measurer, &composed, 40)
        };
        let deck = [composed, sheet.expect("a good deck")].concat();
        for length in 0..deck.len() + 50 {
            checker.case(format!("a deck of {} bytes brought to {length}", deck.len()), |checker| {
                let mut cut = deck.clone();
                cut.resize(length, 0);
                whole_deck(checker, &cut);
            });
        }
    }
}

/// Document 01's deck with its sheet of either kind, each byte given every value.
fn single_bytes(checker: &mut Checker) {
    let sheets = [sheet_record(&[12, 198, 96, 102, 14]), sheet_record(&[12, 198, 96, 102, 14, 7])];
    for sheet in sheets {
        let deck = [&FORTY[..], &sheet].concat();
        for at in 0..deck.len() {
            checker.case(format!("byte {at} of document 01's deck of {} changed", deck.len()), |checker| {
                for value in 0..=255 {
                    let mut changed = deck.clone();
                    changed[at] = value;
                    checker.judge(&changed);
                    checker.compose_six(&changed[..40], 6);
                }
            });
        }
    }
}

fn xs(checker: &mut Checker) {
    let least = f64::from_bits(1);
    let below_one = f64::from_bits(1.0f64.to_bits() - 1);
    let above_one = f64::from_bits(1.0f64.to_bits() + 1);
    let wrong = [0.0, -0.0, -least, -1.0, above_one, 2.0, f64::INFINITY, f64::NEG_INFINITY, f64::NAN, -f64::NAN];
    let right = [least, f64::MIN_POSITIVE, 1e-300, 1e-17, 0.1, 1.0 / 3.0, 0.5, 0.75, below_one, 1.0];
    for x in wrong.into_iter().chain(right) {
        checker.case(format!("x = {x:e}"), |checker| {
            for block in [shapes::path(64), shapes::ring(63), shapes::star(7), shapes::path(1), NAPHTHALENE.block()] {
                for room in [0, 1, 2, 3] {
                    checker.polynomial(block.atoms as usize, &block.bond_bytes(), x, room);
                }
            }
        });
    }
}

/// The trees whose numbers of sets are known, into outputs of every length about what is needed.
fn trees(checker: &mut Checker) {
    for (name, tree, numbers) in count_sets::known() {
        checker.case(format!("sets of {name}"), |checker| {
            let (atoms, bonds) = (tree.atoms as usize, tree.bond_bytes());
            let mut counts = [0; 2];
            let reply = archive::count_sets(atoms, &bonds, &mut counts);
            checker.holds((reply, counts) == (0, numbers), "not the numbers that are known");
            for room in 0..=4 {
                checker.count_sets(atoms, &bonds, room);
            }
        });
    }
    checker.case("sets of a ring and of one atom too many", |checker| {
        let six = shapes::ring(6).bond_bytes();
        for (atoms, room) in [(6, 2), (6, 0), (7, 2), (0, 0)] {
            checker.count_sets(atoms, &six, room);
        }
    });
}
