//! The numbers that the documents print, through the crate.
use tteuyomal::*;

const RING: [u8; 12] = [1, 2, 2, 3, 3, 4, 4, 5, 5, 6, 6, 1];

/// Two rings of 6 joined by a bond.
fn deck() -> Vec<u8> {
    let mut deck = vec![18, 0, 1, 0, 1, 0, 6, 0, 6, 0];
    deck.extend(RING);
    deck.extend([14, 0, 2, 0, 2, 0, 1, 0, 0, 0, 0, 0, 1, 0, 1, 0, 1, 1]);
    deck
}

#[test]
fn decks() {
    assert_eq!(compose_six(&deck()), Ok([12, 198, 96, 102, 14, 7]));
    assert_eq!(placed_distance(&deck(), (1, 4), (2, 4)), Ok(7));
    let mut judged = deck();
    judged.extend(write_sheet(&deck()).unwrap());
    assert_eq!(judge(&judged), Verdict::Accepted);
    judged[40 + 4 + 4] += 1;
    assert_eq!(judge(&judged), Verdict::Differs(2));
    assert_eq!(judge(&deck()), Verdict::Refused(Refusal { number: 11, place: 40 }));
    assert_eq!(judge(&deck()).to_string().split(':').next(), Some("refused 11 at 40"));
}

#[test]
fn blocks() {
    assert_eq!(indices(6, &RING), Ok([6, 27, 12, 15, 3]));
    assert_eq!(farthest(6, &RING, 1), Ok(3));
    assert_eq!(balaban(6, &RING), Ok(1_999_999_998));
    assert_eq!(count_sets(6, &RING), Err(Refusal { number: 34, place: 0 }));
    assert_eq!(count_sets(4, &[1, 2, 2, 3, 3, 4]), Ok(Sets { bonds: 5, atoms: 8 }));
    let given = contributions(6, &RING).unwrap();
    assert_eq!(given.shares.iter().sum::<u64>(), 27 * given.denominator);
    assert_eq!(szeged(6, &RING).map(|x| x.index), Ok(54));
    assert_eq!(check_block(2, &[]), Err(Refusal { number: 7, place: 0 }));
}

#[test]
fn texts() {
    let block = read_molfile(&write_molfile(6, &RING).unwrap()).unwrap();
    assert_eq!((block.atoms, &block.bonds[..]), (6, &RING[..]));
    assert_eq!(read_neighbours(b"2 1 2 0 0").map(|x| x.bonds), Ok(vec![1, 2]));
}

#[test]
fn libraries() {
    let mut deck = vec![18, 0, 1, 0, 1, 0, 6, 0, 6, 0];
    deck.extend(RING);
    deck.extend([6, 0, 1, 0, 2, 0, 1, 0, 0, 0]);
    deck.extend([17, 0, 5, 0, 1, 0, 2, 0, 1, 2, 2, 0, 1, 1, 0, 1, 4, 1, 2, 0, 1]);
    assert_eq!(library_count(&deck), Ok(2));
    let mut out = [0; 80];
    assert_eq!(library_run(&deck, Kind::Five, 0, &mut out), Ok(Some(2)));
    assert_eq!(u64::from_le_bytes(out[48..56].try_into().unwrap()), 252);
    assert_eq!(library_step(&deck, Kind::Five, 2, &mut out), Ok(None));
    let mut best = [Ranked::default(); 3];
    assert_eq!(library_best(&deck, 2, true, 7, &mut best, 0), Ok(2));
    assert_eq!(best.map(|one| (one.value, one.tag, one.position)), [(252, 7, 1), (62, 7, 0), (0, 0, 0)]);
    assert_eq!(library_best(&deck, 7, true, 7, &mut best, 0).map_err(|refusal| refusal.number), Err(35));
}

#[test]
fn queues() {
    let mut table = Table::new();
    table.add(Queue::Day, 1, 6, &RING).unwrap();
    assert_eq!(table.look(Queue::Day, 1), Ok([6, 27, 12, 15, 3, 3]));
    assert_eq!(table.look(Queue::Night, 1), Err(Refusal { number: 30, place: 0 }));
    let sheet = table.compose(Queue::Day, Kind::Six, &deck()[22..]).unwrap();
    assert_eq!(sheet, write_six(&deck()).unwrap());
}

#[test]
fn claims() {
    let six = Claims::new().claim(Field::Atoms, "12").claim(Field::W, " 198.0").claim(Field::Largest, "7");
    assert_eq!(judge_claims(&deck(), &six), Verdict::Accepted);
    assert_eq!(judge_claims(&deck(), &six.claim(Field::Polarity, "13")), Verdict::Differs(4));
    assert_eq!(judge_claims(&deck(), &Claims::new()), Verdict::Refused(Refusal { number: 36, place: 0 }));
    assert_eq!(judge_block(6, &RING, &Claims::new().claim(Field::Balaban, "2.0")), Verdict::Accepted);
    let long = Claims::new().claim(Field::W, &"0".repeat(300));
    assert_eq!(judge_block(6, &RING, &long), Verdict::Refused(Refusal { number: 37, place: 1 }));
    let hosoya = Claims::new().claim(Field::W, "27").claim(Field::Hosoya, "18");
    assert_eq!(judge_block(6, &RING, &hosoya), Verdict::Refused(Refusal { number: 34, place: 0 }));
}

#[test]
fn sdf() {
    let mut text = write_molfile(6, &RING).unwrap();
    text.extend(b"> <W>\n27\n\n$$$$\n");
    let again = [&text[..], &text, b"\r\n"].concat();
    let records: Vec<&[u8]> = sdf_records(&again).collect();
    assert_eq!(records, [&text[..text.len() - 5]; 2]);
    assert_eq!(sdf_item(records[0], b"W"), Ok(&b"27"[..]));
    assert_eq!(sdf_item(records[0], b"w"), Err(Refusal { number: 38, place: 0 }));
    assert_eq!(sdf_record(&again, again.len() - 2), None);
}

#[test]
fn molecules() {
    let molecule = written_out(&deck()).unwrap();
    assert_eq!((molecule.atoms, molecule.bonds.len(), molecule.bonds[12]), (12, 13, [1, 7]));
    let mut matching: Vec<[u16; 2]> = (0..12).map(|at| [1 + at / 6, 1 + at % 6]).collect();
    assert_eq!(matched(&deck(), &molecule, &matching), Verdict::Accepted);
    matching.swap(0, 6);
    assert_eq!(matched(&deck(), &molecule, &matching), Verdict::Differs(12 + 1));
    matching[3] = [3, 1];
    assert_eq!(matched(&deck(), &molecule, &matching), Verdict::Differs(4));
    assert_eq!(matched(&deck(), &molecule, &matching[1..]), Verdict::Refused(Refusal { number: 9, place: 0 }));
    let block = read_molfile(&write_molfile(6, &RING).unwrap()).unwrap();
    let whole = read_whole(&write_molfile(6, &RING).unwrap()).unwrap();
    assert_eq!(whole.bonds.as_flattened().iter().map(|&end| end as u8).collect::<Vec<u8>>(), block.bonds);
    assert_eq!(read_whole(b""), Err(Refusal { number: 25, place: 0 }));
}
