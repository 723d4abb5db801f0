//! The programs `sheet` and `desk`, which is told by its first word what to do: run on decks, molfiles and neighbour texts, from standard input in pieces, and from files.

use crate::checker::Checker;
use opinion::documents::FORTY;
use opinion::line::{judge_line, measure_line, neighbours_line, sheet_line};
use opinion::make::damage_bytes::damage_bytes;
use opinion::make::decks::random_deck;
use opinion::make::library_specimens::TWO_PRODUCTS;
use opinion::make::molfiles::{damage_molfile, random_molfile};
use opinion::make::neighbours::{damage_text, random_text};
use opinion::make::random::Random;
use opinion::make::specimens;
use opinion::molecule::Measurer;
use std::fs::{self, File};
use std::io::{self, Write};
use std::path::{Path, PathBuf};
use std::process::{Command, Output, Stdio};
use std::time::Duration;

const RANDOM_DECKS: u64 = 400;

pub fn run(checker: &mut Checker, folder: &Path, seed: u64) {
    let room = std::env::temp_dir().join(format!("tteuyomal-compare-{}", std::process::id()));
    fs::create_dir_all(&room).expect("a folder for the inputs");
    let (decks, files) = (decks(seed), molfiles(seed));
    let measurer = &mut Measurer::default();
    let sheets = decks.iter().map(|deck| sheet_line(measurer, deck)).collect();
    program(checker, &folder.join("sheet"), &[], &room, &decks, sheets);
    let desk = &folder.join("desk");
    let verdicts = decks.iter().map(|deck| judge_line(measurer, deck)).collect();
    program(checker, desk, &["judge"], &room, &decks, verdicts);
    let measured = files.iter().map(|file| measure_line(file)).collect();
    program(checker, desk, &["measure"], &room, &files, measured);
    let texts = texts(seed);
    let measured = texts.iter().map(|text| neighbours_line(text)).collect();
    program(checker, desk, &["neighbours"], &room, &texts, measured);
    other_words(checker, desk);
    fs::remove_dir_all(&room).expect("the folder is ours");
}

/// One program with its first words, on inputs, each with the line that is right.
fn program(checker: &mut Checker, program: &Path, words: &[&str], room: &Path, inputs: &[Vec<u8>], lines: Vec<String>) {
    let name = format!("{} {}", program.file_name().expect("a program has a name").to_string_lossy(), words.join(" "));
    if !program.is_file() {
        checker.case(&name, |checker| checker.holds(false, format!("{} is not there", program.display())));
        return;
    }
    for (at, input) in inputs.iter().enumerate().filter(|(at, _)| at % 8 == 0) {
        checker.case(format!("{name} reads input {at} from standard input"), |checker| {
            let said = from_standard_input(Command::new(program).args(words), input, at % 64 == 0);
            checker.holds(said == format!("{}\n", lines[at]), format!("printed {said:?}, right is {:?}", lines[at]));
        });
    }
    from_files(checker, Command::new(program).args(words), room, inputs, &lines);
    checker.case(format!("{name} on an input that cannot be read"), |checker| {
        let said = command_says(Command::new(program).args(words).stdin(File::open(room).expect("a folder")));
        let good = said.contains("accepted") || said.contains("atoms");
        checker.holds(!good, format!("printed {said:?}"));
    });
}

/// A word that `desk` does not know, or none, is told so, and no file is looked at.
fn other_words(checker: &mut Checker, desk: &Path) {
    let right = "the first word is judge, measure or neighbours\n";
    for words in [&[][..], &[""], &["sheet"], &["Judge"], &["judge "], &["judges", "file"], &["neighbourss"]] {
        checker.case(format!("desk {words:?}"), |checker| {
            let said = command_says(Command::new(desk).args(words).stdin(Stdio::null()));
            checker.holds(said == right, format!("printed {said:?}"));
        });
    }
}

/// Files whose length is about the most that is read, and random ones, some damaged.
fn molfiles(seed: u64) -> Vec<Vec<u8>> {
    let good = format!("\n\n\n  1  0\n{:31}C\nM  END\n", "").into_bytes();
    let mut files: Vec<Vec<u8>> = [(1 << 20) - 1, 1 << 20, (1 << 20) + 1, 3 << 20]
        .iter()
        .map(|&length| [&good[..], &vec![b'x'; length - good.len()]].concat())
        .collect();
    for case in 0..RANDOM_DECKS {
        let random = &mut Random::for_case(seed, case);
        let mut file = random_molfile(random);
        if random.once_in(2) {
            damage_molfile(random, &mut file);
        }
        files.push(file.bytes());
    }
    files
}

/// Texts whose length is about the most that is read, and random ones, some damaged.
fn texts(seed: u64) -> Vec<Vec<u8>> {
    let lengths = [(1 << 20) - 1, 1 << 20, (1 << 20) + 1];
    let mut texts: Vec<Vec<u8>> =
        lengths.iter().map(|&length| [b"1\n0\n", &vec![b' '; length - 4][..]].concat()).collect();
    for case in 0..RANDOM_DECKS {
        let random = &mut Random::for_case(seed, case);
        let mut text = random_text(random);
        if random.once_in(2) {
            damage_text(random, &mut text);
        }
        texts.push(text.bytes(random));
    }
    texts
}

/// The specimens, a library, which neither program takes, and random decks with and without sheets, some damaged.
fn decks(seed: u64) -> Vec<Vec<u8>> {
    let mut decks = vec![FORTY.to_vec(), TWO_PRODUCTS.to_vec()];
    decks.extend(specimens::decks().into_iter().map(|specimen| specimen.deck));
    for case in 0..RANDOM_DECKS {
        let random = &mut Random::for_case(seed, case);
        let mut deck = random_deck(random);
        if random.once_in(2) {
            let right = opinion::answers::compose_six(&mut Measurer::default(), &deck.bytes(), 6);
            deck.sheet = right.ok().map(|fields| fields[..random.between(5, 6)].to_vec());
        }
        let mut bytes = deck.bytes();
        if random.once_in(2) {
            damage_bytes(random, &mut bytes);
        }
        decks.push(bytes);
    }
    decks
}

/// What was printed, or why the program could not be run.
fn printed(output: io::Result<Output>) -> String {
    match output {
        Ok(output) => String::from_utf8_lossy(&output.stdout).into_owned(),
        Err(fault) => format!("nothing: it could not be run ({fault})"),
    }
}

fn command_says(command: &mut Command) -> String {
    printed(command.stderr(Stdio::null()).output())
}

/// Writes the deck to a program in two pieces, with a pause between them where it is to be slow.
fn from_standard_input(command: &mut Command, deck: &[u8], slow: bool) -> String {
    let mut child = match command.stdin(Stdio::piped()).stdout(Stdio::piped()).spawn() {
        Ok(child) => child,
        Err(fault) => return printed(Err(fault)),
    };
    let mut pipe = child.stdin.take().expect("a pipe");
    let (front, back) = deck.split_at(deck.len() / 3);
    // a program may stop reading once it knows that the deck is too long: a closed pipe is no fault
    let _ = pipe.write_all(front);
    if slow {
        std::thread::sleep(Duration::from_millis(20));
    }
    let _ = pipe.write_all(back);
    drop(pipe);
    printed(child.wait_with_output())
}

/// All decks as files in one call, among them a file that is not there and a folder.
fn from_files(checker: &mut Checker, command: &mut Command, room: &Path, decks: &[Vec<u8>], lines: &[String]) {
    let mut files: Vec<PathBuf> = Vec::new();
    let mut right = Vec::new();
    for (at, (deck, line)) in decks.iter().zip(lines).enumerate() {
        let file = room.join(format!("input {at}"));
        fs::write(&file, deck).expect("an input is written");
        right.push(format!("{}: {line}", file.display()));
        files.push(file);
    }
    for (at, unreadable) in [(7, room.join("not there")), (3, room.to_path_buf())] {
        right.insert(at, format!("{}: cannot be read", unreadable.display()));
        files.insert(at, unreadable);
    }
    let said = command_says(command.args(&files).stdin(Stdio::null()));
    let said: Vec<&str> = said.lines().collect();
    for (at, line) in right.iter().enumerate() {
        checker.case(line, |checker| {
            let found = said.get(at).copied().unwrap_or("nothing");
            checker.holds(found == line, format!("printed {found:?}"));
        });
    }
    checker.case("one line a file", |checker| checker.holds(said.len() == right.len(), "more lines than files"));
}
