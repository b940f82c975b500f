//! The input of the program `depot` as text and back. A list of commands is written one a line,
//! as the program prints them; the settings and the turns are options.
//!
//! `input` is the program's binary input, `options` are those of `depot_text pack`, and `rounds` shows
//! a list with its rounds.

pub mod input;
pub mod options;
pub mod rounds;

use crate::bytes::MOST_COMMANDS;
use crate::command::{Command, Kind, LARGEST_CHUTE, LARGEST_COUNT};
use crate::identifier::{self, CHECK_DIGIT, LENGTH};
use crate::refusal::{Fault, Refusal};
use input::Input;

/// Longer turns may not fit on a command line.
const LONGEST_ARGUMENT: usize = 100_000;

/// Reads a list of commands, one a line, or says which line is wrong and why.
///
/// A line is an optional place, the kind, the identifier and the chute if the kind carries one; of a
/// worker change, which has no identifier to type, the kind and the count: `workers 5`; of a
/// checkpoint the kind alone. What stands behind `#` is a comment; a line may be empty.
pub fn read_list(text: &[u8]) -> Result<Vec<Command>, String> {
    let mut commands = Vec::new();
    for (number, words) in lines(text) {
        let at_line = |fault: String| format!("line {number}: {fault}");
        let words = words.map_err(at_line)?;
        if words.is_empty() {
            continue;
        }
        if commands.len() == MOST_COMMANDS {
            return Err(at_line("over 4,096 commands (refusal 5)".to_string()));
        }
        commands.push(read_command(&words, commands.len() + 1).map_err(at_line)?);
    }
    Ok(commands)
}

/// Shows an input as a list that `read_list` reads, below the command that packs it again.
///
/// The turns stand in that command, or in the file that is named.
pub fn show(input: &Input, turns_file: Option<&str>) -> String {
    let mut text = header(input, turns_file);
    for (index, command) in input.commands.iter().enumerate() {
        text += &format!("{} {}\n", index + 1, show_command(command));
    }
    text
}

/// A command as a line of a list, without its place.
pub fn show_command(command: &Command) -> String {
    let text = identifier_text(command);
    let name = kind_name(command.kind);
    match command.kind {
        Kind::Insert | Kind::Update => format!("{name} {text} {}", command.chute),
        Kind::Delete | Kind::Read => format!("{name} {text}"),
        Kind::Workers => format!("{name} {}", command.chute),
        Kind::Checkpoint => name.to_string(),
    }
}

/// The identifier of a command as its bytes have it.
pub fn identifier_text(command: &Command) -> String {
    let text = match command.kind {
        Kind::Workers | Kind::Checkpoint => identifier::NONE,
        Kind::Insert | Kind::Delete | Kind::Read | Kind::Update => {
            identifier::text(command.key).expect("the key of a command is not too large")
        }
    };
    text.map(char::from).iter().collect()
}

/// The word for a kind in lists and in the program's output.
pub fn kind_name(kind: Kind) -> &'static str {
    match kind {
        Kind::Insert => "insert",
        Kind::Delete => "delete",
        Kind::Read => "read",
        Kind::Update => "update",
        Kind::Workers => "workers",
        Kind::Checkpoint => "checkpoint",
    }
}

/// A number with its noun.
pub fn count(number: usize, noun: &str) -> String {
    let ending = if number == 1 { "" } else { "s" };
    format!("{number} {noun}{ending}")
}

/// The party numbers of a schedule as words.
pub fn show_turns(schedule: &[u8]) -> String {
    let words: Vec<String> = schedule.iter().map(u8::to_string).collect();
    words.join(" ")
}

/// Reads party numbers, in as many lines as one likes, with comments behind `#`.
pub fn read_turns(text: &[u8]) -> Result<Vec<u64>, String> {
    let mut turns = Vec::new();
    for (line, words) in lines(text) {
        for word in words.map_err(|fault| format!("line {line}: {fault}"))? {
            let turn = read_number(word);
            turns.push(turn.ok_or(format!("line {line}: `{word}` is no party number"))?);
        }
    }
    Ok(turns)
}

/// Each line's number, from 1, and its words without the comment.
fn lines(text: &[u8]) -> impl Iterator<Item = (usize, Result<Vec<&str>, String>)> {
    let lines = text.split(|byte| *byte == b'\n').enumerate();
    lines.map(|(index, line)| {
        let code = line.split(|byte| *byte == b'#').next().unwrap_or(line);
        let code = str::from_utf8(code).map_err(|_| "this is no text in UTF-8".to_string());
        (
            index + 1,
            code.map(|code| code.split_whitespace().collect()),
        )
    })
}

fn read_command(words: &[&str], place: usize) -> Result<Command, String> {
    let words = without_place(words, place)?;
    let [kind, words @ ..] = words else {
        return Err("a place and no command".to_string());
    };
    let kind = Kind::ALL
        .into_iter()
        .find(|known| kind_name(*known) == *kind)
        .ok_or(format!(
            "unknown kind `{kind}`; the kinds are insert, delete, read, update, workers and \
             checkpoint (refusal 7)"
        ))?;
    match kind {
        Kind::Insert | Kind::Delete | Kind::Read | Kind::Update => read_of_item(kind, words),
        Kind::Workers => read_count(words).map(Command::workers),
        Kind::Checkpoint => match words {
            [] => Ok(Command::CHECKPOINT),
            [word, ..] => Err(format!(
                "`{word}` behind checkpoint, which stands alone in its line"
            )),
        },
    }
}

/// Reads what stands behind a kind that names an item.
fn read_of_item(kind: Kind, words: &[&str]) -> Result<Command, String> {
    let [text, words @ ..] = words else {
        return Err(format!("{} without an identifier", kind_name(kind)));
    };
    let key = read_identifier(text)?;
    let chute = read_chute(kind, words)?;
    Ok(Command { kind, key, chute })
}

/// Reads an identifier. Each character counts as one, also where it is more than one byte of the
/// text: a character outside ASCII is then a faulty one, and no wrong length.
fn read_identifier(text: &str) -> Result<u64, String> {
    let characters: Vec<char> = text.chars().collect();
    let bytes: Vec<u8> = characters
        .iter()
        .map(|character| u8::try_from(*character).unwrap_or(u8::MAX))
        .collect();
    identifier::read(&bytes).map_err(|fault| {
        let shown: Vec<String> = characters.iter().map(char::to_string).collect();
        let words = identifier_fault(&shown, fault);
        let number = fault.refusal.number();
        format!("identifier `{text}`: {words} (refusal {number})")
    })
}

/// The words behind the place, if there is one; it must be the command's.
fn without_place<'a>(words: &'a [&'a str], place: usize) -> Result<&'a [&'a str], String> {
    match words {
        [first, rest @ ..] if is_number(first) => {
            if read_number(first) != Some(place as u64) {
                return Err(format!("place {first}, but this is command {place}"));
            }
            Ok(rest)
        }
        _ => Ok(words),
    }
}

fn read_chute(kind: Kind, words: &[&str]) -> Result<u16, String> {
    let name = kind_name(kind);
    match words {
        [] if kind.carries_chute() => Err(format!("{name} without a chute, 1 to {LARGEST_CHUTE}")),
        [] => Ok(0),
        [word, ..] if !kind.carries_chute() => Err(format!(
            "`{word}` behind the identifier, but {name} carries no chute (refusal 10)"
        )),
        [_, word, ..] => Err(format!(
            "`{word}` behind the chute, where the line should end"
        )),
        [word] => match read_number(word) {
            Some(chute) if (1..=LARGEST_CHUTE.into()).contains(&chute) => Ok(chute as u16),
            _ => Err(format!(
                "chute `{word}` is not 1 to {LARGEST_CHUTE} (refusal 10)"
            )),
        },
    }
}

fn read_count(words: &[&str]) -> Result<u16, String> {
    match words {
        [] => Err(format!("workers without a count, 1 to {LARGEST_COUNT}")),
        [_, word, ..] => Err(format!(
            "`{word}` behind the count, where the line should end"
        )),
        [word] => match read_number(word) {
            Some(count) if (1..=LARGEST_COUNT.into()).contains(&count) => Ok(count as u16),
            _ => Err(format!(
                "count `{word}` is not 1 to {LARGEST_COUNT} (refusal 14)"
            )),
        },
    }
}

/// What is wrong with the characters that stand for an identifier in a worker change or checkpoint.
fn not_0(characters: &[String], fault: Fault) -> String {
    let number = fault.character;
    format!("character {number} is `{}`, not 0", characters[number - 1])
}

/// What is wrong with an identifier that was refused; its characters are given as they are shown.
fn identifier_fault(characters: &[String], fault: Fault) -> String {
    let number = fault.character;
    let Some(position) = number.checked_sub(1) else {
        return format!("{} characters, not {LENGTH}", characters.len());
    };
    let found = &characters[position];
    match fault.refusal {
        Refusal::CheckDigit => {
            let right = right_check_digit(characters);
            format!("character {number}, check digit {found}, should be {right}")
        }
        Refusal::Digit => format!("character {number} is `{found}`, not a digit"),
        _ => format!("character {number} is `{found}`, not a letter A to Z"),
    }
}

/// The check digit of an identifier all of whose characters are in order.
fn right_check_digit(characters: &[String]) -> char {
    let serial = characters[2..CHECK_DIGIT].concat();
    identifier::check_digit(serial.parse().expect("eight digits")).into()
}

fn is_number(word: &str) -> bool {
    word.bytes().all(|byte| byte.is_ascii_digit())
}

/// The number that a word of digits is; `None` for other words and numbers past 64 bits.
fn read_number(word: &str) -> Option<u64> {
    is_number(word).then(|| word.parse().ok()).flatten()
}

fn header(input: &Input, turns_file: Option<&str>) -> String {
    let settings = input.settings;
    let turns = show_turns(&input.schedule);
    let turns_option = match turns_file {
        Some(file) => format!(" --turns-file {file}"),
        None if turns.is_empty() => String::new(),
        None => format!(" --turns \"{turns}\""),
    };
    let mut text = format!(
        "# graph size {}, workers {}, room {}, commands {}, turns {}\n\
         # depot_text pack --size {} --workers {} --room {}{turns_option}\n",
        settings.size,
        settings.workers,
        settings.room,
        input.commands.len(),
        input.schedule.len(),
        settings.size,
        settings.workers,
        settings.room,
    );
    if turns_file.is_none() && turns.len() > LONGEST_ARGUMENT {
        text += "# a shell may refuse so many turns: unpack with --turns-file FILE\n";
    }
    text
}

#[cfg(test)]
mod tests {
    use super::*;
    use crate::random::Random;
    use crate::run::Settings;
    use options::Options;

    const LIST: &str = "\
# two commands of one item
insert AA000000005AA 7

2 read AA000000005AA   # the same item
delete ZZ999999995ZZ\r
4 update RR473124829GB 512
workers 64 # from here on
6 workers 1
7 checkpoint";

    fn fault(list: &str) -> String {
        read_list(list.as_bytes()).expect_err(list)
    }

    #[test]
    fn a_list_is_read_with_places_comments_and_empty_lines() {
        let shown: Vec<String> = read_list(LIST.as_bytes())
            .unwrap()
            .iter()
            .map(show_command)
            .collect();
        let expected = [
            "insert AA000000005AA 7",
            "read AA000000005AA",
            "delete ZZ999999995ZZ",
            "update RR473124829GB 512",
            "workers 64",
            "workers 1",
            "checkpoint",
        ];
        assert_eq!(shown, expected);
        assert_eq!(read_list(b""), Ok(vec![]));
        assert_eq!(read_list(b"# nothing\n\n"), Ok(vec![]));
    }

    /// Wrong lines, and what is said of them.
    const FAULTS: &[(&str, &str)] = &[
        (
            "Insert AA000000005AA 7",
            "unknown kind `Insert`; the kinds are insert, delete, read, update, workers and \
             checkpoint (refusal 7)",
        ),
        ("8", "a place and no command"),
        ("4 read AA000000005AA", "place 4, but this is command 8"),
        (
            "99999999999999999999 read AA000000005AA",
            "place 99999999999999999999, but this is command 8",
        ),
        ("read", "read without an identifier"),
        (
            "read Aa000000005AA",
            "identifier `Aa000000005AA`: character 2 is `a`, not a letter A to Z (refusal 8)",
        ),
        (
            "read AA00000000OAA",
            "identifier `AA00000000OAA`: character 11 is `O`, not a digit (refusal 13)",
        ),
        (
            "read AA000000005A",
            "identifier `AA000000005A`: 12 characters, not 13 (refusal 8)",
        ),
        (
            "read AA00000000ÄAA",
            "identifier `AA00000000ÄAA`: character 11 is `Ä`, not a digit (refusal 13)",
        ),
        (
            "read aÄ0000000x5AA",
            "identifier `aÄ0000000x5AA`: character 1 is `a`, not a letter A to Z (refusal 8)",
        ),
        (
            "read AAx00000004Aa",
            "identifier `AAx00000004Aa`: character 3 is `x`, not a digit (refusal 13)",
        ),
        (
            "read AA000000004AA",
            "identifier `AA000000004AA`: character 11, check digit 4, should be 5 (refusal 9)",
        ),
        ("insert AA000000005AA", "insert without a chute, 1 to 512"),
        (
            "insert AA000000005AA 0",
            "chute `0` is not 1 to 512 (refusal 10)",
        ),
        (
            "update AA000000005AA 513",
            "chute `513` is not 1 to 512 (refusal 10)",
        ),
        (
            "update AA000000005AA +7",
            "chute `+7` is not 1 to 512 (refusal 10)",
        ),
        (
            "insert AA000000005AA 7 8",
            "`8` behind the chute, where the line should end",
        ),
        (
            "read AA000000005AA 7",
            "`7` behind the identifier, but read carries no chute (refusal 10)",
        ),
        (
            "delete AA000000005AA x",
            "`x` behind the identifier, but delete carries no chute (refusal 10)",
        ),
        ("workers", "workers without a count, 1 to 64"),
        ("8 workers", "workers without a count, 1 to 64"),
        ("workers 0", "count `0` is not 1 to 64 (refusal 14)"),
        ("workers 65", "count `65` is not 1 to 64 (refusal 14)"),
        ("workers 257", "count `257` is not 1 to 64 (refusal 14)"),
        ("workers 65537", "count `65537` is not 1 to 64 (refusal 14)"),
        ("workers -1", "count `-1` is not 1 to 64 (refusal 14)"),
        (
            "workers 0000000000000 5",
            "`5` behind the count, where the line should end",
        ),
        (
            "Workers 5",
            "unknown kind `Workers`; the kinds are insert, delete, read, update, workers and \
             checkpoint (refusal 7)",
        ),
        (
            "checkpoint 0",
            "`0` behind checkpoint, which stands alone in its line",
        ),
        (
            "8 checkpoint 0000000000000",
            "`0000000000000` behind checkpoint, which stands alone in its line",
        ),
    ];

    /// Each fault, put behind the lines of a right list, is found at line 10 with these words.
    #[test]
    fn each_fault_is_told_with_its_line() {
        for (line, words) in FAULTS {
            assert_eq!(
                fault(&format!("{LIST}\n{line}\n")),
                format!("line 10: {words}")
            );
        }
    }

    #[test]
    fn a_line_that_is_no_text_is_told() {
        let fault = read_list(b"# \xff in a comment is passed over\nread \xff").unwrap_err();
        assert_eq!(fault, "line 2: this is no text in UTF-8");
    }

    #[test]
    fn a_list_of_4096_commands_is_read_and_one_more_is_not() {
        let most = "delete AA000000005AA\n".repeat(4096);
        assert_eq!(read_list(most.as_bytes()).unwrap().len(), 4096);
        let words = "line 4098: over 4,096 commands (refusal 5)";
        assert_eq!(fault(&format!("{most}\nread AA000000005AA")), words);
    }

    /// An input with a random list and random turns.
    fn random_input(random: &mut Random) -> Input {
        let settings = Settings {
            size: 1 + random.below(150) as u8,
            workers: 1 + random.below(64) as u8,
            room: 1 + random.below(4096) as u16,
        };
        let commands = (0..random.below(40))
            .map(|_| random_command(random))
            .collect();
        let turns = random.below(3) * random.below(200);
        let mut input = Input {
            settings,
            commands,
            schedule: Vec::new(),
        };
        let parties = u64::from(input.largest()) + 1;
        input.schedule = (0..turns).map(|_| random.below(parties) as u8).collect();
        input
    }

    pub fn random_command(random: &mut Random) -> Command {
        let kind = random.pick(&Kind::ALL);
        match kind {
            Kind::Workers => return Command::workers(1 + random.below(64) as u16),
            Kind::Checkpoint => return Command::CHECKPOINT,
            Kind::Insert | Kind::Delete | Kind::Read | Kind::Update => {}
        }
        let chute = if kind.carries_chute() {
            1 + random.below(512) as u16
        } else {
            0
        };
        let key = random.below(identifier::LARGEST_KEY + 1);
        Command { kind, key, chute }
    }

    /// The options that the second line of a shown input gives.
    fn shown_options(text: &str) -> Vec<&str> {
        let line = text.lines().nth(1).unwrap();
        let (options, turns) = line.split_once(" --turns \"").unwrap_or((line, ""));
        let mut words: Vec<&str> = options
            .strip_prefix("# depot_text pack ")
            .unwrap()
            .split(' ')
            .collect();
        if !turns.is_empty() {
            words.extend(["--turns", turns.strip_suffix('"').unwrap()]);
        }
        words
    }

    fn no_file(_: &str) -> Result<Vec<u8>, String> {
        Err("no file is read".to_string())
    }

    #[test]
    fn packing_what_was_unpacked_gives_the_same_bytes() {
        let random = &mut Random::new(7);
        for _ in 0..300 {
            let bytes = random_input(random).bytes().unwrap();
            let text = show(&Input::read(&bytes).unwrap(), None);
            let options = Options::read(&shown_options(&text)).unwrap();
            assert_eq!(options.pack(text.as_bytes(), no_file), Ok(bytes), "{text}");
        }
    }

    #[test]
    fn packing_with_the_unpacked_file_of_turns_gives_the_same_bytes() {
        let random = &mut Random::new(8);
        for _ in 0..100 {
            let input = random_input(random);
            let text = show(&input, Some("turns.txt"));
            let options = shown_options(&text);
            assert_eq!(options[6..], ["--turns-file", "turns.txt"]);
            let turns = show_turns(&input.schedule);
            let read_file = |_: &str| Ok(turns.clone().into_bytes());
            let packed = Options::read(&options)
                .unwrap()
                .pack(text.as_bytes(), read_file);
            assert_eq!(packed, Ok(input.bytes().unwrap()));
        }
    }

    #[test]
    fn turns_too_many_for_a_command_line_are_pointed_out() {
        let mut input = random_input(&mut Random::new(9));
        let advised = |input: &Input| show(input, None).contains("unpack with --turns-file FILE");
        input.schedule = vec![0; 50_000];
        assert!(!advised(&input));
        input.schedule = vec![0; 50_001];
        assert!(advised(&input));
    }
}
