//! Turns a sheet written as text into bytes and back, and serves ./ask: the program's input, and its answer in words.
//! It judges no layout rule, so that faulty sheets can be made too: judging is the check's work.

mod asked;
mod bytes;
mod direction;
mod refusals;
mod sections;
mod text;
mod words;

use asked::Asked;
use direction::Direction;
use sections::{number, Sheet};
use std::ffi::OsString;
use std::io::{self, IsTerminal, Read, Write};
use std::path::Path;
use std::process::ExitCode;
use std::{env, fs};

const USAGE: &str = "\
usage: ./sheet bytes FILE.txt [OUT]    a sheet written as text, to bytes
       ./sheet text FILE.sheet [OUT]   a sheet's bytes, to text
The result goes to the file OUT, or to standard output.

The text has one record to a line, as numbers with spaces between; # begins a comment; blank lines are skipped.
Four sections in this order, each begun by its word alone on a line, also where it is empty:
    places     x y gazetteer
    stages     tail head length
    blocks     place code level colour low high
    offices    place
Exit status: 0 done; 1 the file is bad; 2 bad usage, or a file that cannot be read or written.
(./ask uses two more: input SHEET to|from Q K; words SHEET to|from Q, which reads what the program printed.)";

const ASK_USAGE: &str = "\
usage: ./ask SHEET to Q K      lists the K offices nearest by road to place Q: the road runs from the office to the place,
                               as that of a letter that came to Q did
       ./ask SHEET from Q K    lists the K offices nearest by road from place Q: the road runs from the place to the office
SHEET is a sheet as text where its name ends in .txt, else as bytes. K is a number.
Q is a number too, the place's on this sheet, from 0; or # and its gazetteer number, which must be quoted:
    ./ask SHEET to '#103' K
since the shell takes a # without quotes, and all that follows it, for a comment.
Exit status: 0 answered; 1 refused; 2 the question could not be put.";

/// What went wrong, and the exit status that tells it.
struct Failure(u8, String);

const BAD_FILE: u8 = 1;
const BAD_USAGE: u8 = 2;

const NOT_LOOKED_UP: &str = "a gazetteer number cannot be looked up in a sheet that is not whole \
    (asked with a place number, the program tells by what number it refuses the sheet): ";

const MAY_BE_OLD: &str = "take care: whole with three words to a place, and with two as well; if it is from before places had \
    gazetteer numbers it is read as another sheet, and the atlas house has a new issue of it";

/// The exit status of a refusal told in words.
const REFUSED: u8 = 1;

fn main() -> ExitCode {
    let arguments: Vec<OsString> = env::args_os().skip(1).collect();
    match run(&arguments) {
        Ok(status) => ExitCode::from(status),
        Err(Failure(status, message)) => {
            eprintln!("{message}");
            ExitCode::from(status)
        }
    }
}

fn run(arguments: &[OsString]) -> Result<u8, Failure> {
    let command = arguments.first().and_then(|word| word.to_str()).unwrap_or("");
    let paths: Vec<&Path> = arguments.iter().skip(1).map(Path::new).collect();
    match (command, &paths[..]) {
        ("bytes", &[file]) if io::stdout().is_terminal() => Err(Failure(
            BAD_USAGE,
            format!("bytes are not for the screen: name a file to write, as in ./sheet bytes {} OUT", file.display()),
        )),
        ("bytes" | "text", &[file, out]) if file == out => {
            Err(Failure(BAD_USAGE, format!("{} would be written over itself: name another file", file.display())))
        }
        ("bytes", &[file, ref out @ ..]) if out.len() < 2 => put(out, &bytes::write(&from_text(file)?)),
        ("text", &[file, ref out @ ..]) if out.len() < 2 => put(out, text::write(&from_bytes(file, &get_warned(file)?)?).as_bytes()),
        ("input", question) => put(&[], &input(question)?),
        ("words", &[file, direction, q]) => answer(file, direction, q),
        _ => Err(Failure(BAD_USAGE, USAGE.to_string())),
    }
}

/// Writes to the one file named, or to standard output.
fn put(out: &[&Path], content: &[u8]) -> Result<u8, Failure> {
    let (name, done) = match out.first() {
        Some(file) => (file.display().to_string(), fs::write(file, content)),
        None => ("standard output".to_string(), io::stdout().write_all(content)),
    };
    done.map_err(|error| Failure(BAD_USAGE, format!("{name} cannot be written: {error}")))?;
    Ok(0)
}

fn get(file: &Path) -> Result<Vec<u8>, Failure> {
    fs::read(file).map_err(|error| Failure(BAD_USAGE, format!("{} cannot be read: {error}", file.display())))
}

fn from_text(file: &Path) -> Result<Sheet, Failure> {
    // A comment may be in any encoding; what is no number or word is told as it looks.
    let content = get(file)?;
    text::read(&String::from_utf8_lossy(&content))
        .map_err(|(line, fault)| Failure(BAD_FILE, format!("{}, line {line}: {fault}", file.display())))
}

/// The bytes of a sheet, with a warning where they may be those of an old one.
fn get_warned(file: &Path) -> Result<Vec<u8>, Failure> {
    let content = get(file)?;
    if bytes::may_be_old(&content) {
        eprintln!("{}: {MAY_BE_OLD}", file.display());
    }
    Ok(content)
}

fn from_bytes(file: &Path, content: &[u8]) -> Result<Sheet, Failure> {
    bytes::read(content).map_err(|fault| Failure(BAD_FILE, format!("{}: {fault}", file.display())))
}

fn is_text(file: &Path) -> bool {
    file.extension().is_some_and(|end| end.eq_ignore_ascii_case("txt"))
}

/// A fault of an argument, told by the argument's name.
fn bad(name: &str) -> impl Fn(String) -> Failure + '_ {
    move |fault| Failure(BAD_USAGE, format!("{name}: {fault}"))
}

/// The number of the place asked about. A place number goes to the program as it is, whatever the sheet.
fn place(q: Asked, sheet: &[u8]) -> Result<u32, Failure> {
    if let Asked::Place(place) = q {
        return Ok(place);
    }
    let whole = bytes::read(sheet).map_err(|fault| bad("Q")(NOT_LOOKED_UP.to_string() + &fault))?;
    q.place(&whole).map_err(bad("Q"))
}

fn read_direction(written: &Path) -> Option<Direction> {
    direction::read(&written.to_string_lossy())
}

/// What keeps the words from being a question: a sheet, a direction, Q and K.
fn no_question(words: &[&Path]) -> Failure {
    let fault = match *words {
        [_, word, ..] if read_direction(word).is_none() => format!(
            "to or from, in small letters, is missing where \"{}\" stands: it says which way the road runs",
            word.display()
        ),
        [_, _, _, _, word, ..] => format!("\"{}\" stands after K, where a question ends", word.display()),
        [_, word, ..] => format!("Q or K is missing after {}", word.display()),
        _ => "a question is a sheet, then to or from, then Q and K".to_string(),
    };
    Failure(BAD_USAGE, format!("{fault}\n{ASK_USAGE}"))
}

/// The program's input: q, k and the direction, then the sheet. Bytes go as they are, so that the program sees their faults.
fn input(words: &[&Path]) -> Result<Vec<u8>, Failure> {
    let &[file, direction, q, k] = words else {
        return Err(no_question(words));
    };
    let direction = read_direction(direction).ok_or_else(|| no_question(words))?;
    let q = asked::read(&q.to_string_lossy()).map_err(bad("Q"))?;
    let k = number(&k.to_string_lossy()).map_err(bad("K"))?;
    let sheet = if is_text(file) { bytes::write(&from_text(file)?) } else { get_warned(file)? };
    let mut input = bytes::bytes_of(&[place(q, &sheet)?, k, direction.number]);
    input.extend(sheet);
    Ok(input)
}

/// Tells what the program printed about a sheet.
fn answer(file: &Path, direction: &Path, q: &Path) -> Result<u8, Failure> {
    let strange = |printed: &str| Failure(BAD_USAGE, format!("the program printed what is no answer: {printed:?}"));
    let mut printed = String::new();
    let direction = read_direction(direction).ok_or_else(|| no_question(&[file, direction, q]))?;
    let q = asked::read(&q.to_string_lossy()).map_err(bad("Q"))?;
    io::stdin().read_to_string(&mut printed).map_err(|_| strange("not text"))?;
    let (text, status) = match words::read(&printed) {
        Some(words::Answer::Refused(number)) => (words::refused(number), REFUSED),
        Some(words::Answer::Listed { lines, refinements }) => {
            let sheet = if is_text(file) { from_text(file)? } else { from_bytes(file, &get(file)?)? };
            let q = q.place(&sheet).map_err(bad("Q"))?;
            (words::listed(&sheet, &direction, q, &lines, refinements), 0)
        }
        None => (None, BAD_USAGE),
    };
    put(&[], text.ok_or(strange(&printed))?.as_bytes())?;
    Ok(status)
}
