//! `lampruda operand`: an operand for a wanted outcome.

use super::Command;
use crate::arguments::Arguments;
use crate::console;
use crate::json::Json;
use crate::word::integer;
use crate::Status;
use lampruda::Operand;

pub const COMMAND: Command = Command {
    name: "operand",
    summary: "the right word for which an opcode gives a wanted word",
    help: &["Prints the smallest right word, unsigned, for which an integer opcode gives the
wanted word with the left one, and behind it the word's signed reading; or none,
if no word does it; or not covered, for every opcode but these:

  AddI SubI MulI And Or Xor AndNot         sums and products wrap
  EqI NeI LtI LtU LeI LeU GtI GtU GeI GeU  give 1 or 0

usage: lampruda operand [--json] OPCODE LEFT WANTED

  --json    prints the answer as JSON, its words as texts

A word is decimal or hexadecimal (0x), and negative words are those of signed
readings: from -9223372036854775808 to 18446744073709551615. Exit status 1 says
that there is no word to print.

example: lampruda operand MulI 12 36
"],
    flags: &["--json"],
    values: &[],
    run,
};

fn run(arguments: Arguments) -> Result<Status, String> {
    let [opcode, left, wanted] = arguments.words("name an opcode, the left word and the wanted word")?;
    let byte = text::op(&opcode).ok_or_else(|| arguments.usage(&format!("{opcode} is no opcode")))?;
    let word = |text: &str| integer(text).ok_or_else(|| arguments.usage(&format!("{text} is no word")));
    let (left, wanted) = (word(&left)?, word(&wanted)?);
    let operand = lampruda::operand(byte, left, wanted);
    let (answer, found) = match operand {
        Operand::Word(word) => ("word", Some(word)),
        Operand::None => ("none", None),
        Operand::NotCovered => ("not covered", None),
    };
    let text = if arguments.has("--json") {
        let fields = vec![
            ("opcode", opcode.into()),
            ("left", left.to_string().into()),
            ("wanted", wanted.to_string().into()),
            ("answer", answer.into()),
            ("word", found.map(|word| word.to_string()).into()),
            ("signed", found.map(|word| (word as i64).to_string()).into()),
        ];
        Json::Object(fields).line()
    } else {
        match found {
            Some(word) => format!("{word} (signed {})\n", word as i64),
            None => format!("{answer}\n"),
        }
    };
    console::print(text)?;
    Ok(if found.is_some() { Status::Done } else { Status::Refused })
}
