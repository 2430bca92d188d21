//! Tariffs: a price for each opcode, as text.

use crate::names;
use crate::opcode::{Opcode, BINARY, UNARY};
use crate::word::{words, Error, Word};
use std::fmt;

/// The name that stands for all opcodes without a line of their own.
const OTHERS: &str = "*";

/// A message names so many opcodes, and counts those besides.
const FEW: usize = 3;

/// "A tariff holds 256 prices of 16 bits, one per opcode byte"
#[derive(Clone, Debug, Eq, PartialEq)]
pub struct Tariff {
    pub prices: [u16; 256],
}

/// A price of the text, and the line that it stands in.
#[derive(Clone, Copy)]
struct Priced {
    price: u16,
    line: usize,
}

impl Tariff {
    /// The tariff that a text stands for, or the first thing that is wrong with it. Every opcode needs a price; a byte
    /// that is none is never executed, so that it may go without, and costs 0 then.
    pub fn read(text: &str) -> Result<Self, Error> {
        let mut own = [None; 256];
        let mut others = None;
        for (index, line) in text.lines().enumerate() {
            let mut words = words(index + 1, line);
            let Some(name) = words.next() else { continue };
            let entry = match name.text {
                OTHERS => &mut others,
                text => {
                    let op = names::op(text).ok_or_else(|| name.wrong(format!("{text} is no opcode")))?;
                    &mut own[usize::from(op)]
                }
            };
            if let Some(Priced { line, .. }) = entry {
                return Err(name.wrong(format!("{} has a price already, in line {line}", name.text)));
            }
            let price = words.next().ok_or_else(|| name.wrong(format!("{} has no price", name.text)))?;
            *entry = Some(Priced { price: price.price()?, line: name.line });
            if let Some(word) = words.next() {
                return Err(word.wrong(format!("{} is too much: a line is a name and a price", word.text)));
            }
        }
        let unpriced = Opcode::all().filter(|opcode| own[*opcode as usize].or(others).is_none());
        let unpriced: Vec<String> = unpriced.map(|opcode| opcode.name().into()).collect();
        if !unpriced.is_empty() {
            let message =
                format!("there is no price for {}, nor a line {OTHERS} for all others", few(&unpriced));
            return Err(Error { line: text.lines().count() + 1, column: 1, message });
        }
        Ok(Self { prices: own.map(|entry| entry.or(others).map_or(0, |Priced { price, .. }| price)) })
    }

    pub fn price(&self, op: u8) -> u16 {
        self.prices[usize::from(op)]
    }

    /// Where it does not keep to what the promise about rewritten functions asks of it: "If LoadInt and Copy cost no
    /// more than any unary or binary pure opcode, and Jump no more than either conditional jump".
    pub fn breaches(&self) -> Vec<Breach> {
        let pure: Vec<Opcode> = UNARY.into_iter().chain(BINARY).collect();
        let premises = [
            (Opcode::LoadInt, &pure[..]),
            (Opcode::Copy, &pure),
            (Opcode::Jump, &[Opcode::JumpIf, Opcode::JumpIfNot]),
        ];
        let priced = |opcode: Opcode| (opcode, self.price(opcode as u8));
        let breach = |(opcode, others): (Opcode, &[Opcode])| {
            let dear = priced(opcode);
            let cheaper = others.iter().map(|other| priced(*other)).filter(|(_, price)| *price < dear.1);
            Breach { dear, cheaper: cheaper.collect() }
        };
        premises.into_iter().map(breach).filter(|breach| !breach.cheaper.is_empty()).collect()
    }
}

/// An opcode with its price, and those that cost less though they should not.
#[derive(Clone, Debug, Eq, PartialEq)]
pub struct Breach {
    pub dear: (Opcode, u16),
    pub cheaper: Vec<(Opcode, u16)>,
}

impl fmt::Display for Breach {
    fn fmt(&self, f: &mut fmt::Formatter) -> fmt::Result {
        let priced = |(opcode, price): &(Opcode, u16)| format!("{} ({price})", opcode.name());
        let cheaper: Vec<String> = self.cheaper.iter().map(priced).collect();
        write!(f, "{} costs more than {}", priced(&self.dear), few(&cheaper))
    }
}

impl Word<'_> {
    fn price(&self) -> Result<u16, Error> {
        let wrong = |_| self.wrong(format!("{} is no price from 0 to {}", self.text, u16::MAX));
        self.number::<i128>()?.try_into().map_err(wrong)
    }
}

/// The first few of some names, and how many there are besides.
fn few(names: &[String]) -> String {
    let (shown, rest) = names.split_at(names.len().min(FEW));
    let besides = match rest.len() {
        0 => String::new(),
        1 => " and 1 other".into(),
        count => format!(" and {count} others"),
    };
    shown.join(", ") + &besides
}
