//! What a run costs, by opcode.

use crate::console::Ink;
use crate::desk::Start;
use crate::json::Json;
use crate::table;
use lampruda::PRICES;
use std::cmp::Reverse;
use std::collections::BTreeSet;
use text::{grouped, Opcode, Tariff};

/// Prices are in thousandths of a cent.
const CENT: u16 = 1_000;

/// The steps of a run by their opcodes, and its charge.
pub struct Bill<'a> {
    tariff: &'a Tariff,
    steps: [u64; PRICES],
    pub cents: u64,
}

impl<'a> Bill<'a> {
    /// The bill of a run that is charged so much. The library counts its steps too: once more for each opcode, with a
    /// cent for its steps and nothing for all others.
    pub fn new(start: &Start, tariff: &'a Tariff, cents: u64) -> Self {
        let count = |prices: [u16; PRICES]| {
            lampruda::charge(&start.input.bytes, &mut start.frame.clone(), start.limit, &prices).cents
        };
        let all = count([CENT; PRICES]);
        let mut bill = Self { tariff, steps: [0; PRICES], cents };
        let ops: BTreeSet<u8> = start.parts.code.iter().map(|instruction| instruction.op).collect();
        for op in ops.into_iter().map(usize::from) {
            if bill.steps() == all {
                break;
            }
            let mut prices = [0; PRICES];
            prices[op] = CENT;
            bill.steps[op] = count(prices);
        }
        let items = (bill.steps(), bill.sum().div_ceil(CENT.into()));
        assert_eq!(items, (all, cents), "the items make the charge");
        bill
    }

    fn steps(&self) -> u64 {
        self.steps.iter().sum()
    }

    /// In thousandths of a cent.
    fn sum(&self) -> u64 {
        Opcode::all().map(|opcode| self.sum_of(opcode)).sum()
    }

    fn steps_of(&self, opcode: Opcode) -> u64 {
        self.steps[opcode as usize]
    }

    fn price_of(&self, opcode: Opcode) -> u64 {
        self.tariff.price(opcode as u8).into()
    }

    fn sum_of(&self, opcode: Opcode) -> u64 {
        self.steps_of(opcode) * self.price_of(opcode)
    }

    pub fn json(&self) -> Vec<(&'static str, Json)> {
        let item = |opcode: Opcode| {
            Json::Object(vec![
                ("opcode", opcode.name().into()),
                ("steps", self.steps_of(opcode).into()),
                ("price", self.price_of(opcode).into()),
                ("sum", self.sum_of(opcode).into()),
            ])
        };
        vec![
            ("items", Json::List(executed(&[self]).into_iter().map(item).collect())),
            ("steps", self.steps().into()),
            ("sum", self.sum().into()),
            ("cents", self.cents.into()),
        ]
    }
}

/// The opcodes that were executed in any of the runs: the largest sum first, and equal ones by name.
fn executed(bills: &[&Bill]) -> Vec<Opcode> {
    let is_executed = |opcode: &Opcode| bills.iter().any(|bill| bill.steps_of(*opcode) > 0);
    let mut opcodes: Vec<Opcode> = Opcode::all().filter(is_executed).collect();
    let sums = |opcode: Opcode| bills.iter().map(|bill| Reverse(bill.sum_of(opcode))).collect::<Vec<_>>();
    opcodes.sort_by_key(|opcode| (sums(*opcode), opcode.name()));
    opcodes
}

/// A row for each opcode and one for all, of a given function alone or beside the cleaned one.
pub fn table(ink: Ink, given: &Bill, cleaned: Option<&Bill>) -> String {
    let bills: Vec<&Bill> = [given].into_iter().chain(cleaned).collect();
    let heading = |name: &str| match cleaned {
        None => vec![name.to_string()],
        Some(_) => vec![format!("given {name}"), format!("cleaned {name}")],
    };
    let numbers = |number: &dyn Fn(&Bill) -> u64| bills.iter().map(|bill| grouped(number(bill))).collect();
    let row = |name: &str, steps: Vec<String>, price: String, sums: Vec<String>| {
        [vec![name.into()], steps, vec![price], sums].concat()
    };
    let item = |opcode: Opcode| {
        let steps = numbers(&|bill| bill.steps_of(opcode));
        let sums = numbers(&|bill| bill.sum_of(opcode));
        row(opcode.name(), steps, grouped(given.price_of(opcode)), sums)
    };
    let mut rows: Vec<Vec<String>> = executed(&bills).into_iter().map(item).collect();
    rows.push(row("total", numbers(&|bill| bill.steps()), String::new(), numbers(&|bill| bill.sum())));
    let heading = row("opcode", heading("steps"), "price".into(), heading("sum"));
    table::table(ink, 1, heading, &rows)
}

#[cfg(test)]
mod tests {
    use super::Bill;
    use crate::desk::Start;
    use crate::input::Input;
    use crate::trace::traced;
    use lampruda::{charge, short_unit, PRICES, SHORT_COUNT};
    use text::Tariff;
    use unit::{Parts, Unit};

    /// Every short function from a frame: the counts are those of its single steps.
    #[test]
    fn items_are_steps() {
        let tariff = Tariff { prices: std::array::from_fn(|op| 300 + op as u16) };
        for number in 0..SHORT_COUNT {
            let bytes = short_unit(number).unwrap();
            let parts = Parts::decode(&Unit::check(&bytes).unwrap());
            let input = Input { name: String::new(), bytes };
            let start = Start { input, parts, frame: vec![1, 0], limit: 6 };
            let mut steps = [0; PRICES];
            let stepped = traced(&start.input.bytes, &mut start.frame.clone(), start.limit, |step| {
                steps[usize::from(start.parts.code[step.place as usize].op)] += 1;
                Ok(true)
            });
            let charged = charge(&start.input.bytes, &mut start.frame.clone(), start.limit, &tariff.prices);
            assert_eq!(stepped, Ok(Some(charged.stop)), "{number}");
            assert_eq!(Bill::new(&start, &tariff, charged.cents).steps, steps, "{number}");
        }
    }
}
