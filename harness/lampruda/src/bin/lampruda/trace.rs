//! A run at the desk, step by step.

use crate::json::Json;
use crate::word;
use lampruda::{Next, Stop};
use text::Lines;
use unit::{Parts, TYPE_FLOAT};

/// One step: the words before it and after it, and what is due then.
pub struct Step<'a> {
    number: u32,
    pub place: u32,
    before: &'a [u64],
    after: &'a [u64],
    next: Next,
}

/// A run by single steps, which are all that is computed here, told one by one. `None` where no more is wanted.
pub fn traced(
    unit: &[u8],
    frame: &mut Vec<u64>,
    limit: u32,
    mut tell: impl FnMut(Step) -> Result<bool, String>,
) -> Result<Option<Stop>, String> {
    let mut place = 0;
    for done in 0..=limit {
        let mut after = frame.clone();
        let next = lampruda::step(unit, &mut after, place);
        match next {
            // The end of the code and another instruction come before the limit.
            Next::Stops(stop) if !stop.is_step() => return Ok(Some(stop)),
            _ if done == limit => break,
            _ => {}
        }
        if !tell(Step { number: done + 1, place, before: frame, after: &after, next })? {
            return Ok(None);
        }
        *frame = after;
        match next {
            Next::Goes { place: due } => place = due,
            Next::Stops(stop) => return Ok(Some(stop)),
        }
    }
    Ok(Some(Stop::Limit))
}

/// How steps are shown.
pub struct Trace<'p> {
    types: &'p [u8],
    lines: Lines<'p>,
    has_lines: bool,
    places: usize,
    texts: usize,
}

impl<'p> Trace<'p> {
    pub fn new(parts: &'p Parts) -> Self {
        let lines = Lines::new(parts);
        let texts = (0..parts.code.len()).map(|place| lines.mnemonic(place).len()).max();
        Self {
            types: &parts.types,
            lines,
            has_lines: !parts.lines.is_empty(),
            places: parts.code.len().to_string().len().max("place".len()),
            texts: texts.unwrap_or(0).max("instruction".len()),
        }
    }

    pub fn heading(&self) -> String {
        self.row("step", "place", "line", "instruction", "altered")
    }

    /// A line without its end.
    pub fn text(&self, step: &Step) -> String {
        let place = step.place as usize;
        let line = self.lines.line(place).map(|line| line.to_string()).unwrap_or_default();
        let altered = step.altered().map(|(slot, before, after)| {
            format!("{slot}: {} -> {}", self.word(slot, before), self.word(slot, after))
        });
        let altered: Vec<String> = altered.collect();
        let (number, due) = (step.number.to_string(), step.place.to_string());
        self.row(&number, &due, &line, &self.lines.mnemonic(place), &altered.join(", "))
    }

    pub fn json(&self, step: &Step) -> Json {
        let place = step.place as usize;
        let altered = step.altered().map(|(slot, before, after)| {
            Json::Object(vec![
                ("slot", slot.into()),
                ("before", before.to_string().into()),
                ("after", after.to_string().into()),
            ])
        });
        let next = match step.next {
            Next::Goes { place } => Some(place),
            Next::Stops(_) => None,
        };
        Json::Object(vec![
            ("step", step.number.into()),
            ("place", step.place.into()),
            ("line", self.lines.line(place).into()),
            ("instruction", self.lines.mnemonic(place).into()),
            ("altered", Json::List(altered.collect())),
            ("next", next.into()),
        ])
    }

    /// A column of lines is for units that have some.
    fn row(&self, step: &str, place: &str, line: &str, text: &str, altered: &str) -> String {
        let Self { places, texts, .. } = *self;
        let line = if self.has_lines { format!("  {line:>4}") } else { String::new() };
        let row = format!("{step:>4}  {place:>places$}{line}  {text:texts$}  {altered}");
        row.trim_end().to_string()
    }

    /// A slot's word as its type says: a float, or a signed integer.
    fn word(&self, slot: usize, word: u64) -> String {
        match self.types.get(slot) {
            Some(&TYPE_FLOAT) => word::float(word),
            _ => (word as i64).to_string(),
        }
    }
}

impl Step<'_> {
    /// The slots whose words it altered.
    fn altered(&self) -> impl Iterator<Item = (usize, u64, u64)> + '_ {
        altered(self.before, self.after)
    }
}

/// The slots whose words differ, with both.
pub fn altered<'a>(before: &'a [u64], after: &'a [u64]) -> impl Iterator<Item = (usize, u64, u64)> + 'a {
    let words = before.iter().copied().zip(after.iter().copied()).enumerate();
    words.filter(|(_, (before, after))| before != after).map(|(slot, (before, after))| (slot, before, after))
}

#[cfg(test)]
mod tests {
    use super::traced;
    use lampruda::{run, short_unit, SHORT_COUNT};

    /// Every short function from a frame, within every limit below 7: how it stops, and the frame then.
    #[test]
    fn steps_make_the_run() {
        for number in 0..SHORT_COUNT {
            let unit = short_unit(number).unwrap();
            for limit in 0..7 {
                let (mut frame, mut stepped, mut told) = ([1, 0], vec![1, 0], 0);
                let stop = run(&unit, &mut frame, limit);
                let traced = traced(&unit, &mut stepped, limit, |_| {
                    told += 1;
                    Ok(true)
                });
                assert_eq!((traced, &stepped[..]), (Ok(Some(stop)), &frame[..]), "{number} within {limit}");
                assert!(told <= limit);
            }
        }
    }
}
