//! The comparison: many cases are put to two sides, and the answers must be the same.

use crate::case::Case;
use crate::opinion::Opinion;
use crate::random::Random;
use crate::{shifts, values};
use std::collections::BTreeMap;
use std::fmt;

/// One kind of case, and how many of it there are at scale 1.
struct Plan {
    name: &'static str,
    cases: u32,
    make: fn(&mut Random, usize) -> Case,
}

const PLANS: [Plan; 6] = [
    Plan {
        name: "product",
        cases: 1_200_000,
        make: values::product,
    },
    Plan {
        name: "inverse",
        cases: 120_000,
        make: values::inverse,
    },
    Plan {
        name: "encode",
        cases: 120_000,
        make: values::encode,
    },
    Plan {
        name: "decode",
        cases: 240_000,
        make: values::decode,
    },
    Plan {
        name: "tag",
        cases: 120_000,
        make: values::tag,
    },
    Plan {
        name: "shift",
        cases: 60_000,
        make: shifts::shift,
    },
];

/// Of each kind, so many differences are told with their inputs; the others are only counted.
const TOLD: usize = 3;

/// What came out for one kind of case.
#[derive(Clone, Debug, Default)]
pub struct Row {
    /// The kind.
    pub name: &'static str,
    /// How many cases were put.
    pub cases: usize,
    /// How many were answered differently.
    pub differences: usize,
    /// How often each kind of answer was given by the first side.
    pub answers: BTreeMap<String, usize>,
}

/// What came out of the whole comparison. Its text is a table and the first differences.
#[derive(Clone, Debug, Default)]
pub struct Report {
    /// One row for each kind of case.
    pub rows: Vec<Row>,
    /// The first differences of each kind, in words.
    pub told: Vec<String>,
}

/// Puts all cases to both sides: as many as planned, times the scale. The seed decides which.
pub fn compare(own: &dyn Opinion, other: &dyn Opinion, scale: f64, seed: u64) -> Report {
    let mut report = Report::default();
    for (stream, plan) in (1..).zip(&PLANS) {
        let mut random = Random::new(seed.wrapping_mul(64).wrapping_add(stream));
        report.carry_out(plan, own, other, scale, &mut random);
    }
    report
}

impl Report {
    /// All differences.
    pub fn differences(&self) -> usize {
        self.rows.iter().map(|row| row.differences).sum()
    }

    /// Adds the row of one plan.
    fn carry_out(
        &mut self,
        plan: &Plan,
        own: &dyn Opinion,
        other: &dyn Opinion,
        scale: f64,
        random: &mut Random,
    ) {
        let mut row = Row {
            name: plan.name,
            ..Row::default()
        };
        while (row.cases as f64) < f64::from(plan.cases) * scale {
            let case = (plan.make)(random, row.cases);
            row.cases += 1;
            let answer = case.ask(own);
            let other_answer = case.ask(other);
            if answer != other_answer {
                row.differences += 1;
                if row.differences <= TOLD {
                    self.told.push(format!(
                        "{case}\n    own:   {answer}\n    other: {other_answer}"
                    ));
                }
            }
            for kind in answer.kinds() {
                *row.answers.entry(kind).or_default() += 1;
            }
        }
        self.rows.push(row);
    }
}

impl fmt::Display for Report {
    fn fmt(&self, text: &mut fmt::Formatter<'_>) -> fmt::Result {
        writeln!(
            text,
            "{:10}{:>10}{:>13}",
            "compared", "cases", "differences"
        )?;
        for row in &self.rows {
            writeln!(
                text,
                "{:10}{:>10}{:>13}",
                row.name, row.cases, row.differences
            )?;
        }
        writeln!(text)?;
        writeln!(
            text,
            "own answers: refusals by number and part; of a shift, each line"
        )?;
        for row in &self.rows {
            let answers: Vec<String> = row
                .answers
                .iter()
                .map(|(kind, count)| format!("{kind}: {count}"))
                .collect();
            writeln!(text, "{:10}{}", row.name, answers.join(", "))?;
        }
        if !self.told.is_empty() {
            writeln!(text, "\nthe first differences of each kind, inputs in hex")?;
        }
        for difference in &self.told {
            writeln!(text, "{difference}")?;
        }
        Ok(())
    }
}

#[cfg(test)]
mod tests {
    use super::*;
    use crate::engine::Engine;
    use crate::fault::Fault;
    use crate::field::Form;
    use crate::opinion::Own;

    const SCALE: f64 = 0.1;

    /// An opinion that is right but for one slip.
    struct Slip(&'static str);

    impl Opinion for Slip {
        fn product(&self, form: Form, a: &[u16], b: &[u16], out: &mut [u16]) -> Result<(), Fault> {
            Own.product(form, a, b, out)?;
            // As if the modulus itself could be left over.
            if self.0 == "product" && out[0] == 0 && a[0] != 0 {
                out[0] = u16::try_from(form.field().modulus).expect("small");
            }
            Ok(())
        }

        fn inverse(&self, form: Form, a: &[u16], out: &mut [u16]) -> Result<(), Fault> {
            let answer = Own.inverse(form, a, out);
            // Zero for the inverse of zero.
            if self.0 == "inverse" && answer.is_err_and(|fault| fault.refusal == 2) {
                out.fill(0);
                return Ok(());
            }
            answer
        }

        fn encode(&self, form: Form, a: &[u16], out: &mut [u8]) -> Result<(), Fault> {
            let answer = Own.encode(form, a, out);
            // A refusal that writes.
            if self.0 == "encode" && answer.is_err() && !out.is_empty() {
                out[0] = 0;
            }
            answer
        }

        fn decode(&self, form: Form, bytes: &[u8], out: &mut [u16]) -> Result<(), Fault> {
            let answer = Own.decode(form, bytes, out);
            // The wrong place.
            match answer {
                Err(fault) if self.0 == "decode" => Err(Fault { place: 0, ..fault }),
                _ => answer,
            }
        }

        fn tag(
            &self,
            form: Form,
            key: &[u8],
            pad: &[u8],
            body: &[u8],
            out: &mut [u8],
        ) -> Result<(), Fault> {
            // The longest body is taken for too long.
            let body = match body.len() {
                440 if self.0 == "tag" => &[],
                _ => body,
            };
            Own.tag(form, key, pad, body, out)
        }

        fn shift(&self, input: &[u8], out: &mut [u8]) -> usize {
            let length = Own.shift(input, out);
            // The two marks are taken for one.
            if self.0 == "shift" {
                let text = String::from_utf8(out[..length].to_vec()).expect("text");
                let text = text.replace(" refused 9 ", " refused 10 ");
                out[..text.len()].copy_from_slice(text.as_bytes());
                return text.len();
            }
            length
        }
    }

    /// Without the library this asks the stand-in, through the same interface.
    #[test]
    fn own_and_the_engine_agree() {
        let report = compare(&Own, &Engine, SCALE, 1);
        assert_eq!(report.differences(), 0, "{report}");
        assert!(report.told.is_empty());
        assert_eq!(report.rows.len(), PLANS.len());
    }

    #[test]
    fn each_slip_is_found() {
        for plan in &PLANS {
            let mut report = Report::default();
            let slip = Slip(plan.name);
            report.carry_out(plan, &Own, &slip, SCALE, &mut Random::new(1));
            assert!(report.differences() > 0, "{report}");
            assert_eq!(report.told.len(), TOLD.min(report.differences()));
            assert!(report.told[0].starts_with(plan.name));
            assert!(report.to_string().contains(&report.told[0]));
        }
    }

    #[test]
    fn each_answer_comes_up() {
        let report = compare(&Own, &Own, SCALE, 2);
        let expected: [(&str, &[&str]); 6] = [
            ("product", &["done", "refused 1 0", "refused 3 0"]),
            (
                "inverse",
                &["done", "refused 1 0", "refused 2 0", "refused 3 0"],
            ),
            ("encode", &["done", "refused 1 0", "refused 3 0"]),
            (
                "decode",
                &["done", "refused 1 0", "refused 3 0", "refused 4 0"],
            ),
            (
                "tag",
                &[
                    "done",
                    "refused 1 1",
                    "refused 1 2",
                    "refused 3 1",
                    "refused 3 2",
                    "refused 4 1",
                    "refused 4 2",
                    "refused 5 0",
                ],
            ),
            (
                "shift",
                &[
                    "cancelled",
                    "pass",
                    "refused 1 1",
                    "refused 1 2",
                    "refused 1 3",
                    "refused 10 0",
                    "refused 11 0",
                    "refused 15 4",
                    "refused 16 4",
                    "refused 3 0",
                    "refused 5 0",
                    "refused 6 0",
                    "refused 7 1",
                    "refused 8 0",
                    "refused 9 0",
                    "rides",
                ],
            ),
        ];
        for (row, (name, kinds)) in report.rows.iter().zip(expected) {
            assert_eq!(row.name, name);
            let met: Vec<&String> = row.answers.keys().collect();
            assert_eq!(met, kinds, "{name}");
        }
    }

    #[test]
    fn the_plan_is_large_enough() {
        let least = [1_000_000, 100_000, 100_000, 100_000, 100_000, 50_000];
        for (plan, least) in PLANS.iter().zip(least) {
            assert!(plan.cases >= least, "{}", plan.name);
        }
    }

    #[test]
    fn the_seed_decides_the_cases() {
        for plan in PLANS {
            let cases = |seed| -> Vec<Case> {
                let mut random = Random::new(seed);
                (0..60).map(|turn| (plan.make)(&mut random, turn)).collect()
            };
            assert_eq!(cases(1), cases(1));
            assert_ne!(cases(1), cases(2));
        }
    }
}
