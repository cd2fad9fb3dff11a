//! Whole sheets, made up as in the program `measure`, and what is done with them.

use crate::carry::carry;
use crate::sheets::{read_once, GRANT, LATER_FORMS, RULE, SETTLE, SLIDE, STRIKE, WITHDRAW};
use crate::{Checksum, Draws, Sort, DAYS as MOST_DAYS, RULES as MOST_RULES, TOP};
use std::error::Error;
use std::fmt;

const DAYS: u32 = MOST_DAYS as u32;

/// The slides make 122, 115 and 101 of the rules.
const RULES: u32 = MOST_RULES as u32;

const SLID: u32 = 338;

/// A sheet settles so often, each time after so many edits of each form.
const SETTLES: u32 = 8;

const EDITS: u32 = 4;

/// The answers to any sheet that is made up fit into so many bytes.
const LIST: usize = 262_144;

#[derive(Clone, Copy)]
pub enum Kind {
    Duty,
    Collection,
    Boxes,
}

spelled!(
    Kind,
    "kind",
    Duty = "duty",
    Collection = "collection",
    Boxes = "boxes"
);

impl Kind {
    fn top(self) -> u32 {
        match self {
            Kind::Duty | Kind::Collection => 1,
            Kind::Boxes => TOP,
        }
    }

    /// The hidden weight of a day. Days of boxes can do with a good deal less and more.
    fn weight(self, draws: &mut Draws) -> u32 {
        match self {
            Kind::Duty | Kind::Collection => draws.between(0, 1),
            Kind::Boxes => draws.between(16, 47),
        }
    }

    /// A code that is not needed for the hidden weight of its day.
    fn spare_code(self, weight: u32, draws: &mut Draws) -> u32 {
        match self {
            Kind::Duty => 1 - weight,
            Kind::Collection => draws.between(0, 63),
            Kind::Boxes => draws.between(0, 3),
        }
    }
}

/// A sheet with a full book, and then edits and a settle by turns. The settles can be left out.
fn whole_sheet(kind: Kind, sort: Sort, settles: bool) -> Vec<u8> {
    let mut draws = Draws(DAYS);
    let totals = hidden_totals(kind, &mut draws);
    let mut writer = Writer { text: Vec::new() };
    writer.first_line(kind);
    for width in [7, 14, 28] {
        writer.slide(width, &totals);
    }
    let singles = RULES - SLID;
    for number in 1..=singles {
        let stand = sort.stand(number, singles, DAYS);
        let rule = draws.rule(stand, DAYS, &totals, kind.top());
        writer.line(LATER_FORMS[RULE], &rule);
    }
    for _ in 0..SETTLES {
        for _ in 0..EDITS {
            writer.edits(kind, &mut draws, &totals);
        }
        if settles {
            writer.line(LATER_FORMS[SETTLE], &[]);
        }
    }
    writer.text
}

fn hidden_totals(kind: Kind, draws: &mut Draws) -> Vec<u32> {
    let mut total = 0;
    let mut totals = vec![total];
    for _ in 0..DAYS {
        total += kind.weight(draws);
        totals.push(total);
    }
    totals
}

fn sum_of(totals: &[u32], first: u32, last: u32) -> u32 {
    totals[last as usize] - totals[first as usize - 1]
}

/// A sheet in the making.
struct Writer {
    text: Vec<u8>,
}

impl Writer {
    /// Every day begins with all codes of the kind. Every second one of a collection counts.
    fn first_line(&mut self, kind: Kind) {
        match kind {
            Kind::Duty => self.line(b"(sheet duty # (codes 0 1))\n", &[DAYS]),
            Kind::Collection => {
                self.line(b"(sheet collection # (codes", &[DAYS]);
                for code in 0..64 {
                    self.line(b" #", &[code]);
                }
                self.line(b") (counts", &[]);
                for half in 0..32 {
                    self.line(b" #", &[half * 2 + 1]);
                }
                self.line(b"))\n", &[]);
            }
            Kind::Boxes => self.line(b"(sheet boxes # (span 0 63))\n", &[DAYS]),
        }
    }

    /// The slide with the closest bounds that the hidden weights keep.
    fn slide(&mut self, width: u32, totals: &[u32]) {
        let mut least = u32::MAX;
        let mut most = 0;
        for last in width..=DAYS {
            let sum = sum_of(totals, last - width + 1, last);
            least = least.min(sum);
            most = most.max(sum);
        }
        self.line(LATER_FORMS[SLIDE], &[width, least, most]);
    }

    /// An edit of each form that takes a number or a code. None withdraws the last rule, which may be the one that
    /// blocks.
    fn edits(&mut self, kind: Kind, draws: &mut Draws, totals: &[u32]) {
        let number = draws.between(1, RULES - 1);
        self.line(LATER_FORMS[WITHDRAW], &[number]);
        for form in [STRIKE, GRANT] {
            let day = draws.between(1, DAYS);
            let code = kind.spare_code(sum_of(totals, day, day), draws);
            self.line(LATER_FORMS[form], &[day, code]);
        }
    }

    /// A line of the form, or a part of one, with the numbers in place of its `#`.
    fn line(&mut self, form: &[u8], numbers: &[u32]) {
        let mut rest = numbers.iter();
        for &byte in form {
            match byte {
                b'#' => {
                    let number = rest.next().expect("a number for each #");
                    self.text.extend_from_slice(number.to_string().as_bytes());
                }
                byte => self.text.push(byte),
            }
        }
    }
}

#[derive(Clone, Copy)]
pub enum WholeWork {
    /// Reading the sheet.
    Read,
    /// Carrying it without its settles.
    Edit,
    /// Carrying it.
    Carry,
}

spelled!(
    WholeWork,
    "work on a whole sheet",
    Read = "read",
    Edit = "edit",
    Carry = "carry"
);

/// What is to be done with a whole sheet, and how often.
pub struct WholeTask {
    pub kind: Kind,
    pub sort: Sort,
    pub work: WholeWork,
    pub times: u32,
}

impl WholeTask {
    pub fn read(words: &[String]) -> Result<WholeTask, Box<dyn Error>> {
        let [kind, sort, work, times] = words else {
            return Err("usage: plain whole KIND SORT WORK TIMES".into());
        };
        Ok(WholeTask {
            kind: kind.parse()?,
            sort: sort.parse()?,
            work: work.parse()?,
            times: times.parse()?,
        })
    }

    /// The bytes of the answers are added once, behind all rounds, so that they are not in what is measured.
    pub fn print(&self) {
        let mut list = vec![0; LIST];
        let mut checksum = Checksum(0);
        let text = whole_sheet(self.kind, self.sort, !matches!(self.work, WholeWork::Edit));
        let mut answers = 0;
        for _ in 0..self.times {
            match self.work {
                WholeWork::Read => read_once(&text, &mut checksum),
                WholeWork::Edit | WholeWork::Carry => {
                    let (ended, count) = carry(&text, &mut list);
                    checksum.add(ended.cast_signed());
                    answers = count;
                }
            }
        }
        for &byte in &list[..answers] {
            checksum.add(i32::from(byte));
        }
        let bytes = text.len();
        println!(
            "{self}: {bytes} bytes, {SETTLES} settles, {answers} bytes of answers, {}",
            checksum.0
        );
    }
}

impl fmt::Display for WholeTask {
    fn fmt(&self, f: &mut fmt::Formatter) -> fmt::Result {
        let WholeTask {
            kind,
            sort,
            work,
            times,
        } = self;
        write!(f, "whole sheet of {kind}, {sort}, {work}, {times} times")
    }
}
