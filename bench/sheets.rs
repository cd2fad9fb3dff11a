//! Reading sheets written plainly in Rust: the language and the faults of the crate `sheet`, over the same
//! made-up sheets as the program `measure` has.

use crate::{Checksum, Draws};
use std::error::Error;
use std::fmt;

/// A byte behind so many is at fault, whatever it is.
const LIMIT: usize = 16_384;

/// The longest sheet that is made up.
const ROOM: usize = 20_000;

/// No item of a first line and no later line takes more bytes.
const SPARE: usize = 50;

/// What is wrong with a byte: no sheet has it, or the form has it not here.
#[derive(Clone, Copy)]
pub enum FaultKind {
    Bytes,
    Form,
}

/// The first byte with which the line can no longer be completed, or the end of the text.
#[derive(Clone, Copy)]
pub struct Fault {
    pub kind: FaultKind,
    pub line: u32,
    pub column: u32,
}

/// The codes of a list, bit c for code c, and whether the list has other numbers.
#[derive(Clone, Copy)]
pub struct CodeList {
    pub codes: u64,
    pub goes_above: bool,
}

impl CodeList {
    fn new() -> CodeList {
        CodeList {
            codes: 0,
            goes_above: false,
        }
    }

    fn push(&mut self, number: u32) {
        if number < 64 {
            self.codes |= 1 << number;
        } else {
            self.goes_above = true;
        }
    }
}

#[derive(Clone, Copy)]
pub enum Start {
    Duty {
        days: u32,
        codes: CodeList,
    },
    Collection {
        days: u32,
        codes: CodeList,
        counts: CodeList,
    },
    Boxes {
        days: u32,
        low: u32,
        high: u32,
    },
}

#[derive(Clone, Copy)]
pub enum Call {
    Rule {
        first: u32,
        last: u32,
        least: u32,
        most: u32,
    },
    Slide {
        width: u32,
        least: u32,
        most: u32,
    },
    Withdraw {
        number: u32,
    },
    Strike {
        day: u32,
        code: u32,
    },
    Grant {
        day: u32,
        code: u32,
    },
    Settle,
}

/// What of a sheet is still to be read. `text` is as much of it as may be read.
#[derive(Clone, Copy)]
pub struct Sheet<'a> {
    text: &'a [u8],
    is_too_long: bool,
    at: usize,
    line: u32,
    line_start: usize,
}

impl<'a> Sheet<'a> {
    pub fn open(text: &'a [u8]) -> Result<(Start, Sheet<'a>), Fault> {
        let mut sheet = Sheet {
            text: &text[..text.len().min(LIMIT)],
            is_too_long: text.len() > LIMIT,
            at: 0,
            line: 1,
            line_start: 0,
        };
        let start = sheet.start()?;
        sheet.end_line()?;
        Ok((start, sheet))
    }

    /// The next line's call, and none where the text is over. A line at fault is not passed.
    pub fn next_call(&mut self) -> Result<Option<Call>, Fault> {
        if self.at == self.text.len() && !self.is_too_long {
            return Ok(None);
        }
        let mut sheet = *self;
        let call = sheet.call()?;
        sheet.end_line()?;
        *self = sheet;
        Ok(Some(call))
    }

    fn start(&mut self) -> Result<Start, Fault> {
        self.expect(b"(sheet ")?;
        match self.peek() {
            Some(b'd') => {
                self.expect(b"duty ")?;
                let days = self.number()?;
                self.expect(b" (codes")?;
                let codes = self.list()?;
                self.expect(b"))")?;
                Ok(Start::Duty { days, codes })
            }
            Some(b'c') => {
                self.expect(b"collection ")?;
                let days = self.number()?;
                self.expect(b" (codes")?;
                let codes = self.list()?;
                self.expect(b") (counts")?;
                let counts = self.list()?;
                self.expect(b"))")?;
                Ok(Start::Collection {
                    days,
                    codes,
                    counts,
                })
            }
            Some(b'b') => {
                self.expect(b"boxes ")?;
                let days = self.number()?;
                self.expect(b" (span ")?;
                let (low, high) = self.pair()?;
                self.expect(b"))")?;
                Ok(Start::Boxes { days, low, high })
            }
            _ => Err(self.fault()),
        }
    }

    fn call(&mut self) -> Result<Call, Fault> {
        self.expect(b"(")?;
        match self.peek() {
            Some(b'r') => self.rule(),
            Some(b'w') => {
                self.expect(b"withdraw ")?;
                let number = self.number()?;
                self.expect(b")")?;
                Ok(Call::Withdraw { number })
            }
            Some(b'g') => {
                self.expect(b"grant ")?;
                let (day, code) = self.pair()?;
                self.expect(b")")?;
                Ok(Call::Grant { day, code })
            }
            Some(b's') => {
                self.at += 1;
                self.call_in_s()
            }
            _ => Err(self.fault()),
        }
    }

    fn rule(&mut self) -> Result<Call, Fault> {
        self.expect(b"rule (days ")?;
        let (first, last) = self.pair()?;
        self.expect(b") (count ")?;
        let (least, most) = self.pair()?;
        self.expect(b"))")?;
        Ok(Call::Rule {
            first,
            last,
            least,
            most,
        })
    }

    /// The calls whose names begin with s, behind this letter.
    fn call_in_s(&mut self) -> Result<Call, Fault> {
        match self.peek() {
            Some(b'l') => {
                self.expect(b"lide ")?;
                let width = self.number()?;
                self.expect(b" (count ")?;
                let (least, most) = self.pair()?;
                self.expect(b"))")?;
                Ok(Call::Slide { width, least, most })
            }
            Some(b't') => {
                self.expect(b"trike ")?;
                let (day, code) = self.pair()?;
                self.expect(b")")?;
                Ok(Call::Strike { day, code })
            }
            Some(b'e') => {
                self.expect(b"ettle)")?;
                Ok(Call::Settle)
            }
            _ => Err(self.fault()),
        }
    }

    /// Numbers, each behind a blank.
    fn list(&mut self) -> Result<CodeList, Fault> {
        let mut list = CodeList::new();
        while self.peek() == Some(b' ') {
            self.at += 1;
            list.push(self.number()?);
        }
        Ok(list)
    }

    /// Two numbers with a blank between them.
    fn pair(&mut self) -> Result<(u32, u32), Fault> {
        let first = self.number()?;
        self.expect(b" ")?;
        Ok((first, self.number()?))
    }

    /// A number of one to six digits, with no needless zero in front.
    fn number(&mut self) -> Result<u32, Fault> {
        let Some(mut number) = self.digit() else {
            return Err(self.fault());
        };
        let more = if number == 0 { 0 } else { 5 };
        for _ in 0..more {
            let Some(digit) = self.digit() else {
                break;
            };
            number = 10 * number + digit;
        }
        Ok(number)
    }

    fn digit(&mut self) -> Option<u32> {
        match self.peek() {
            Some(byte @ b'0'..=b'9') => {
                self.at += 1;
                Some(u32::from(byte - b'0'))
            }
            _ => None,
        }
    }

    fn expect(&mut self, due: &[u8]) -> Result<(), Fault> {
        for &byte in due {
            if self.peek() != Some(byte) {
                return Err(self.fault());
            }
            self.at += 1;
        }
        Ok(())
    }

    /// A line ends with a byte 10, or with the text.
    fn end_line(&mut self) -> Result<(), Fault> {
        match self.peek() {
            Some(b'\n') => {
                self.at += 1;
                self.line += 1;
                self.line_start = self.at;
                Ok(())
            }
            None if !self.is_too_long => Ok(()),
            _ => Err(self.fault()),
        }
    }

    fn peek(&self) -> Option<u8> {
        self.text.get(self.at).copied()
    }

    /// The fault of the next byte.
    #[cold]
    fn fault(&self) -> Fault {
        let kind = match self.peek() {
            None if self.is_too_long => FaultKind::Bytes,
            Some(byte) if is_foreign(byte) => FaultKind::Bytes,
            _ => FaultKind::Form,
        };
        Fault {
            kind,
            line: self.line,
            column: (self.at - self.line_start) as u32 + 1,
        }
    }
}

/// Whether no sheet has the byte.
fn is_foreign(byte: u8) -> bool {
    !matches!(byte, b'a'..=b'z' | b'0'..=b'9' | b' ' | b'(' | b')' | b'\n')
}

impl Checksum {
    fn add_numbers(&mut self, numbers: &[u32]) {
        for number in numbers {
            self.add(number.cast_signed());
        }
    }

    fn add_codes(&mut self, list: CodeList) {
        let mut codes = list.codes;
        while codes != 0 {
            self.add(codes.trailing_zeros().cast_signed());
            codes &= codes - 1;
        }
        self.add(i32::from(list.goes_above));
    }

    fn add_start(&mut self, start: Start) {
        match start {
            Start::Duty { days, codes } => {
                self.add_numbers(&[0, days]);
                self.add_codes(codes);
            }
            Start::Collection {
                days,
                codes,
                counts,
            } => {
                self.add_numbers(&[1, days]);
                self.add_codes(codes);
                self.add_codes(counts);
            }
            Start::Boxes { days, low, high } => self.add_numbers(&[2, days, low, high]),
        }
    }

    fn add_call(&mut self, call: Call) {
        match call {
            Call::Rule {
                first,
                last,
                least,
                most,
            } => self.add_numbers(&[0, first, last, least, most]),
            Call::Slide { width, least, most } => self.add_numbers(&[1, width, least, most]),
            Call::Withdraw { number } => self.add_numbers(&[2, number]),
            Call::Strike { day, code } => self.add_numbers(&[3, day, code]),
            Call::Grant { day, code } => self.add_numbers(&[4, day, code]),
            Call::Settle => self.add_numbers(&[5]),
        }
    }

    fn add_fault(&mut self, fault: Fault) {
        let kind = match fault.kind {
            FaultKind::Bytes => 0,
            FaultKind::Form => 1,
        };
        self.add_numbers(&[kind, fault.line, fault.column]);
    }
}

/// What a sheet mostly consists of.
#[derive(Clone, Copy)]
pub enum SheetSort {
    /// Later lines of every form, in any order.
    Calls,
    /// Later lines that settle.
    Settles,
    /// A first line with one long list of codes.
    Codes,
}

spelled!(
    SheetSort,
    "sort of sheet",
    Calls = "calls",
    Settles = "settles",
    Codes = "codes"
);

/// The form of a first line, where `#` stands for a number and `*` for a list of codes.
fn first_form(sort: SheetSort) -> &'static [u8] {
    match sort {
        SheetSort::Calls => b"(sheet collection # (codes # # #) (counts # #))\n",
        SheetSort::Settles => b"(sheet boxes # (span # #))\n",
        SheetSort::Codes => b"(sheet duty # (codes*))\n",
    }
}

/// The forms of later lines, up to the one that settles.
pub const RULE: usize = 0;
pub const SLIDE: usize = 1;
pub const WITHDRAW: usize = 2;
pub const STRIKE: usize = 3;
pub const GRANT: usize = 4;
pub const SETTLE: usize = 5;

pub const LATER_FORMS: [&[u8]; 6] = [
    b"(rule (days # #) (count # #))\n",
    b"(slide # (count # #))\n",
    b"(withdraw #)\n",
    b"(strike # #)\n",
    b"(grant # #)\n",
    b"(settle)\n",
];

/// A sheet of at most so many bytes.
fn made_up_sheet(bytes: u32, sort: SheetSort) -> Vec<u8> {
    let mut writer = Writer {
        text: Vec::with_capacity(ROOM),
        draws: Draws(bytes),
        bytes: ROOM.min(bytes as usize),
    };
    writer.form(first_form(sort));
    while writer.has_room() {
        let number = match sort {
            SheetSort::Settles => SETTLE,
            _ => writer.draws.between(0, SETTLE as u32) as usize,
        };
        writer.form(LATER_FORMS[number]);
    }
    writer.text
}

/// A sheet in the making.
struct Writer {
    text: Vec<u8>,
    draws: Draws,
    bytes: usize,
}

impl Writer {
    /// Whether one more line, or one more item and the end of the line, surely fits.
    fn has_room(&self) -> bool {
        self.bytes.saturating_sub(self.text.len()) >= SPARE
    }

    /// A line of the form.
    fn form(&mut self, form: &[u8]) {
        for &byte in form {
            match byte {
                b'#' => self.number(),
                b'*' => self.codes(),
                byte => self.text.push(byte),
            }
        }
    }

    /// A number of one to six digits.
    fn number(&mut self) {
        let count = self.draws.between(1, 6);
        let first = self.draws.between(u32::from(count > 1), 9);
        self.digit(first);
        for _ in 1..count {
            let digit = self.draws.between(0, 9);
            self.digit(digit);
        }
    }

    /// Codes of one digit, the shortest items, as many as there is room for, each behind a blank.
    fn codes(&mut self) {
        while self.has_room() {
            let code = self.draws.between(0, 9);
            self.text.push(b' ');
            self.digit(code);
        }
    }

    fn digit(&mut self, digit: u32) {
        self.text.push(b'0' + digit as u8);
    }
}

#[derive(Clone, Copy)]
pub enum SheetWork {
    /// Reading the whole sheet.
    Read,
    /// Reading it with another byte in one place, and up to this place.
    Spoil,
}

spelled!(SheetWork, "work on a sheet", Read = "read", Spoil = "spoil");

/// What is to be done with a sheet of at most so many bytes, and how often.
pub struct SheetTask {
    pub bytes: u32,
    pub sort: SheetSort,
    pub work: SheetWork,
    pub times: u32,
}

impl SheetTask {
    pub fn read(words: &[String]) -> Result<SheetTask, Box<dyn Error>> {
        let [bytes, sort, work, times] = words else {
            return Err("usage: plain sheet BYTES SORT WORK TIMES".into());
        };
        Ok(SheetTask {
            bytes: bytes.parse()?,
            sort: sort.parse()?,
            work: work.parse()?,
            times: times.parse()?,
        })
    }

    pub fn print(&self) {
        let (bytes, checksum) = self.work();
        println!("{self}: {bytes} bytes, {}", checksum.0);
    }

    /// The number of bytes of the sheet, and what its readings add up to.
    fn work(&self) -> (usize, Checksum) {
        let mut checksum = Checksum(0);
        let mut text = made_up_sheet(self.bytes, self.sort);
        let mut draws = Draws(self.times);
        for _ in 0..self.times {
            match self.work {
                SheetWork::Read => read_once(&text, &mut checksum),
                SheetWork::Spoil => spoil_once(&mut text, &mut draws, &mut checksum),
            }
        }
        (text.len(), checksum)
    }
}

impl fmt::Display for SheetTask {
    fn fmt(&self, f: &mut fmt::Formatter) -> fmt::Result {
        let SheetTask {
            bytes,
            sort,
            work,
            times,
        } = self;
        write!(f, "sheet of {bytes}, {sort}, {work}, {times} times")
    }
}

pub fn read_once(text: &[u8], checksum: &mut Checksum) {
    if let Err(fault) = read_all(text, checksum) {
        checksum.add_fault(fault);
    }
}

fn read_all(text: &[u8], checksum: &mut Checksum) -> Result<(), Fault> {
    let (start, mut sheet) = Sheet::open(text)?;
    checksum.add_start(start);
    while let Some(call) = sheet.next_call()? {
        checksum.add_call(call);
    }
    Ok(())
}

/// Every other time the other byte is one of the sheet's own.
fn spoil_once(text: &mut [u8], draws: &mut Draws, checksum: &mut Checksum) {
    let last = text.len() as u32 - 1;
    let at = draws.between(0, last) as usize;
    let other = draws.between(0, last) as usize;
    let byte = if draws.between(0, 1) == 0 {
        text[other]
    } else {
        draws.between(0, 255) as u8
    };
    let before = std::mem::replace(&mut text[at], byte);
    read_once(text, checksum);
    read_once(&text[..at], checksum);
    text[at] = before;
}
