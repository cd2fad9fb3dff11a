//! Carrying whole sheets written plainly in Rust: the kinds, the edits and the answers of the crates `kinds`,
//! `ledger`, `answers` and `carry`.

use crate::sheets::{Call, CodeList, Fault, FaultKind, Sheet, Start};
use crate::{
    day_count, settle, Agreement, Book, Boxes, Entry, Refusal, Rule, Verdict, CODES, DAYS, RULES,
};

/// Whether a reviewer is off duty, which is code 0, on duty, which is code 1 and weighs 1, or either.
#[derive(Clone, Copy)]
struct Duty {
    off: bool,
    on: bool,
}

impl Duty {
    fn new(codes: CodeList) -> Result<Duty, Refusal> {
        if codes.goes_above || codes.codes > 3 {
            return Err(Refusal::UnknownCode);
        }
        Ok(Duty {
            off: codes.codes & 1 != 0,
            on: codes.codes & 2 != 0,
        })
    }
}

impl Entry for Duty {
    const TOP: u32 = 1;

    fn holds(&self, code: u32) -> bool {
        match code {
            0 => self.off,
            1 => self.on,
            _ => false,
        }
    }

    fn weight(&self, code: u32) -> u32 {
        u32::from(code == 1)
    }

    fn lightest(&self) -> u32 {
        u32::from(self.on && !self.off)
    }

    fn heaviest(&self) -> u32 {
        u32::from(self.on)
    }

    fn strike(&mut self, code: u32) -> Result<(), Refusal> {
        let (struck, other) = match code {
            0 => (&mut self.off, self.on),
            1 => (&mut self.on, self.off),
            _ => return Err(Refusal::UnknownCode),
        };
        if *struck && !other {
            return Err(Refusal::OnlyCode);
        }
        *struck = false;
        Ok(())
    }

    fn grant(&mut self, code: u32) -> Result<(), Refusal> {
        match code {
            0 => self.off = true,
            1 => self.on = true,
            _ => return Err(Refusal::UnknownCode),
        }
        Ok(())
    }
}

/// The codes that are held and those that count, bit c for code c. A counted code weighs 1, any other 0.
#[derive(Clone, Copy)]
struct Collection {
    held: u64,
    counted: u64,
}

impl Collection {
    fn new(codes: CodeList, counts: CodeList) -> Result<Collection, Refusal> {
        if codes.goes_above || counts.goes_above {
            return Err(Refusal::UnknownCode);
        }
        Ok(Collection {
            held: codes.codes,
            counted: counts.codes,
        })
    }
}

fn bit_of(code: u32) -> Result<u64, Refusal> {
    1u64.checked_shl(code).ok_or(Refusal::UnknownCode)
}

impl Entry for Collection {
    const TOP: u32 = 1;

    fn holds(&self, code: u32) -> bool {
        bit_of(code).is_ok_and(|bit| self.held & bit != 0)
    }

    fn weight(&self, code: u32) -> u32 {
        bit_of(code).map_or(0, |bit| u32::from(self.counted & bit != 0))
    }

    fn lightest(&self) -> u32 {
        u32::from(self.held != 0 && self.held & !self.counted == 0)
    }

    fn heaviest(&self) -> u32 {
        u32::from(self.held & self.counted != 0)
    }

    fn strike(&mut self, code: u32) -> Result<(), Refusal> {
        let bit = bit_of(code)?;
        if self.held == bit {
            return Err(Refusal::OnlyCode);
        }
        self.held &= !bit;
        Ok(())
    }

    fn grant(&mut self, code: u32) -> Result<(), Refusal> {
        self.held |= bit_of(code)?;
        Ok(())
    }
}

impl Boxes {
    fn new(low: u32, high: u32) -> Result<Boxes, Refusal> {
        if low >= CODES || high >= CODES {
            return Err(Refusal::UnknownCode);
        }
        Ok(Boxes {
            low: low as u8,
            high: high as u8,
        })
    }
}

impl Book {
    /// A rule for every window of `width` days. The answer is the first and the last new number.
    fn slide<E: Entry>(
        &mut self,
        entries: &[E],
        width: u32,
        least: u32,
        most: u32,
    ) -> Result<Option<(u32, u32)>, Refusal> {
        let days = day_count(entries)?;
        if width == 0 {
            return Err(Refusal::BadWindow);
        }
        if most < least || u64::from(E::TOP) * u64::from(width) < u64::from(most) {
            return Err(Refusal::BadCount);
        }
        let count = self.rules.len() as u32;
        let more = (days + 1).saturating_sub(width);
        if (count + more) as usize > RULES {
            return Err(Refusal::BookFull);
        }
        self.rules.extend((0..more).map(|later| Rule {
            first: later + 1,
            last: later + width,
            least,
            most,
            in_force: true,
        }));
        Ok((more > 0).then_some((count + 1, count + more)))
    }

    fn withdraw(&mut self, number: u32) -> Result<(), Refusal> {
        let index = (number as usize).checked_sub(1);
        let rule = index.and_then(|index| self.rules.get_mut(index));
        let rule = rule.filter(|rule| rule.in_force);
        rule.ok_or(Refusal::NoSuchRule)?.in_force = false;
        Ok(())
    }
}

fn entry_of<E>(entries: &mut [E], day: u32) -> Result<&mut E, Refusal> {
    let index = (day as usize).checked_sub(1);
    index
        .and_then(|index| entries.get_mut(index))
        .ok_or(Refusal::NoSuchDay)
}

/// Why the work on a sheet ends before its last line is answered.
enum End {
    Line(Fault),
    Refused(Refusal),
    Full,
}

impl From<Fault> for End {
    fn from(fault: Fault) -> End {
        End::Line(fault)
    }
}

/// The list that the answers go into, of which `count` bytes are written. A line is put together first.
struct Answers<'a> {
    list: &'a mut [u8],
    count: usize,
    line: Vec<u8>,
}

impl Answers<'_> {
    /// A line of the words and the numbers behind them.
    fn line(&mut self, words: &[u8], numbers: &[u32]) -> Result<(), End> {
        self.line.extend_from_slice(words);
        for &number in numbers {
            self.put_listed(number);
        }
        self.end_line()
    }

    fn refused(&mut self, refusal: &Refusal) -> Result<(), End> {
        self.line(b"(refused", &[refusal.number()])
    }

    fn told(&mut self, told: Result<(), Refusal>) -> Result<(), End> {
        match told {
            Ok(()) => self.line(b"(done", &[]),
            Err(refusal) => self.refused(&refusal),
        }
    }

    fn fault(&mut self, fault: Fault) -> Result<(), End> {
        let words: &[u8] = match fault.kind {
            FaultKind::Bytes => b"(fault bytes",
            FaultKind::Form => b"(fault form",
        };
        self.line(words, &[fault.line, fault.column])
    }

    fn verdict(&mut self, verdict: &Verdict) -> Result<(), End> {
        match verdict {
            Verdict::Agreed(agreement) => self.agreed(agreement),
            Verdict::Blocked(_) => self.line(b"(blocked", &[]),
            Verdict::Refused(refusal) => self.refused(refusal),
        }
    }

    fn agreed(&mut self, agreement: &Agreement) -> Result<(), End> {
        self.line.extend_from_slice(b"(agreed (lean");
        self.put_roster(&agreement.lean);
        self.line.extend_from_slice(b") (full");
        self.put_roster(&agreement.full);
        self.line.extend_from_slice(b") (keep");
        for (day, &set) in (1..).zip(&agreement.possible) {
            self.line.extend_from_slice(b" (");
            self.put_number(day);
            let mut rest = set;
            while rest != 0 {
                self.put_listed(rest.trailing_zeros());
                rest &= rest - 1;
            }
            self.line.push(b')');
        }
        self.line.push(b')');
        self.end_line()
    }

    fn put_roster(&mut self, roster: &[u8]) {
        for &code in roster {
            self.put_listed(u32::from(code));
        }
    }

    fn put_listed(&mut self, number: u32) {
        self.line.push(b' ');
        self.put_number(number);
    }

    fn put_number(&mut self, number: u32) {
        let mut digits = [0; 10];
        let mut start = digits.len();
        let mut rest = number;
        while rest > 0 || start == digits.len() {
            start -= 1;
            digits[start] = b'0' + (rest % 10) as u8;
            rest /= 10;
        }
        self.line.extend_from_slice(&digits[start..]);
    }

    /// Moves the line into the list, where it fits.
    fn end_line(&mut self) -> Result<(), End> {
        self.line.extend_from_slice(b")\n");
        let end = self.count + self.line.len();
        let room = self.list.get_mut(self.count..end).ok_or(End::Full)?;
        room.copy_from_slice(&self.line);
        self.count = end;
        self.line.clear();
        Ok(())
    }
}

/// Works a sheet, and writes the answers into the list. The answer is the number of the refusal that ended the
/// work, or 0, and how many bytes are written.
pub fn carry(text: &[u8], list: &mut [u8]) -> (u32, usize) {
    let mut answers = Answers {
        list,
        count: 0,
        line: Vec::new(),
    };
    let ended = match work(text, &mut answers) {
        Ok(()) => 0,
        Err(End::Line(fault)) => {
            let _ = answers.fault(fault);
            15
        }
        Err(End::Refused(refusal)) => {
            let _ = answers.refused(&refusal);
            refusal.number()
        }
        Err(End::Full) => 16,
    };
    (ended, answers.count)
}

fn work(text: &[u8], answers: &mut Answers) -> Result<(), End> {
    let (start, sheet) = Sheet::open(text)?;
    match start {
        Start::Duty { days, codes } => {
            let entries = begin(days, Duty::new(codes), b"(duty", answers)?;
            work_calls(entries, sheet, answers)
        }
        Start::Collection {
            days,
            codes,
            counts,
        } => {
            let entry = Collection::new(codes, counts);
            let entries = begin(days, entry, b"(collection", answers)?;
            work_calls(entries, sheet, answers)
        }
        Start::Boxes { days, low, high } => {
            let entries = begin(days, Boxes::new(low, high), b"(boxes", answers)?;
            work_calls(entries, sheet, answers)
        }
    }
}

fn begin<E: Entry + Clone>(
    days: u32,
    entry: Result<E, Refusal>,
    words: &[u8],
    answers: &mut Answers,
) -> Result<Vec<E>, End> {
    if days as usize > DAYS {
        return Err(End::Refused(Refusal::TooManyDays));
    }
    let entry = entry.map_err(End::Refused)?;
    answers.line(words, &[days])?;
    Ok(vec![entry; days as usize])
}

fn work_calls<E: Entry>(
    mut entries: Vec<E>,
    mut sheet: Sheet,
    answers: &mut Answers,
) -> Result<(), End> {
    let mut book = Book::new();
    while let Some(call) = sheet.next_call()? {
        answer(&mut entries, &mut book, call, answers)?;
    }
    Ok(())
}

fn answer<E: Entry>(
    entries: &mut [E],
    book: &mut Book,
    call: Call,
    answers: &mut Answers,
) -> Result<(), End> {
    match call {
        Call::Rule {
            first,
            last,
            least,
            most,
        } => match book.rule(entries, first, last, least, most) {
            Ok(()) => answers.line(b"(rule", &[book.rules.len() as u32]),
            Err(refusal) => answers.refused(&refusal),
        },
        Call::Slide { width, least, most } => match book.slide(entries, width, least, most) {
            Ok(Some((first, last))) => answers.line(b"(slide", &[first, last]),
            Ok(None) => answers.line(b"(slide none", &[]),
            Err(refusal) => answers.refused(&refusal),
        },
        Call::Withdraw { number } => answers.told(book.withdraw(number)),
        Call::Strike { day, code } => {
            answers.told(entry_of(entries, day).and_then(|entry| entry.strike(code)))
        }
        Call::Grant { day, code } => {
            answers.told(entry_of(entries, day).and_then(|entry| entry.grant(code)))
        }
        Call::Settle => answers.verdict(&settle(entries, book)),
    }
}
