//! Judging, closing and settling written plainly in Rust: the algorithm of the crates `chains`,
//! `closure`, `plan` and `settlement` without contracts or proofs, over the same made-up plans. Beside it
//! stand reading and carrying of sheets. It takes the arguments of the program `measure` and prints what
//! that prints.

#[macro_use]
mod spelled;

mod carry;
mod sheets;
mod whole;

use sheets::{SheetSort, SheetTask, SheetWork};
use std::env;
use std::error::Error;
use std::fmt;
use whole::{Kind, WholeTask, WholeWork};

const DAYS: usize = 128;
const MARKS: usize = DAYS + 1;
const RULES: usize = 512;
const LINKS: usize = 1280;
const CODES: u32 = 64;
const TOP: u32 = 63;
const LARGEST: u32 = 8064;

/// How far a day or a rule strays from the hidden weights at the most.
const DAY_LEEWAY: u32 = 15;
const RULE_LEEWAY: u32 = 8;

/// Why a call is declined.
#[derive(Debug)]
enum Refusal {
    TooManyDays,
    EmptyDay(u32),
    NoSuchDay,
    BadWindow,
    BadCount,
    BookFull,
    NoSuchRule,
    RulePastDays(u32),
    UnknownCode,
    OnlyCode,
    WeightGap,
}

impl Refusal {
    /// The row's number in the table of refusals.
    fn number(&self) -> u32 {
        match self {
            Refusal::TooManyDays => 1,
            Refusal::EmptyDay(_) => 2,
            Refusal::NoSuchDay => 3,
            Refusal::BadWindow => 4,
            Refusal::BadCount => 5,
            Refusal::BookFull => 6,
            Refusal::NoSuchRule => 7,
            Refusal::RulePastDays(_) => 8,
            Refusal::UnknownCode => 9,
            Refusal::OnlyCode => 10,
            Refusal::WeightGap => 11,
        }
    }
}

impl fmt::Display for Refusal {
    fn fmt(&self, f: &mut fmt::Formatter) -> fmt::Result {
        match self {
            Refusal::TooManyDays => f.write_str("a plan has 128 days at the most"),
            Refusal::EmptyDay(day) => write!(f, "day {day} holds no code"),
            Refusal::NoSuchDay => f.write_str("the plan has no such day"),
            Refusal::BadWindow => f.write_str("the plan has no such days"),
            Refusal::BadCount => f.write_str("no days can add up to that"),
            Refusal::BookFull => f.write_str("the book has no room for that"),
            Refusal::NoSuchRule => f.write_str("no rule in force has that number"),
            Refusal::RulePastDays(rule) => write!(f, "rule {rule} ends past the days"),
            Refusal::UnknownCode => f.write_str("there is no such code"),
            Refusal::OnlyCode => f.write_str("nothing else is left for that day"),
            Refusal::WeightGap => f.write_str("the numbers allowed would no longer be consecutive"),
        }
    }
}

impl Error for Refusal {}

/// What one day of a plan may hold.
trait Entry {
    /// No code of the kind weighs more.
    const TOP: u32;

    fn holds(&self, code: u32) -> bool;

    fn weight(&self, code: u32) -> u32;

    /// What the lightest held code weighs.
    fn lightest(&self) -> u32;

    /// What the heaviest held code weighs.
    fn heaviest(&self) -> u32;

    /// Takes a code out.
    fn strike(&mut self, code: u32) -> Result<(), Refusal>;

    /// Puts a code in.
    fn grant(&mut self, code: u32) -> Result<(), Refusal>;
}

/// The codes from a low one to a high one. A code weighs its number.
#[derive(Clone, Copy)]
struct Boxes {
    low: u8,
    high: u8,
}

impl Entry for Boxes {
    const TOP: u32 = TOP;

    fn holds(&self, code: u32) -> bool {
        (u32::from(self.low)..=u32::from(self.high)).contains(&code)
    }

    fn weight(&self, code: u32) -> u32 {
        if code < CODES {
            code
        } else {
            0
        }
    }

    fn lightest(&self) -> u32 {
        if self.low <= self.high {
            u32::from(self.low)
        } else {
            0
        }
    }

    fn heaviest(&self) -> u32 {
        if self.low <= self.high {
            u32::from(self.high)
        } else {
            0
        }
    }

    fn strike(&mut self, code: u32) -> Result<(), Refusal> {
        if code >= CODES {
            return Err(Refusal::UnknownCode);
        }
        if !self.holds(code) {
            return Ok(());
        }
        if self.low == self.high {
            return Err(Refusal::OnlyCode);
        }
        if code == u32::from(self.low) {
            self.low += 1;
        } else if code == u32::from(self.high) {
            self.high -= 1;
        } else {
            return Err(Refusal::WeightGap);
        }
        Ok(())
    }

    fn grant(&mut self, code: u32) -> Result<(), Refusal> {
        if code >= CODES {
            return Err(Refusal::UnknownCode);
        }
        if self.holds(code) {
            return Ok(());
        }
        let code = code as u8;
        if self.high < self.low {
            *self = Boxes {
                low: code,
                high: code,
            };
        } else if code + 1 == self.low {
            self.low = code;
        } else if self.high + 1 == code {
            self.high = code;
        } else {
            return Err(Refusal::WeightGap);
        }
        Ok(())
    }
}

struct Rule {
    first: u32,
    last: u32,
    least: u32,
    most: u32,
    in_force: bool,
}

/// The rules made so far. Their numbers count from 1.
struct Book {
    rules: Vec<Rule>,
}

impl Book {
    fn new() -> Book {
        Book { rules: Vec::new() }
    }

    fn rule<E: Entry>(
        &mut self,
        entries: &[E],
        first: u32,
        last: u32,
        least: u32,
        most: u32,
    ) -> Result<(), Refusal> {
        let days = day_count(entries)?;
        if first == 0 || last < first || days < last {
            return Err(Refusal::BadWindow);
        }
        if most < least || E::TOP * (last - first + 1) < most {
            return Err(Refusal::BadCount);
        }
        if self.rules.len() == RULES {
            return Err(Refusal::BookFull);
        }
        self.rules.push(Rule {
            first,
            last,
            least,
            most,
            in_force: true,
        });
        Ok(())
    }
}

fn day_count<E>(entries: &[E]) -> Result<u32, Refusal> {
    if entries.len() > DAYS {
        return Err(Refusal::TooManyDays);
    }
    Ok(entries.len() as u32)
}

#[derive(Clone, Copy)]
enum Limit {
    Most(u32),
    Least(u32),
    Heaviest(u32),
    Lightest(u32),
}

#[derive(Clone, Copy)]
struct Link {
    limit: Limit,
    from: u8,
    to: u8,
    allowance: i16,
}

struct System {
    links: Vec<Link>,
    lightest: Vec<i16>,
    heaviest: Vec<i16>,
}

/// What has no place in a system.
#[derive(Debug)]
struct Unfit;

/// The total at mark 0, with room for all others.
fn at_mark_0() -> Vec<i16> {
    let mut totals = Vec::with_capacity(MARKS);
    totals.push(0);
    totals
}

impl System {
    fn new() -> System {
        System {
            links: Vec::with_capacity(LINKS),
            lightest: at_mark_0(),
            heaviest: at_mark_0(),
        }
    }

    fn marks(&self) -> usize {
        self.lightest.len()
    }

    fn add_day(&mut self, lightest: u32, heaviest: u32) -> Result<(), Unfit> {
        let day = self.marks();
        if day > DAYS || lightest > TOP || heaviest > TOP {
            return Err(Unfit);
        }
        let (before, after) = (day as u8 - 1, day as u8);
        self.link(Limit::Heaviest(day as u32), before, after, heaviest as i16)?;
        self.link(
            Limit::Lightest(day as u32),
            after,
            before,
            -(lightest as i16),
        )?;
        self.lightest.push(self.lightest[day - 1] + lightest as i16);
        self.heaviest.push(self.heaviest[day - 1] + heaviest as i16);
        Ok(())
    }

    fn add_rule(
        &mut self,
        number: u32,
        first: u32,
        last: u32,
        least: u32,
        most: u32,
    ) -> Result<(), Unfit> {
        if first == 0
            || first > last
            || last as usize >= self.marks()
            || least > LARGEST
            || most > LARGEST
        {
            return Err(Unfit);
        }
        let (before, after) = (first as u8 - 1, last as u8);
        self.link(Limit::Most(number), before, after, most as i16)?;
        self.link(Limit::Least(number), after, before, -(least as i16))
    }

    fn link(&mut self, limit: Limit, from: u8, to: u8, allowance: i16) -> Result<(), Unfit> {
        if self.links.len() == LINKS {
            return Err(Unfit);
        }
        self.links.push(Link {
            limit,
            from,
            to,
            allowance,
        });
        Ok(())
    }
}

/// The system of a plan's days and of its rules in force, where the plan can be settled.
fn system_of<E: Entry>(entries: &[E], book: &Book) -> Result<System, Refusal> {
    let days = day_count(entries)?;
    if let Some(index) = entries.iter().position(|entry| !holds_code(entry)) {
        return Err(Refusal::EmptyDay(index as u32 + 1));
    }
    let ends_late = |rule: &Rule| rule.in_force && rule.last > days;
    if let Some(index) = book.rules.iter().position(ends_late) {
        return Err(Refusal::RulePastDays(index as u32 + 1));
    }
    let system = system_of_sound(entries, &book.rules);
    Ok(system.expect("the days and the rules of a plan fit"))
}

fn holds_code<E: Entry>(entry: &E) -> bool {
    (0..CODES).any(|code| entry.holds(code))
}

fn system_of_sound<E: Entry>(entries: &[E], rules: &[Rule]) -> Result<System, Unfit> {
    let mut system = System::new();
    for entry in entries {
        system.add_day(entry.lightest(), entry.heaviest())?;
    }
    for (number, rule) in (1..).zip(rules) {
        if rule.in_force {
            system.add_rule(number, rule.first, rule.last, rule.least, rule.most)?;
        }
    }
    Ok(system)
}

/// For each mark, a total: in the first layer that of the lightest days, and in each later one the
/// least that a link into the mark makes of the layer before.
type Layer = [i32; MARKS];

/// A closed chain whose sum is below 0, if there is one.
fn judge(system: &System) -> Result<(), Vec<Link>> {
    let marks = system.marks();
    let mut layers = Vec::with_capacity(marks + 1);
    layers.push(lightest_totals(system));
    for k in 0..marks {
        let next = lowered(&system.links, &layers[k]);
        if next == layers[k] {
            return Ok(());
        }
        layers.push(next);
    }
    let fallen = (0..marks).find(|&mark| layers[marks][mark] < layers[marks - 1][mark]);
    let steps = walk_back(
        &system.links,
        &layers,
        fallen.expect("the last layer is lower"),
    );
    Err(closed_part(&steps).to_vec())
}

fn lightest_totals(system: &System) -> Layer {
    let mut layer = [0; MARKS];
    for (sum, &total) in layer.iter_mut().zip(&system.lightest) {
        *sum = i32::from(total);
    }
    layer
}

fn lowered(links: &[Link], layer: &Layer) -> Layer {
    let mut next = *layer;
    for link in links {
        let to = usize::from(link.to);
        let sum = layer[usize::from(link.from)] + i32::from(link.allowance);
        next[to] = next[to].min(sum);
    }
    next
}

/// The links by which the mark fell, one into each layer.
fn walk_back(links: &[Link], layers: &[Layer], end: usize) -> Vec<Link> {
    let mut mark = end;
    let mut steps = Vec::with_capacity(layers.len() - 1);
    for pair in layers.windows(2).rev() {
        let step = step_into(links, &pair[0], mark, pair[1][mark]);
        steps.push(step);
        mark = usize::from(step.from);
    }
    steps.reverse();
    steps
}

/// The link that makes the mark's sum from the layer.
fn step_into(links: &[Link], layer: &Layer, mark: usize, sum: i32) -> Link {
    *links
        .iter()
        .find(|link| {
            usize::from(link.to) == mark
                && layer[usize::from(link.from)] + i32::from(link.allowance) == sum
        })
        .expect("a link makes each sum")
}

/// The first links that end where they started.
fn closed_part(steps: &[Link]) -> &[Link] {
    for (end, last) in steps.iter().enumerate() {
        if let Some(start) = steps[..=end].iter().position(|first| first.from == last.to) {
            return &steps[start..=end];
        }
    }
    unreachable!("there are more links than marks")
}

#[derive(Clone, Copy)]
struct Rise {
    least: i16,
    most: i16,
}

/// What one mark allows to each other.
type Row = [i16; MARKS];

/// One row for each mark.
struct Closure {
    rows: Vec<Row>,
}

impl Closure {
    fn of(system: &System) -> Closure {
        let mut rows = day_sums(system);
        for link in &system.links {
            let allowance = &mut rows[usize::from(link.from)][usize::from(link.to)];
            *allowance = (*allowance).min(link.allowance);
        }
        for via in 0..rows.len() {
            let through = rows[via];
            for row in &mut rows {
                let first = row[via];
                lower(row, &through, first);
            }
        }
        Closure { rows }
    }

    fn smallest(&self) -> Vec<i16> {
        self.rows.iter().map(|row| -row[0]).collect()
    }

    fn largest(&self) -> &[i16] {
        &self.rows[0][..self.rows.len()]
    }

    fn rise(&self, from: usize, to: usize) -> Option<Rise> {
        Some(Rise {
            least: -self.rows.get(to)?[from],
            most: self.rows.get(from)?[to],
        })
    }
}

/// What the days alone allow: forward the sum of their heaviest, backward that of their lightest.
fn day_sums(system: &System) -> Vec<Row> {
    (0..system.marks())
        .map(|from| days_from(from, &system.lightest, &system.heaviest))
        .collect()
}

fn days_from(from: usize, lightest: &[i16], heaviest: &[i16]) -> Row {
    let mut row = [0; MARKS];
    for (allowance, total) in row.iter_mut().zip(&lightest[..from]) {
        *allowance = total - lightest[from];
    }
    for (allowance, total) in row[from..].iter_mut().zip(&heaviest[from..]) {
        *allowance = total - heaviest[from];
    }
    row
}

/// Lowers each number to the first one and the one beside it together, where that is less.
fn lower(row: &mut Row, beside: &Row, first: i16) {
    for (number, beside) in row.iter_mut().zip(beside) {
        *number = (*number).min(first + beside);
    }
}

/// What an agreed plan allows: the possible codes of each day, and the lawful rosters with the least and
/// the most weight.
struct Agreement {
    possible: Vec<u64>,
    lean: Vec<u8>,
    full: Vec<u8>,
}

enum Verdict {
    Agreed(Agreement),
    Blocked(Vec<Link>),
    Refused(Refusal),
}

fn settle<E: Entry>(entries: &[E], book: &Book) -> Verdict {
    match system_of(entries, book) {
        Err(refusal) => Verdict::Refused(refusal),
        Ok(system) => match judge(&system) {
            Err(chain) => Verdict::Blocked(chain),
            Ok(()) => Verdict::Agreed(Agreement::of(entries, &Closure::of(&system))),
        },
    }
}

impl Agreement {
    fn of<E: Entry>(entries: &[E], closure: &Closure) -> Agreement {
        Agreement {
            possible: possible_codes(entries, closure),
            lean: roster_of(entries, &closure.smallest()),
            full: roster_of(entries, closure.largest()),
        }
    }
}

/// For each day the held codes whose weight is one of its rises: bit c stands for code c.
fn possible_codes<E: Entry>(entries: &[E], closure: &Closure) -> Vec<u64> {
    let sets = entries.iter().enumerate().map(|(before, entry)| {
        let rise = closure.rise(before, before + 1);
        rise.map_or(0, |rise| codes_within(entry, rise))
    });
    sets.collect()
}

fn codes_within<E: Entry>(entry: &E, rise: Rise) -> u64 {
    let mut set = 0;
    for code in 0..CODES {
        let weight = entry.weight(code) as i16;
        if entry.holds(code) && rise.least <= weight && weight <= rise.most {
            set |= 1 << code;
        }
    }
    set
}

/// On each day the smallest held code that weighs what the totals rise by.
fn roster_of<E: Entry>(entries: &[E], totals: &[i16]) -> Vec<u8> {
    let rises = totals.windows(2).map(|pair| pair[1] - pair[0]);
    let codes = entries.iter().zip(rises);
    codes
        .map(|(entry, rise)| smallest_of(entry, rise))
        .collect()
}

fn smallest_of<E: Entry>(entry: &E, weight: i16) -> u8 {
    let found = (0..CODES).find(|&code| entry.holds(code) && entry.weight(code) as i16 == weight);
    found.expect("some held code has that weight") as u8
}

/// Numbers that look like chance, the same in every run.
struct Draws(u32);

impl Draws {
    fn between(&mut self, low: u32, high: u32) -> u32 {
        self.0 = self.0.wrapping_mul(1_664_525).wrapping_add(1_013_904_223);
        low + (self.0 >> 16) % (high.saturating_sub(low) + 1)
    }

    /// The first and the last of some days in a row.
    fn window(&mut self, days: u32) -> (u32, u32) {
        let first = self.between(1, days);
        (first, self.between(first, days))
    }

    /// A rule's first and last day, its least and its most. No day weighs more than `top`.
    fn rule(&mut self, stand: Stand, days: u32, totals: &[u32], top: u32) -> [u32; 4] {
        let (first, last) = match stand {
            Stand::Alone(day) => (day, day),
            Stand::Around | Stand::Above => self.window(days),
        };
        let count = last - first + 1;
        let sum = totals[last as usize] - totals[first as usize - 1];
        let least = match stand {
            Stand::Alone(_) => sum,
            Stand::Above => sum + count * (DAY_LEEWAY + 1),
            Stand::Around => self.between(sum.saturating_sub(RULE_LEEWAY), sum.saturating_sub(1)),
        };
        let most = sum.max(least) + self.between(1, RULE_LEEWAY);
        let largest = count * top;
        [first, last, least.min(largest), most.min(largest)]
    }
}

#[derive(Clone, Copy, PartialEq)]
enum Sort {
    /// Has a solution.
    Agreed,
    /// Has none: the last rule asks more of its days than these can weigh.
    Blocked,
    /// Has a solution, but the first rules, of one day each, lead to the smallest totals only all
    /// together.
    Slow,
}

spelled!(
    Sort,
    "sort of plan",
    Agreed = "agreed",
    Blocked = "blocked",
    Slow = "slow"
);

impl Sort {
    /// How the rule with the number stands to the hidden weights.
    fn stand(self, number: u32, rules: u32, days: u32) -> Stand {
        match self {
            Sort::Slow if number <= days => Stand::Alone(number),
            Sort::Blocked if number == rules => Stand::Above,
            _ => Stand::Around,
        }
    }
}

/// How a rule stands to the hidden weights.
#[derive(Clone, Copy)]
enum Stand {
    /// Over some days, whose sum keeps it.
    Around,
    /// Over one day, which weighs no less than it asks.
    Alone(u32),
    /// Over some days, and it asks more of them than their weights with all their leeway.
    Above,
}

/// What can be settled: days, and the rules over them.
struct Plan {
    entries: Vec<Boxes>,
    book: Book,
}

/// A plan whose days and rules stand around hidden weights, which solve it unless it is blocked.
fn made_up(days: u32, rules: u32, sort: Sort) -> Result<Plan, Refusal> {
    let mut draws = Draws(days);
    let (entries, totals) = made_up_days(&mut draws, days);
    let mut book = Book::new();
    for number in 1..=rules {
        let stand = sort.stand(number, rules, days);
        let [first, last, least, most] = draws.rule(stand, days, &totals, TOP);
        book.rule(&entries, first, last, least, most)?;
    }
    Ok(Plan { entries, book })
}

/// The days, and the hidden total at each mark.
fn made_up_days(draws: &mut Draws, days: u32) -> (Vec<Boxes>, Vec<u32>) {
    let mut entries = Vec::new();
    let mut total = 0;
    let mut totals = vec![total];
    for _ in 0..days {
        let weight = draws.between(0, TOP);
        let low = draws.between(weight.saturating_sub(DAY_LEEWAY), weight) as u8;
        let high = draws.between(weight, (weight + DAY_LEEWAY).min(TOP)) as u8;
        entries.push(Boxes { low, high });
        total += weight;
        totals.push(total);
    }
    (entries, totals)
}

#[derive(Clone, Copy)]
enum Work {
    Build,
    Judge,
    /// Judging too.
    Close,
    /// Building the plan's system, judging and closing too.
    Settle,
}

spelled!(
    Work,
    "work",
    Build = "build",
    Judge = "judge",
    Close = "close",
    Settle = "settle"
);

/// A number that depends on all numbers added and on their order.
struct Checksum(i32);

impl Checksum {
    fn add(&mut self, number: i32) {
        self.0 = self.0.wrapping_mul(31).wrapping_add(number);
    }

    fn add_totals(&mut self, totals: &[i16]) {
        for &total in totals {
            self.add(i32::from(total));
        }
    }

    fn add_links(&mut self, links: &[Link]) {
        for link in links {
            let (limit, number) = match link.limit {
                Limit::Most(rule) => (0, rule),
                Limit::Least(rule) => (1, rule),
                Limit::Heaviest(day) => (2, day),
                Limit::Lightest(day) => (3, day),
            };
            self.add(limit);
            self.add(number.cast_signed());
            self.add(i32::from(link.from));
            self.add(i32::from(link.to));
            self.add(i32::from(link.allowance));
        }
    }

    fn add_agreement(&mut self, agreement: &Agreement) {
        for &set in &agreement.possible {
            let smallest = (set != 0).then(|| set.trailing_zeros());
            self.add(set.count_ones().cast_signed());
            self.add(smallest.map_or(-1, u32::cast_signed));
        }
        self.add_roster(&agreement.lean);
        self.add_roster(&agreement.full);
    }

    fn add_roster(&mut self, roster: &[u8]) {
        for &code in roster {
            self.add(i32::from(code));
        }
    }

    fn add_closure(&mut self, closure: &Closure) {
        self.add_totals(&closure.smallest());
        self.add_totals(closure.largest());
        for before in 0.. {
            let Some(rise) = closure.rise(before, before + 1) else {
                break;
            };
            self.add(i32::from(rise.least));
            self.add(i32::from(rise.most));
        }
    }
}

/// What is to be done, and how often.
struct Task {
    days: u32,
    rules: u32,
    sort: Sort,
    work: Work,
    times: u32,
}

impl Task {
    fn read(words: &[String]) -> Result<Task, Box<dyn Error>> {
        let [days, rules, sort, work, times] = words else {
            return Err("usage: plain DAYS RULES SORT WORK TIMES".into());
        };
        Ok(Task {
            days: days.parse()?,
            rules: rules.parse()?,
            sort: sort.parse()?,
            work: work.parse()?,
            times: times.parse()?,
        })
    }

    fn print(&self) -> Result<(), Refusal> {
        println!("{self}: {}", self.work()?.0);
        Ok(())
    }

    fn work(&self) -> Result<Checksum, Refusal> {
        let mut checksum = Checksum(0);
        let plan = made_up(self.days, self.rules, self.sort)?;
        let system = system_of(&plan.entries, &plan.book)?;
        for _ in 0..self.times {
            match self.work {
                Work::Build => build_once(&plan, &mut checksum)?,
                Work::Judge => judge_once(&system, &mut checksum),
                Work::Close => close_once(&system, &mut checksum),
                Work::Settle => settle_once(&plan, &mut checksum),
            }
        }
        Ok(checksum)
    }
}

impl fmt::Display for Task {
    fn fmt(&self, f: &mut fmt::Formatter) -> fmt::Result {
        let Task {
            days,
            rules,
            sort,
            work,
            times,
        } = self;
        write!(
            f,
            "{days} days, {rules} rules, {sort}, {work}, {times} times"
        )
    }
}

fn build_once(plan: &Plan, checksum: &mut Checksum) -> Result<(), Refusal> {
    let system = system_of(&plan.entries, &plan.book)?;
    checksum.add_links(&system.links);
    checksum.add_totals(&system.lightest);
    checksum.add_totals(&system.heaviest);
    Ok(())
}

fn judge_once(system: &System, checksum: &mut Checksum) {
    match judge(system) {
        Ok(()) => checksum.add(1),
        Err(chain) => checksum.add_links(&chain),
    }
}

/// Where there is no solution, there is nothing to close.
fn close_once(system: &System, checksum: &mut Checksum) {
    match judge(system) {
        Ok(()) => checksum.add_closure(&Closure::of(system)),
        Err(chain) => checksum.add_links(&chain),
    }
}

fn settle_once(plan: &Plan, checksum: &mut Checksum) {
    match settle(&plan.entries, &plan.book) {
        Verdict::Agreed(agreement) => checksum.add_agreement(&agreement),
        Verdict::Blocked(chain) => checksum.add_links(&chain),
        Verdict::Refused(refusal) => checksum.add(refusal.number().cast_signed()),
    }
}

fn small_run() -> Result<(), Refusal> {
    for sort in [Sort::Agreed, Sort::Blocked, Sort::Slow] {
        for work in [Work::Build, Work::Judge, Work::Close, Work::Settle] {
            Task {
                days: 16,
                rules: 64,
                sort,
                work,
                times: 1,
            }
            .print()?;
        }
    }
    small_run_of_sheets();
    Ok(())
}

fn small_run_of_sheets() {
    for sort in [SheetSort::Calls, SheetSort::Settles, SheetSort::Codes] {
        for work in [SheetWork::Read, SheetWork::Spoil] {
            SheetTask {
                bytes: 400,
                sort,
                work,
                times: 1,
            }
            .print();
        }
    }
    small_run_of_whole_sheets();
}

fn small_run_of_whole_sheets() {
    for kind in [Kind::Duty, Kind::Collection, Kind::Boxes] {
        for sort in [Sort::Agreed, Sort::Blocked] {
            WholeTask {
                kind,
                sort,
                work: WholeWork::Carry,
                times: 1,
            }
            .print();
        }
    }
}

fn main() -> Result<(), Box<dyn Error>> {
    let words: Vec<String> = env::args().skip(1).collect();
    match words.as_slice() {
        [] => small_run()?,
        [first, rest @ ..] if first == "sheet" => SheetTask::read(rest)?.print(),
        [first, rest @ ..] if first == "whole" => WholeTask::read(rest)?.print(),
        all => Task::read(all)?.print()?,
    }
    Ok(())
}
