// The book of `full_cube` in plain Rust: the same entries in the same two layouts, with the same checks and the same figures.
//
//   cube BOOK flat|paged BOOKINGS QUERIES
//
// BOOK is what `full_cube book` writes. Books it so often, queries it so often as it is known at its end, and prints the figures
// of the live sheet and of the questions as `full_cube` does.
use std::hint::black_box;

const ROWS: i64 = 40;
const COLUMNS: i64 = 40;
const MONTHS: i64 = 3;
const BASE: i64 = 12 * 2015;
const BLOCK: usize = (ROWS * COLUMNS + 1) as usize;
const CELLS: usize = 3 * BLOCK;
const MOST_ENTRIES: usize = 65_536;
const MOST_CLAIMS: usize = 8_192;
const PAGE: usize = 16;
const PAGES: usize = 11_776;
const LAST_DAY: u32 = 20_241_231;
// Known on, valued at.
const QUESTIONS: [(u32, u32); 6] = [
    (20_161_231, 20_161_231),
    (20_191_231, 20_191_231),
    (20_221_231, 20_221_231),
    (LAST_DAY, LAST_DAY),
    (20_221_231, 20_191_231),
    (LAST_DAY, 20_191_231),
];

#[derive(Clone, Copy)]
struct ClaimDays {
    inception: u32,
    occurrence: u32,
    report: u32,
}

#[derive(Clone, Copy, PartialEq)]
enum Kind {
    Paid,
    Reserved,
}

#[derive(Clone, Copy)]
struct Terms {
    effective: u32,
    cents: i64,
}

#[derive(Clone, Copy)]
enum Content {
    Opening(ClaimDays),
    Movement(Kind, Terms),
    Correction(u32, Terms),
    Void(u32),
    Redating(ClaimDays),
}

#[derive(Clone, Copy)]
struct Entry {
    booked: u32,
    claim: u32,
    content: Content,
}

impl Entry {
    fn names(&self) -> Option<u32> {
        match self.content {
            Content::Correction(names, _) | Content::Void(names) => Some(names),
            _ => None,
        }
    }

    fn terms(&self) -> Option<Terms> {
        match self.content {
            Content::Movement(_, terms) | Content::Correction(_, terms) => Some(terms),
            _ => None,
        }
    }
}

const NO_ENTRY: Entry = Entry {
    booked: 0,
    claim: 0,
    content: Content::Void(0),
};

// Entries by number from 1, and the entries of a claim one after the other.
trait Register {
    fn clear(&mut self);
    fn len(&self) -> u32;
    fn openings(&self) -> u32;
    fn entry(&self, number: u32) -> Option<&Entry>;
    fn next_of_claim(&self, claim: u32, after: u32) -> Option<(u32, &Entry)>;
    fn add(&mut self, entry: Entry) -> u32;
}

struct Flat {
    entries: Vec<Entry>,
    openings: u32,
}

impl Flat {
    fn new() -> Flat {
        Flat {
            entries: Vec::with_capacity(MOST_ENTRIES),
            openings: 0,
        }
    }
}

impl Register for Flat {
    fn clear(&mut self) {
        self.entries.clear();
        self.openings = 0;
    }

    fn len(&self) -> u32 {
        self.entries.len() as u32
    }

    fn openings(&self) -> u32 {
        self.openings
    }

    fn entry(&self, number: u32) -> Option<&Entry> {
        self.entries.get((number as usize).wrapping_sub(1))
    }

    fn next_of_claim(&self, claim: u32, after: u32) -> Option<(u32, &Entry)> {
        let rest = self.entries.get(after as usize..)?;
        let place = rest.iter().position(|entry| entry.claim == claim)?;
        Some((after + place as u32 + 1, &rest[place]))
    }

    fn add(&mut self, entry: Entry) -> u32 {
        self.openings += matches!(entry.content, Content::Opening(_)) as u32;
        self.entries.push(entry);
        self.len()
    }
}

#[derive(Clone, Copy, Default)]
struct ClaimCard {
    first: u32,
    last: u32,
    spare: u32,
}

#[derive(Clone, Copy)]
struct Slot {
    number: u32,
    entry: Entry,
}

// Pages of sixteen slots, each of one claim; `next` links the pages of a claim, `places` has the slot of each entry.
struct Paged {
    next: Vec<u32>,
    slots: Vec<Slot>,
    claims: Vec<ClaimCard>,
    places: Vec<u32>,
    openings: u32,
}

impl Paged {
    fn new() -> Paged {
        Paged {
            next: Vec::with_capacity(PAGES),
            slots: vec![
                Slot {
                    number: 0,
                    entry: NO_ENTRY
                };
                PAGE * PAGES
            ],
            claims: vec![ClaimCard::default(); MOST_CLAIMS + 1],
            places: Vec::with_capacity(MOST_ENTRIES),
            openings: 0,
        }
    }
}

impl Register for Paged {
    fn clear(&mut self) {
        self.next.clear();
        self.claims.fill(ClaimCard::default());
        self.places.clear();
        self.openings = 0;
    }

    fn len(&self) -> u32 {
        self.places.len() as u32
    }

    fn openings(&self) -> u32 {
        self.openings
    }

    fn entry(&self, number: u32) -> Option<&Entry> {
        let place = *self.places.get((number as usize).wrapping_sub(1))?;
        Some(&self.slots[place as usize].entry)
    }

    fn next_of_claim(&self, claim: u32, after: u32) -> Option<(u32, &Entry)> {
        let card = self.claims.get(claim as usize)?;
        if card.last <= after {
            return None;
        }
        let mut place = PAGE * card.first as usize;
        if let Some(&before) = self.places.get((after as usize).wrapping_sub(1)) {
            if self.slots[before as usize].entry.claim == claim {
                let before = before as usize;
                place = if before % PAGE + 1 < PAGE {
                    before + 1
                } else {
                    PAGE * self.next[before / PAGE] as usize
                };
                let slot = &self.slots[place];
                return Some((slot.number, &slot.entry));
            }
        }
        while self.slots[place].number <= after {
            place = if place % PAGE + 1 < PAGE {
                place + 1
            } else {
                PAGE * self.next[place / PAGE] as usize
            };
        }
        let slot = &self.slots[place];
        Some((slot.number, &slot.entry))
    }

    fn add(&mut self, entry: Entry) -> u32 {
        let number = self.len() + 1;
        let card = &mut self.claims[entry.claim as usize];
        let place = if card.spare > 0 {
            card.spare -= 1;
            self.places[card.last as usize - 1] + 1
        } else {
            let page = self.next.len() as u32;
            if card.last == 0 {
                card.first = page;
            } else {
                self.next[self.places[card.last as usize - 1] as usize / PAGE] = page;
            }
            self.next.push(0);
            card.spare = PAGE as u32 - 1;
            PAGE as u32 * page
        };
        card.last = number;
        self.slots[place as usize] = Slot { number, entry };
        self.places.push(place);
        self.openings += matches!(entry.content, Content::Opening(_)) as u32;
        number
    }
}

fn month(day: u32) -> i64 {
    (12 * (day / 10_000) + day / 100 % 100) as i64 - 1
}

// The cell of a day within the block of a measure.
fn cell(claim_days: &ClaimDays, day: u32) -> usize {
    let row = (month(claim_days.occurrence) - BASE).div_euclid(MONTHS);
    let column = (month(day) - (BASE + MONTHS * row)).div_euclid(MONTHS);
    if (0..ROWS).contains(&row) && (0..COLUMNS).contains(&column) {
        (row * COLUMNS + column) as usize
    } else {
        (ROWS * COLUMNS) as usize
    }
}

fn add_movement(sheet: &mut [i64], kind: Kind, claim_days: &ClaimDays, day: u32, cents: i64) {
    let cell = cell(claim_days, day);
    if kind == Kind::Paid {
        sheet[cell] += cents;
    }
    sheet[BLOCK + cell] += cents;
}

fn add_count(sheet: &mut [i64], claim_days: &ClaimDays, count: i64) {
    sheet[2 * BLOCK + cell(claim_days, claim_days.report)] += count;
}

struct Cube<R> {
    register: R,
    draft: Option<u32>,
}

// A request of the book: letter, booking day, claim, number, terms and claim days, as a line has them.
struct Request {
    letter: u8,
    booked: u32,
    claim: u32,
    number: u32,
    terms: Terms,
    claim_days: ClaimDays,
    answer: i64,
}

type Answer = Result<u32, u32>;

fn refuse_if(test: bool, fault: u32) -> Result<(), u32> {
    if test {
        Err(fault)
    } else {
        Ok(())
    }
}

impl<R: Register> Cube<R> {
    fn entries_of(&self, claim: u32, after: u32) -> impl Iterator<Item = (u32, &Entry)> {
        let first = self.register.next_of_claim(claim, after);
        std::iter::successors(first, move |&(number, _)| self.register.next_of_claim(claim, number))
    }

    fn claim_days(&self, claim: u32) -> Option<ClaimDays> {
        self.entries_of(claim, 0)
            .fold(None, |days, (_, entry)| match entry.content {
                Content::Opening(new) | Content::Redating(new) => Some(new),
                _ => days,
            })
    }

    fn stands(&self, number: u32, entry: &Entry) -> bool {
        entry.terms().is_some()
            && !self
                .entries_of(entry.claim, number)
                .any(|(_, later)| later.names() == Some(number))
    }

    fn kind(&self, number: u32) -> Option<Kind> {
        match self.register.entry(number)?.content {
            Content::Movement(kind, _) => Some(kind),
            Content::Correction(names, _) => self.kind(names),
            _ => None,
        }
    }

    fn check_booking(&self, booked: u32) -> Result<(), u32> {
        let last = self.register.entry(self.register.len());
        refuse_if(last.is_some_and(|entry| booked < entry.booked), 7)?;
        refuse_if(self.register.len() as usize == MOST_ENTRIES, 8)
    }

    fn standing(&self, number: u32) -> Result<Entry, u32> {
        let entry = *self.register.entry(number).ok_or(14u32)?;
        refuse_if(entry.terms().is_none(), 15)?;
        refuse_if(!self.stands(number, &entry), 16)?;
        Ok(entry)
    }

    fn add_claim_part(&self, sheet: &mut [i64], claim: u32, claim_days: &ClaimDays, sign: i64) {
        for (number, entry) in self.entries_of(claim, 0) {
            if let Content::Opening(_) = entry.content {
                add_count(sheet, claim_days, sign);
            } else if let (Some(terms), true) = (entry.terms(), self.stands(number, entry)) {
                if let Some(kind) = self.kind(number) {
                    add_movement(sheet, kind, claim_days, terms.effective, sign * terms.cents);
                }
            }
        }
    }

    fn take_off(&self, sheet: &mut [i64], number: u32, claim_days: &ClaimDays) {
        if let (Some(kind), Some(terms)) = (self.kind(number), self.register.entry(number).and_then(Entry::terms)) {
            add_movement(sheet, kind, claim_days, terms.effective, -terms.cents);
        }
    }

    // Adds what an entry brings to the sheet, and the entry to the register.
    fn book(&mut self, sheet: &mut [i64], entry: Entry) -> u32 {
        let before = self.claim_days(entry.claim);
        match (entry.content, before) {
            (Content::Opening(new), _) => add_count(sheet, &new, 1),
            (Content::Movement(kind, terms), Some(days)) => {
                add_movement(sheet, kind, &days, terms.effective, terms.cents)
            }
            (Content::Correction(names, terms), Some(days)) => {
                self.take_off(sheet, names, &days);
                if let Some(kind) = self.kind(names) {
                    add_movement(sheet, kind, &days, terms.effective, terms.cents);
                }
            }
            (Content::Void(names), Some(days)) => self.take_off(sheet, names, &days),
            (Content::Redating(new), Some(days)) => {
                self.add_claim_part(sheet, entry.claim, &days, -1);
                self.add_claim_part(sheet, entry.claim, &new, 1);
            }
            _ => {}
        }
        self.register.add(entry)
    }

    fn check_days(days: &ClaimDays, booked: u32) -> Result<(), u32> {
        refuse_if(days.occurrence < days.inception || days.report < days.occurrence, 10)?;
        refuse_if(booked < days.report, 11)
    }

    fn check_effective(days: &ClaimDays, effective: u32, booked: u32) -> Result<(), u32> {
        refuse_if(effective < days.report, 13)?;
        refuse_if(booked < effective, 11)
    }

    fn open(&mut self, sheet: &mut [i64], booked: u32, days: ClaimDays) -> Answer {
        self.check_booking(booked)?;
        refuse_if(self.register.openings() as usize >= MOST_CLAIMS, 9)?;
        Self::check_days(&days, booked)?;
        let claim = self.register.openings() + 1;
        Ok(self.book(
            sheet,
            Entry {
                booked,
                claim,
                content: Content::Opening(days),
            },
        ))
    }

    fn movement(&mut self, sheet: &mut [i64], kind: Kind, booked: u32, claim: u32, terms: Terms) -> Answer {
        self.check_booking(booked)?;
        let days = self.claim_days(claim).ok_or(12u32)?;
        Self::check_effective(&days, terms.effective, booked)?;
        Ok(self.book(
            sheet,
            Entry {
                booked,
                claim,
                content: Content::Movement(kind, terms),
            },
        ))
    }

    fn void(&mut self, sheet: &mut [i64], booked: u32, number: u32) -> Answer {
        self.check_booking(booked)?;
        let claim = self.standing(number)?.claim;
        refuse_if(self.draft == Some(number), 17)?;
        Ok(self.book(
            sheet,
            Entry {
                booked,
                claim,
                content: Content::Void(number),
            },
        ))
    }

    fn redate(&mut self, sheet: &mut [i64], booked: u32, claim: u32, days: ClaimDays) -> Answer {
        self.check_booking(booked)?;
        self.claim_days(claim).ok_or(12u32)?;
        Self::check_days(&days, booked)?;
        let moved = |(number, entry): (u32, &Entry)| {
            entry.terms().is_some_and(|terms| terms.effective < days.report) && self.stands(number, entry)
        };
        refuse_if(self.entries_of(claim, 0).any(moved), 19)?;
        Ok(self.book(
            sheet,
            Entry {
                booked,
                claim,
                content: Content::Redating(days),
            },
        ))
    }

    fn draft(&mut self, number: u32) -> Result<(), u32> {
        self.standing(number)?;
        refuse_if(self.draft.is_some(), 17)?;
        self.draft = Some(number);
        Ok(())
    }

    fn post(&mut self, sheet: &mut [i64], booked: u32, number: u32, terms: Terms) -> Answer {
        self.check_booking(booked)?;
        let claim = self.register.entry(number).ok_or(18u32)?.claim;
        let days = self.claim_days(claim).ok_or(12u32)?;
        Self::check_effective(&days, terms.effective, booked)?;
        let posted = self.book(
            sheet,
            Entry {
                booked,
                claim,
                content: Content::Correction(number, terms),
            },
        );
        self.draft = None;
        Ok(posted)
    }

    fn serve(&mut self, sheet: &mut [i64], request: &Request) -> Answer {
        let &Request {
            letter,
            booked,
            claim,
            number,
            terms,
            claim_days,
            ..
        } = request;
        match letter {
            b'O' => self.open(sheet, booked, claim_days),
            b'P' => self.movement(sheet, Kind::Paid, booked, claim, terms),
            b'R' => self.movement(sheet, Kind::Reserved, booked, claim, terms),
            b'V' => self.void(sheet, booked, number),
            b'D' => self.redate(sheet, booked, claim, claim_days),
            _ => {
                self.draft(number)?;
                let answer = match letter {
                    b'K' => self.post(sheet, booked, number, terms),
                    b'W' => self.void(sheet, booked, number),
                    _ => Ok(0),
                };
                self.draft = None;
                answer
            }
        }
    }

    // How many entries were booked on or before a day; booking days do not fall.
    fn booked_by(&self, day: u32) -> u32 {
        let (mut low, mut high) = (0, self.register.len());
        while low < high {
            let middle = low + (high - low) / 2;
            if self.register.entry(middle + 1).is_some_and(|entry| entry.booked <= day) {
                low = middle + 1;
            } else {
                high = middle;
            }
        }
        low
    }

    // The triangles of the entries known on a day, valued at a day: the claim days in force, the movements that were replaced and
    // what each movement counts as are put into tables; then what stands is summed.
    fn query(&self, known: u32, valued: u32, answer: &mut [i64]) {
        let count = self.booked_by(known) as usize;
        let entries = || (1..=count as u32).map_while(|number| self.register.entry(number));
        let mut claim_days: Vec<Option<ClaimDays>> = vec![None; MOST_CLAIMS + 1];
        let mut replaced = vec![false; count];
        let mut kinds = vec![Kind::Paid; count];
        for (index, entry) in entries().enumerate() {
            match entry.content {
                Content::Opening(days) | Content::Redating(days) => claim_days[entry.claim as usize] = Some(days),
                Content::Movement(kind, _) => kinds[index] = kind,
                Content::Correction(names, _) => {
                    kinds[index] = kinds[names as usize - 1];
                    replaced[names as usize - 1] = true;
                }
                Content::Void(names) => replaced[names as usize - 1] = true,
            }
        }
        answer.fill(0);
        for (index, entry) in entries().enumerate() {
            let Some(days) = &claim_days[entry.claim as usize] else {
                continue;
            };
            match entry.content {
                Content::Opening(_) if days.report <= valued => add_count(answer, days, 1),
                Content::Movement(_, terms) | Content::Correction(_, terms)
                    if !replaced[index] && terms.effective <= valued =>
                {
                    add_movement(answer, kinds[index], days, terms.effective, terms.cents);
                }
                _ => {}
            }
        }
    }
}

fn parse(text: &str) -> Vec<Request> {
    let line = |line: &str| {
        let mut words = line.split(',');
        let letter = words.next().unwrap().as_bytes()[0];
        let mut number = || words.next().unwrap().parse::<i64>().unwrap();
        let (booked, claim, named) = (number() as u32, number() as u32, number() as u32);
        let terms = Terms {
            effective: number() as u32,
            cents: number(),
        };
        let claim_days = ClaimDays {
            inception: number() as u32,
            occurrence: number() as u32,
            report: number() as u32,
        };
        Request {
            letter,
            booked,
            claim,
            number: named,
            terms,
            claim_days,
            answer: number(),
        }
    };
    text.lines().map(line).collect()
}

fn show(sheet: &[i64]) {
    for (name, cells) in ["paid", "incurred", "count"].iter().zip(sheet.chunks(BLOCK)) {
        let total: i64 = cells.iter().sum();
        let checksum = cells.iter().fold(0u64, |sum, &cell| {
            sum.wrapping_mul(1_099_511_628_211).wrapping_add(cell as u64)
        });
        println!(
            "    {name:<8}  total {total:>13}  beyond {:>11}  checksum {checksum:016x}",
            cells[BLOCK - 1]
        );
    }
}

fn dated(day: u32) -> String {
    format!("{}-{:02}-{:02}", day / 10_000, day / 100 % 100, day % 100)
}

fn run<R: Register>(register: R, requests: &[Request], bookings: u32, queries: u32) {
    let mut cube = Cube { register, draft: None };
    let mut sheet = vec![0i64; CELLS];
    for _ in 0..bookings {
        cube.register.clear();
        sheet.fill(0);
        for request in black_box(requests) {
            let answer = match cube.serve(&mut sheet, request) {
                Ok(number) => number as i64,
                Err(fault) => -(fault as i64),
            };
            assert_eq!(answer, request.answer);
        }
    }
    let mut answer = vec![0i64; CELLS];
    for _ in 0..queries {
        cube.query(black_box(LAST_DAY), LAST_DAY, &mut answer);
        assert_eq!(answer, sheet);
    }
    println!("  the live sheet at the end");
    show(&sheet);
    for (known, valued) in QUESTIONS {
        println!("  known on {}, valued at {}", dated(known), dated(valued));
        cube.query(known, valued, &mut answer);
        show(&answer);
    }
}

fn main() {
    let arguments: Vec<String> = std::env::args().collect();
    let requests = parse(&std::fs::read_to_string(&arguments[1]).expect("the book"));
    let [bookings, queries] = [3, 4].map(|place| arguments[place].parse().expect("how often"));
    match arguments[2].as_str() {
        "flat" => run(Flat::new(), &requests, bookings, queries),
        "paged" => run(Paged::new(), &requests, bookings, queries),
        other => panic!("no register {other}"),
    }
}
