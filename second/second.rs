// An independent implementation of `winavulor run`, written from the documents
// in docs/ and used to compare answers. It shares no code with the program it
// is compared with.
//
//     rustc --edition 2021 -O -o second second.rs
//     second run SCRIPT...
//
// Each script is performed from a fresh empty draft. If more than one is given,
// a line `== STATUS NAME` stands before the answers of each: 1 if the script has
// a line that is no call, and 0 if not.

use std::collections::HashSet;
use std::io::{self, BufWriter, Write};
use std::process::ExitCode;

const MOST_NAMES: usize = 1_024;
const MOST_AXIOMS: usize = 1_024;
const MOST_BODY_BYTES: usize = 512;
const MOST_BYTES_OF_BODIES: usize = 32_768;
const MOST_LABEL_BYTES: usize = 32;
const MOST_NESTING: usize = 24;
const MOST_STAGES: usize = 16;

// ---------------------------------------------------------------- vocabulary

#[derive(Clone, Copy, PartialEq, Eq, Hash)]
enum NameKind {
    Concept,
    Role,
    Individual,
}

impl NameKind {
    fn from_byte(byte: u8) -> Option<NameKind> {
        match byte {
            0 => Some(NameKind::Concept),
            1 => Some(NameKind::Role),
            2 => Some(NameKind::Individual),
            _ => None,
        }
    }

    fn byte(self) -> u8 {
        match self {
            NameKind::Concept => 0,
            NameKind::Role => 1,
            NameKind::Individual => 2,
        }
    }
}

#[derive(Clone, PartialEq, Eq, Hash)]
struct Name {
    kind: NameKind,
    label: Vec<u8>,
}

/// The number of a name in its book.
type NameNumber = usize;

/// A term. Directions and counts are checked when a body is read; no test
/// depends on them, so they are not kept.
enum Term {
    Nothing,
    Everything,
    Concept(NameNumber),
    Just,
    Not(Box<Term>),
    And(Box<Term>, Box<Term>),
    Some { role: NameNumber, inner: Box<Term> },
    AtLeast { role: NameNumber, inner: Box<Term> },
}

enum Axiom {
    Inclusion(Term, Term),
    Equivalence(Term, Term),
    RoleInclusion { sub: NameNumber, sup: NameNumber },
    Transitive(NameNumber),
    Functional(NameNumber),
    Membership(Term),
    Relation(NameNumber),
}

#[derive(Clone, Copy)]
enum AxiomKind {
    Inclusion,
    Equivalence,
    RoleInclusion,
    Transitive,
    Functional,
    Membership,
    Relation,
}

impl AxiomKind {
    fn from_number(number: u16) -> Option<AxiomKind> {
        match number {
            16 => Some(AxiomKind::Inclusion),
            17 => Some(AxiomKind::Equivalence),
            18 => Some(AxiomKind::RoleInclusion),
            19 => Some(AxiomKind::Transitive),
            20 => Some(AxiomKind::Functional),
            21 => Some(AxiomKind::Membership),
            22 => Some(AxiomKind::Relation),
            _ => None,
        }
    }

    fn number(self) -> u16 {
        match self {
            AxiomKind::Inclusion => 16,
            AxiomKind::Equivalence => 17,
            AxiomKind::RoleInclusion => 18,
            AxiomKind::Transitive => 19,
            AxiomKind::Functional => 20,
            AxiomKind::Membership => 21,
            AxiomKind::Relation => 22,
        }
    }
}

enum RecordKind {
    Name,
    Axiom(AxiomKind),
    Seed,
}

impl RecordKind {
    fn from_number(number: u16) -> Option<RecordKind> {
        match number {
            1 => Some(RecordKind::Name),
            32 => Some(RecordKind::Seed),
            _ => AxiomKind::from_number(number).map(RecordKind::Axiom),
        }
    }
}

const NAME_RECORD: u16 = 1;
const SEED_RECORD: u16 = 32;

// ------------------------------------------------------------------ refusals

#[derive(Debug, PartialEq)]
struct Refusal {
    number: u8,
    place: usize,
}

impl Refusal {
    fn new(number: u8, place: usize) -> Refusal {
        Refusal { number, place }
    }

    fn layer(&self) -> u8 {
        match self.number {
            1..=4 => 1,
            10..=15 => 3,
            _ => 2,
        }
    }

    /// The same refusal, met in a body that begins at `offset` of a file.
    fn moved_by(self, offset: usize) -> Refusal {
        Refusal::new(self.number, self.place + offset)
    }
}

struct LoadRefusal {
    refusal: Refusal,
    records_taken: usize,
}

// ------------------------------------------------------------ reading bodies

fn two_byte_number(low: u8, high: u8) -> u16 {
    u16::from_le_bytes([low, high])
}

/// Reads a body item by item and collects the names in it.
struct BodyReader<'a> {
    body: &'a [u8],
    offset: usize,
    names: &'a [Name],
    names_read: Vec<NameNumber>,
}

impl<'a> BodyReader<'a> {
    fn new(body: &'a [u8], names: &'a [Name]) -> BodyReader<'a> {
        BodyReader {
            body,
            offset: 0,
            names,
            names_read: Vec::new(),
        }
    }

    fn one_byte_item(&mut self) -> Result<u8, Refusal> {
        match self.body.get(self.offset) {
            Some(&byte) => {
                self.offset += 1;
                Ok(byte)
            }
            None => Err(Refusal::new(11, self.offset)),
        }
    }

    fn two_byte_item(&mut self) -> Result<u16, Refusal> {
        match self.body.get(self.offset..self.offset + 2) {
            Some(bytes) => {
                self.offset += 2;
                Ok(two_byte_number(bytes[0], bytes[1]))
            }
            None => Err(Refusal::new(11, self.offset)),
        }
    }

    fn code(&mut self) -> Result<u8, Refusal> {
        let place = self.offset;
        let code = self.one_byte_item()?;
        if code > 7 {
            return Err(Refusal::new(12, place));
        }
        Ok(code)
    }

    fn direction(&mut self) -> Result<(), Refusal> {
        let place = self.offset;
        if self.one_byte_item()? > 1 {
            return Err(Refusal::new(13, place));
        }
        Ok(())
    }

    fn count(&mut self) -> Result<(), Refusal> {
        let place = self.offset;
        if self.two_byte_item()? == 0 {
            return Err(Refusal::new(15, place));
        }
        Ok(())
    }

    /// A name number; `wanted` is `None` where names of all kinds are accepted.
    fn name_number(&mut self, wanted: Option<NameKind>) -> Result<NameNumber, Refusal> {
        let place = self.offset;
        let number = NameNumber::from(self.two_byte_item()?);
        match self.names.get(number) {
            Some(name) if wanted.is_none() || wanted == Some(name.kind) => {
                self.names_read.push(number);
                Ok(number)
            }
            _ => Err(Refusal::new(14, place)),
        }
    }

    fn concept(&mut self) -> Result<NameNumber, Refusal> {
        self.name_number(Some(NameKind::Concept))
    }

    fn role(&mut self) -> Result<NameNumber, Refusal> {
        self.name_number(Some(NameKind::Role))
    }

    fn individual(&mut self) -> Result<NameNumber, Refusal> {
        self.name_number(Some(NameKind::Individual))
    }

    fn role_item(&mut self) -> Result<NameNumber, Refusal> {
        self.direction()?;
        self.role()
    }

    /// A term that stands inside `around` other terms.
    fn term(&mut self, around: usize) -> Result<Term, Refusal> {
        if around == MOST_NESTING {
            return Err(Refusal::new(10, self.offset));
        }
        let term = match self.code()? {
            0 => Term::Nothing,
            1 => Term::Everything,
            2 => Term::Concept(self.concept()?),
            3 => {
                self.individual()?;
                Term::Just
            }
            4 => Term::Not(self.inner_term(around)?),
            5 => {
                let first = self.inner_term(around)?;
                let second = self.inner_term(around)?;
                Term::And(first, second)
            }
            6 => {
                let role = self.role_item()?;
                Term::Some {
                    role,
                    inner: self.inner_term(around)?,
                }
            }
            _ => {
                self.count()?;
                let role = self.role_item()?;
                Term::AtLeast {
                    role,
                    inner: self.inner_term(around)?,
                }
            }
        };
        Ok(term)
    }

    fn inner_term(&mut self, around: usize) -> Result<Box<Term>, Refusal> {
        Ok(Box::new(self.term(around + 1)?))
    }

    fn two_terms(&mut self) -> Result<(Term, Term), Refusal> {
        let first = self.term(0)?;
        let second = self.term(0)?;
        Ok((first, second))
    }

    fn axiom(&mut self, kind: AxiomKind) -> Result<Axiom, Refusal> {
        let axiom = match kind {
            AxiomKind::Inclusion => {
                let (sub, sup) = self.two_terms()?;
                Axiom::Inclusion(sub, sup)
            }
            AxiomKind::Equivalence => {
                let (left, right) = self.two_terms()?;
                Axiom::Equivalence(left, right)
            }
            AxiomKind::RoleInclusion => {
                let sub = self.role_item()?;
                let sup = self.role_item()?;
                Axiom::RoleInclusion { sub, sup }
            }
            AxiomKind::Transitive => Axiom::Transitive(self.role()?),
            AxiomKind::Functional => Axiom::Functional(self.role_item()?),
            AxiomKind::Membership => {
                self.individual()?;
                Axiom::Membership(self.term(0)?)
            }
            AxiomKind::Relation => {
                let role = self.role()?;
                self.individual()?;
                self.individual()?;
                Axiom::Relation(role)
            }
        };
        Ok(axiom)
    }

    fn end(&self) -> Result<(), Refusal> {
        if self.offset < self.body.len() {
            return Err(Refusal::new(16, self.offset));
        }
        Ok(())
    }
}

// ---------------------------------------------------------------- the book

struct FiledAxiom {
    kind: AxiomKind,
    body: Vec<u8>,
    axiom: Axiom,
    names: Vec<NameNumber>,
    in_force: bool,
}

#[derive(Clone, Copy, PartialEq)]
enum Phase {
    Draft,
    Frozen,
}

struct Book {
    names: Vec<Name>,
    names_held: HashSet<Name>,
    axioms: Vec<FiledAxiom>,
    bytes_of_bodies: usize,
    /// For each name, whether it is seeded.
    signature: Vec<bool>,
    phase: Phase,
}

impl Book {
    fn empty_draft() -> Book {
        Book {
            names: Vec::new(),
            names_held: HashSet::new(),
            axioms: Vec::new(),
            bytes_of_bodies: 0,
            signature: Vec::new(),
            phase: Phase::Draft,
        }
    }

    fn name(&mut self, kind_byte: u8, label: &[u8]) -> Result<NameNumber, Refusal> {
        let kind = NameKind::from_byte(kind_byte).ok_or(Refusal::new(5, 0))?;
        if label.is_empty() || label.len() > MOST_LABEL_BYTES {
            return Err(Refusal::new(6, 0));
        }
        if label.iter().any(|byte| !(33..=126).contains(byte)) {
            return Err(Refusal::new(7, 0));
        }
        let name = Name {
            kind,
            label: label.to_vec(),
        };
        if self.names_held.contains(&name) {
            return Err(Refusal::new(8, 0));
        }
        if self.names.len() == MOST_NAMES {
            return Err(Refusal::new(9, 0));
        }
        self.names_held.insert(name.clone());
        self.names.push(name);
        self.signature.push(false);
        Ok(self.names.len() - 1)
    }

    fn file(&mut self, kind: u16, body: &[u8]) -> Result<usize, Refusal> {
        let kind = AxiomKind::from_number(kind).ok_or(Refusal::new(3, 0))?;
        if body.len() > MOST_BODY_BYTES {
            return Err(Refusal::new(4, 0));
        }
        self.file_body(kind, body)
    }

    /// Filing from the items on.
    fn file_body(&mut self, kind: AxiomKind, body: &[u8]) -> Result<usize, Refusal> {
        let mut reader = BodyReader::new(body, &self.names);
        let axiom = reader.axiom(kind)?;
        reader.end()?;
        let names = reader.names_read;
        if self.axioms.len() == MOST_AXIOMS {
            return Err(Refusal::new(17, 0));
        }
        if self.bytes_of_bodies + body.len() > MOST_BYTES_OF_BODIES {
            return Err(Refusal::new(18, 0));
        }
        self.bytes_of_bodies += body.len();
        self.axioms.push(FiledAxiom {
            kind,
            body: body.to_vec(),
            axiom,
            names,
            in_force: true,
        });
        Ok(self.axioms.len() - 1)
    }

    fn set_force(&mut self, axiom: u16, in_force: bool) -> Result<(), Refusal> {
        let filed = self
            .axioms
            .get_mut(usize::from(axiom))
            .ok_or(Refusal::new(19, 0))?;
        filed.in_force = in_force;
        Ok(())
    }

    fn set_seeded(&mut self, name: u16, seeded: bool) -> Result<(), Refusal> {
        let place = self
            .signature
            .get_mut(usize::from(name))
            .ok_or(Refusal::new(14, 0))?;
        *place = seeded;
        Ok(())
    }

    /// Loads a file; the answer is the count of records taken.
    fn load(&mut self, file: &[u8]) -> Result<usize, LoadRefusal> {
        if !self.names.is_empty() || !self.axioms.is_empty() {
            return Err(LoadRefusal {
                refusal: Refusal::new(1, 0),
                records_taken: 0,
            });
        }
        let mut records_taken = 0;
        let mut offset = 0;
        while offset < file.len() {
            match self.load_record(file, offset) {
                Ok(next) => offset = next,
                Err(refusal) => {
                    return Err(LoadRefusal {
                        refusal,
                        records_taken,
                    })
                }
            }
            records_taken += 1;
        }
        Ok(records_taken)
    }

    /// Takes the record at `offset`; the answer is the offset behind it.
    fn load_record(&mut self, file: &[u8], offset: usize) -> Result<usize, Refusal> {
        let begin = offset + 4;
        let head = file.get(offset..begin).ok_or(Refusal::new(2, offset))?;
        let end = begin + usize::from(two_byte_number(head[0], head[1]));
        let body = file.get(begin..end).ok_or(Refusal::new(2, offset))?;
        let kind = two_byte_number(head[2], head[3]);
        let kind = RecordKind::from_number(kind).ok_or(Refusal::new(3, offset))?;
        if body.len() > MOST_BODY_BYTES {
            return Err(Refusal::new(4, offset));
        }
        self.perform_record(kind, body)
            .map_err(|refusal| refusal.moved_by(begin))?;
        Ok(end)
    }

    fn perform_record(&mut self, kind: RecordKind, body: &[u8]) -> Result<(), Refusal> {
        match kind {
            RecordKind::Name => {
                let (&kind_byte, label) = body.split_first().ok_or(Refusal::new(5, 0))?;
                self.name(kind_byte, label)?;
            }
            RecordKind::Axiom(kind) => {
                self.file_body(kind, body)?;
            }
            RecordKind::Seed => {
                let mut reader = BodyReader::new(body, &self.names);
                let name = reader.name_number(None)?;
                reader.end()?;
                self.signature[name] = true;
            }
        }
        Ok(())
    }
}

// ------------------------------------------------------------------ locality

#[derive(Clone, Copy, PartialEq)]
enum LocalityTest {
    Bottom,
    Top,
}

#[derive(Clone, Copy, PartialEq)]
enum Extent {
    Empty,
    Full,
    Neither,
}

/// A list of names, as a flag for each name number.
type List = [bool];

impl LocalityTest {
    /// What the default gives to an outside concept or role.
    fn extent_of_outside(self) -> Extent {
        match self {
            LocalityTest::Bottom => Extent::Empty,
            LocalityTest::Top => Extent::Full,
        }
    }

    fn extent_of_name(self, name: NameNumber, list: &List) -> Extent {
        if list[name] {
            Extent::Neither
        } else {
            self.extent_of_outside()
        }
    }

    fn extent(self, term: &Term, list: &List) -> Extent {
        match term {
            Term::Nothing => Extent::Empty,
            Term::Everything => Extent::Full,
            Term::Concept(concept) => self.extent_of_name(*concept, list),
            Term::Just => Extent::Neither,
            Term::Not(inner) => match self.extent(inner, list) {
                Extent::Empty => Extent::Full,
                Extent::Full => Extent::Empty,
                Extent::Neither => Extent::Neither,
            },
            Term::And(first, second) => {
                match (self.extent(first, list), self.extent(second, list)) {
                    (Extent::Empty, _) | (_, Extent::Empty) => Extent::Empty,
                    (Extent::Full, Extent::Full) => Extent::Full,
                    _ => Extent::Neither,
                }
            }
            Term::Some { role, inner } => {
                match (self.extent_of_name(*role, list), self.extent(inner, list)) {
                    (Extent::Empty, _) | (_, Extent::Empty) => Extent::Empty,
                    (Extent::Full, Extent::Full) => Extent::Full,
                    _ => Extent::Neither,
                }
            }
            Term::AtLeast { role, inner } => {
                match (self.extent_of_name(*role, list), self.extent(inner, list)) {
                    (Extent::Empty, _) | (_, Extent::Empty) => Extent::Empty,
                    _ => Extent::Neither,
                }
            }
        }
    }

    fn is_local(self, axiom: &Axiom, list: &List) -> bool {
        match axiom {
            Axiom::Inclusion(sub, sup) => {
                self.extent(sub, list) == Extent::Empty || self.extent(sup, list) == Extent::Full
            }
            Axiom::Equivalence(left, right) => {
                let left = self.extent(left, list);
                left != Extent::Neither && left == self.extent(right, list)
            }
            Axiom::RoleInclusion { sub, sup } => match self {
                LocalityTest::Bottom => !list[*sub],
                LocalityTest::Top => !list[*sup],
            },
            Axiom::Transitive(role) => !list[*role],
            Axiom::Functional(role) => self == LocalityTest::Bottom && !list[*role],
            Axiom::Membership(term) => self.extent(term, list) == Extent::Full,
            Axiom::Relation(role) => self == LocalityTest::Top && !list[*role],
        }
    }
}

// ---------------------------------------------------------------- extraction

/// What an extractor answers.
struct Extraction {
    /// For each filed axiom, whether it is kept.
    kept: Vec<bool>,
    /// For each name, whether it is in the closed signature.
    closed: Vec<bool>,
    rounds: u32,
}

/// A pile: the tests of its stages, from the uppermost down to the whole
/// extractor.
type Pile = Vec<LocalityTest>;

fn extract(book: &Book, stages: &[LocalityTest]) -> Extraction {
    match stages.split_first() {
        None => extract_whole(book),
        Some((test, below)) => extract_by_stage(book, *test, extract(book, below)),
    }
}

fn extract_whole(book: &Book) -> Extraction {
    let kept: Vec<bool> = book.axioms.iter().map(|filed| filed.in_force).collect();
    let mut closed = book.signature.clone();
    for (number, filed) in book.axioms.iter().enumerate() {
        if kept[number] {
            list_names(filed, &mut closed);
        }
    }
    Extraction {
        kept,
        closed,
        rounds: 0,
    }
}

fn extract_by_stage(book: &Book, test: LocalityTest, below: Extraction) -> Extraction {
    let handed_up = below.kept;
    let mut kept = vec![false; handed_up.len()];
    let mut list = book.signature.clone();
    let mut rounds = below.rounds;
    loop {
        rounds = rounds.saturating_add(1);
        let found: Vec<usize> = (0..handed_up.len())
            .filter(|&number| handed_up[number] && !kept[number])
            .filter(|&number| !test.is_local(&book.axioms[number].axiom, &list))
            .collect();
        for &number in &found {
            kept[number] = true;
            list_names(&book.axioms[number], &mut list);
        }
        if found.is_empty() {
            return Extraction {
                kept,
                closed: list,
                rounds,
            };
        }
    }
}

fn list_names(filed: &FiledAxiom, list: &mut List) {
    for &name in &filed.names {
        list[name] = true;
    }
}

// ------------------------------------------------------- marking and writing

struct Marking {
    marked: usize,
    closed: usize,
    drawn_in: usize,
    rounds: u32,
}

/// Extracts for marking and writing, or refuses.
fn extract_for_buffers(
    book: &Book,
    pile: &[LocalityTest],
    axiom_buffer: &[u8],
    name_buffer: &[u8],
) -> Result<Extraction, Refusal> {
    if count_set(&book.signature) == 0 {
        return Err(Refusal::new(20, 0));
    }
    if axiom_buffer.len() < book.axioms.len() || name_buffer.len() < book.names.len() {
        return Err(Refusal::new(21, 0));
    }
    Ok(extract(book, pile))
}

fn mark(
    book: &Book,
    pile: &[LocalityTest],
    axiom_buffer: &mut [u8],
    name_buffer: &mut [u8],
) -> Result<Marking, Refusal> {
    let extraction = extract_for_buffers(book, pile, axiom_buffer, name_buffer)?;
    put_flags(&extraction.kept, axiom_buffer);
    put_flags(&extraction.closed, name_buffer);
    let closed = count_set(&extraction.closed);
    Ok(Marking {
        marked: count_set(&extraction.kept),
        closed,
        drawn_in: closed - count_set(&book.signature),
        rounds: extraction.rounds,
    })
}

fn write(
    book: &Book,
    pile: &[LocalityTest],
    axiom_buffer: &mut [u8],
    name_buffer: &mut [u8],
    part_buffer: &mut [u8],
) -> Result<usize, Refusal> {
    let extraction = extract_for_buffers(book, pile, axiom_buffer, name_buffer)?;
    let part = part(book, &extraction.kept);
    if part_buffer.len() < part.len() {
        return Err(Refusal::new(21, 0));
    }
    put_flags(&extraction.kept, axiom_buffer);
    put_flags(&extraction.closed, name_buffer);
    part_buffer[..part.len()].copy_from_slice(&part);
    Ok(part.len())
}

fn part(book: &Book, kept: &[bool]) -> Vec<u8> {
    let mut part = Vec::new();
    for name in &book.names {
        let mut body = vec![name.kind.byte()];
        body.extend_from_slice(&name.label);
        put_record(&mut part, NAME_RECORD, &body);
    }
    for number in 0..book.names.len() {
        if book.signature[number] {
            put_record(&mut part, SEED_RECORD, &(number as u16).to_le_bytes());
        }
    }
    for (number, filed) in book.axioms.iter().enumerate() {
        if kept[number] {
            put_record(&mut part, filed.kind.number(), &filed.body);
        }
    }
    part
}

fn put_record(part: &mut Vec<u8>, kind: u16, body: &[u8]) {
    part.extend_from_slice(&(body.len() as u16).to_le_bytes());
    part.extend_from_slice(&kind.to_le_bytes());
    part.extend_from_slice(body);
}

fn put_flags(flags: &[bool], buffer: &mut [u8]) {
    for (byte, &flag) in buffer.iter_mut().zip(flags) {
        *byte = u8::from(flag);
    }
}

fn count_set(flags: &[bool]) -> usize {
    flags.iter().filter(|&&flag| flag).count()
}

// --------------------------------------------------------------------- calls

enum Call {
    Name {
        kind: u8,
        label: Vec<u8>,
    },
    File {
        kind: u16,
        body: Vec<u8>,
    },
    Load {
        file: Vec<u8>,
    },
    Aside {
        axiom: u16,
    },
    Restore {
        axiom: u16,
    },
    Seed {
        name: u16,
    },
    Unseed {
        name: u16,
    },
    Freeze,
    Reopen,
    Mark {
        pile: Pile,
        axiom_bytes: u16,
        name_bytes: u16,
    },
    Write {
        pile: Pile,
        axiom_bytes: u16,
        name_bytes: u16,
        part_bytes: u16,
    },
}

impl Call {
    /// The phase in which the call is allowed.
    fn wants(&self) -> Phase {
        match self {
            Call::Reopen | Call::Mark { .. } | Call::Write { .. } => Phase::Frozen,
            _ => Phase::Draft,
        }
    }
}

/// Performs a call and gives the line to be printed.
fn perform(book: &mut Book, call: &Call) -> String {
    if book.phase != call.wants() {
        return "not-allowed".to_string();
    }
    match call {
        Call::Name { kind, label } => numbered_answer(book.name(*kind, label)),
        Call::File { kind, body } => numbered_answer(book.file(*kind, body)),
        Call::Load { file } => match book.load(file) {
            Ok(records) => format!("ok {records}"),
            Err(LoadRefusal {
                refusal,
                records_taken,
            }) => {
                format!("{} {records_taken}", refused(&refusal))
            }
        },
        Call::Aside { axiom } => plain_answer(book.set_force(*axiom, false)),
        Call::Restore { axiom } => plain_answer(book.set_force(*axiom, true)),
        Call::Seed { name } => plain_answer(book.set_seeded(*name, true)),
        Call::Unseed { name } => plain_answer(book.set_seeded(*name, false)),
        Call::Freeze => {
            book.phase = Phase::Frozen;
            "ok".to_string()
        }
        Call::Reopen => {
            book.phase = Phase::Draft;
            "ok".to_string()
        }
        Call::Mark {
            pile,
            axiom_bytes,
            name_bytes,
        } => perform_mark(book, pile, *axiom_bytes, *name_bytes),
        Call::Write {
            pile,
            axiom_bytes,
            name_bytes,
            part_bytes,
        } => perform_write(book, pile, *axiom_bytes, *name_bytes, *part_bytes),
    }
}

fn perform_mark(book: &Book, pile: &[LocalityTest], axiom_bytes: u16, name_bytes: u16) -> String {
    let mut axioms = new_buffer(axiom_bytes);
    let mut names = new_buffer(name_bytes);
    match mark(book, pile, &mut axioms, &mut names) {
        Ok(marking) => format!(
            "ok {} {} {} {} {} {}",
            marking.marked,
            marking.closed,
            marking.drawn_in,
            marking.rounds,
            hexadecimal(&axioms),
            hexadecimal(&names)
        ),
        Err(refusal) => refused(&refusal),
    }
}

fn perform_write(
    book: &Book,
    pile: &[LocalityTest],
    axiom_bytes: u16,
    name_bytes: u16,
    part_bytes: u16,
) -> String {
    let mut axioms = new_buffer(axiom_bytes);
    let mut names = new_buffer(name_bytes);
    let mut part = new_buffer(part_bytes);
    match write(book, pile, &mut axioms, &mut names, &mut part) {
        Ok(bytes) => format!(
            "ok {bytes} {} {} {}",
            hexadecimal(&axioms),
            hexadecimal(&names),
            hexadecimal(&part)
        ),
        Err(refusal) => refused(&refusal),
    }
}

fn new_buffer(length: u16) -> Vec<u8> {
    vec![255; usize::from(length)]
}

fn numbered_answer(outcome: Result<usize, Refusal>) -> String {
    match outcome {
        Ok(number) => format!("ok {number}"),
        Err(refusal) => refused(&refusal),
    }
}

fn plain_answer(outcome: Result<(), Refusal>) -> String {
    match outcome {
        Ok(()) => "ok".to_string(),
        Err(refusal) => refused(&refusal),
    }
}

fn refused(refusal: &Refusal) -> String {
    format!(
        "refused {} {} {}",
        refusal.number,
        refusal.layer(),
        refusal.place
    )
}

fn hexadecimal(bytes: &[u8]) -> String {
    const DIGITS: &[u8; 16] = b"0123456789abcdef";
    if bytes.is_empty() {
        return "-".to_string();
    }
    let mut text = String::with_capacity(2 * bytes.len());
    for byte in bytes {
        text.push(char::from(DIGITS[usize::from(byte >> 4)]));
        text.push(char::from(DIGITS[usize::from(byte & 15)]));
    }
    text
}

// ------------------------------------------------------------------- scripts

fn is_skipped(line: &[u8]) -> bool {
    line.first() == Some(&b'#') || line.iter().all(|&byte| byte == b' ')
}

/// The call on a line, or `None` if the line is no call.
fn parse_call(line: &[u8]) -> Option<Call> {
    let words: Vec<&[u8]> = line
        .split(|&byte| byte == b' ')
        .filter(|word| !word.is_empty())
        .collect();
    let call = match words[..] {
        [b"name", kind, label] => Call::Name {
            kind: u8::try_from(decimal(kind)?).ok()?,
            label: bytes(label)?,
        },
        [b"file", kind, body] => Call::File {
            kind: decimal(kind)?,
            body: bytes(body)?,
        },
        [b"load", file] => Call::Load { file: bytes(file)? },
        [b"aside", axiom] => Call::Aside {
            axiom: decimal(axiom)?,
        },
        [b"restore", axiom] => Call::Restore {
            axiom: decimal(axiom)?,
        },
        [b"seed", name] => Call::Seed {
            name: decimal(name)?,
        },
        [b"unseed", name] => Call::Unseed {
            name: decimal(name)?,
        },
        [b"freeze"] => Call::Freeze,
        [b"reopen"] => Call::Reopen,
        [b"mark", pile_word, axioms, names] => Call::Mark {
            pile: pile(pile_word)?,
            axiom_bytes: decimal(axioms)?,
            name_bytes: decimal(names)?,
        },
        [b"write", pile_word, axioms, names, part] => Call::Write {
            pile: pile(pile_word)?,
            axiom_bytes: decimal(axioms)?,
            name_bytes: decimal(names)?,
            part_bytes: decimal(part)?,
        },
        _ => return None,
    };
    Some(call)
}

/// `whole`, or 1 to 16 tests joined by `/`.
fn pile(word: &[u8]) -> Option<Pile> {
    if word == b"whole" {
        return Some(Vec::new());
    }
    let tests = word.split(|&byte| byte == b'/').map(locality_test);
    let pile = tests.collect::<Option<Pile>>()?;
    (pile.len() <= MOST_STAGES).then_some(pile)
}

fn locality_test(word: &[u8]) -> Option<LocalityTest> {
    match word {
        b"bottom" => Some(LocalityTest::Bottom),
        b"top" => Some(LocalityTest::Top),
        _ => None,
    }
}

/// A number from 0 to 65,535 in decimal digits; zeros in front do not matter.
fn decimal(word: &[u8]) -> Option<u16> {
    let mut number: u16 = 0;
    for &digit in word {
        if !digit.is_ascii_digit() {
            return None;
        }
        number = number
            .checked_mul(10)?
            .checked_add(u16::from(digit - b'0'))?;
    }
    Some(number)
}

fn bytes(word: &[u8]) -> Option<Vec<u8>> {
    if word == b"-" {
        return Some(Vec::new());
    }
    if word.len() % 2 != 0 {
        return None;
    }
    word.chunks(2)
        .map(|pair| Some(16 * digit(pair[0])? + digit(pair[1])?))
        .collect()
}

fn digit(character: u8) -> Option<u8> {
    match character {
        b'0'..=b'9' => Some(character - b'0'),
        b'a'..=b'f' => Some(character - b'a' + 10),
        b'A'..=b'F' => Some(character - b'A' + 10),
        _ => None,
    }
}

/// The number of a line that is no call.
struct NoCall(usize);

/// Performs a script from an empty draft and prints its answers.
fn run(script: &[u8], output: &mut impl Write) -> io::Result<Result<(), NoCall>> {
    let mut book = Book::empty_draft();
    for (index, line) in script.split(|&byte| byte == b'\n').enumerate() {
        if is_skipped(line) {
            continue;
        }
        match parse_call(line) {
            Some(call) => writeln!(output, "{}", perform(&mut book, &call))?,
            None => return Ok(Err(NoCall(index + 1))),
        }
    }
    Ok(Ok(()))
}

/// Runs all scripts; the answer is whether all their lines were calls.
fn run_all(scripts: &[String]) -> io::Result<bool> {
    let mut output = BufWriter::with_capacity(1 << 16, io::stdout().lock());
    let mut all_calls = true;
    for script in scripts {
        let text = std::fs::read(script)
            .map_err(|error| io::Error::new(error.kind(), format!("{script}: {error}")))?;
        let mut answers = Vec::new();
        let ended = run(&text, &mut answers)?;
        if scripts.len() > 1 {
            writeln!(output, "== {} {script}", u8::from(ended.is_err()))?;
        }
        output.write_all(&answers)?;
        if let Err(NoCall(line)) = ended {
            output.flush()?;
            eprintln!("second: {script}: line {line} is no call");
            all_calls = false;
        }
    }
    output.flush()?;
    Ok(all_calls)
}

fn main() -> ExitCode {
    let arguments: Vec<String> = std::env::args().skip(1).collect();
    match arguments.split_first() {
        Some((command, scripts)) if command == "run" && !scripts.is_empty() => {
            match run_all(scripts) {
                Ok(true) => ExitCode::SUCCESS,
                Ok(false) => ExitCode::from(1),
                Err(error) => {
                    eprintln!("second: {error}");
                    ExitCode::from(2)
                }
            }
        }
        _ => {
            eprintln!("usage: second run SCRIPT...");
            ExitCode::from(2)
        }
    }
}

// --------------------------------------------------------------------- tests

#[cfg(test)]
mod tests {
    use super::*;

    /// Answers to a script, and the line that is no call.
    fn answers(script: &str) -> (Vec<String>, Option<usize>) {
        let mut output = Vec::new();
        let end = run(script.as_bytes(), &mut output).unwrap();
        let lines = String::from_utf8(output)
            .unwrap()
            .lines()
            .map(str::to_string)
            .collect();
        (lines, end.err().map(|NoCall(line)| line))
    }

    /// Each call with the answer expected.
    fn check(calls: &[(&str, &str)]) {
        let script: Vec<&str> = calls.iter().map(|(call, _)| *call).collect();
        let (lines, no_call) = answers(&script.join("\n"));
        assert_eq!(no_call, None);
        for (line, (call, expected)) in lines.iter().zip(calls) {
            assert_eq!(line, expected, "{call}");
        }
        assert_eq!(lines.len(), calls.len());
    }

    /// Performs a call after the calls of `before`.
    fn last_answer(before: &str, call: &str) -> String {
        answers(&format!("{before}\n{call}")).0.pop().unwrap()
    }

    #[test]
    fn first_example_of_scripts() {
        check(&[
            ("name 0 52656c6179", "ok 0"),
            ("name 0 44697374616e6365", "ok 1"),
            ("name 1 686173", "ok 2"),
            ("name 0 52656c6179", "refused 8 2 0"),
            ("file 16 020100020000", "ok 0"),
            ("file 16 020100020200", "refused 14 3 4"),
            ("seed 0", "ok"),
            ("aside 0", "ok"),
            ("freeze", "ok"),
            ("seed 1", "not-allowed"),
            ("reopen", "ok"),
            ("restore 0", "ok"),
            ("restore 1", "refused 19 2 0"),
            ("load -", "refused 1 1 0 0"),
        ]);
    }

    #[test]
    fn second_example_of_scripts() {
        check(&[
            ("name 0 50", "ok 0"),
            ("name 0 51", "ok 1"),
            ("name 1 72", "ok 2"),
            ("file 16 020100020000", "ok 0"),
            ("file 16 0200000600020001", "ok 1"),
            ("mark bottom 2 3", "not-allowed"),
            ("freeze", "ok"),
            ("mark whole 0 0", "refused 20 2 0"),
            ("reopen", "ok"),
            ("seed 0", "ok"),
            ("freeze", "ok"),
            ("mark bottom 2 3", "ok 1 2 1 2 0001 010001"),
            ("mark whole 3 5", "ok 2 3 2 0 0101ff 010101ffff"),
            ("mark bottom/top 2 3", "ok 0 1 0 3 0000 010000"),
            ("mark top 1 3", "refused 21 2 0"),
            (
                "write bottom 2 3 38",
                "ok 36 0001 010001 020001000050020001000051020001000172\
                 020020000000080010000200000600020001ffff",
            ),
            ("write bottom 2 3 35", "refused 21 2 0"),
        ]);
    }

    #[test]
    fn examples_of_naming_and_filing() {
        let names = "name 0 41\nname 1 72\nname 2 61";
        let not = |count: usize| "04".repeat(count);
        for (call, expected) in [
            ("name 3 -".to_string(), "refused 5 2 0"),
            (format!("name 0 {}", "20".repeat(33)), "refused 6 2 0"),
            (format!("file 99 {}", "00".repeat(600)), "refused 3 1 0"),
            (format!("file 16 {}", "08".repeat(513)), "refused 4 1 0"),
            ("file 16 02090008".to_string(), "refused 14 3 1"),
            ("file 16 08020900".to_string(), "refused 12 3 0"),
            ("file 16 0700000201000101".to_string(), "refused 15 3 1"),
            ("file 16 0209".to_string(), "refused 11 3 1"),
            (format!("file 16 {}", not(24)), "refused 10 3 24"),
            (format!("file 16 {}ff", not(24)), "refused 10 3 24"),
            (format!("file 16 {}", not(23)), "refused 11 3 23"),
            (format!("file 16 {}0602010001", not(23)), "refused 13 3 24"),
            (format!("file 16 {}06000100", not(23)), "refused 10 3 27"),
            (format!("file 16 {}0001", not(23)), "ok 0"),
            ("file 19 000000".to_string(), "refused 14 3 0"),
            ("file 16 000108".to_string(), "refused 16 2 2"),
        ] {
            assert_eq!(last_answer(names, &call), expected, "{call}");
        }
    }

    #[test]
    fn examples_of_loading() {
        let bytes = |count: usize| "00".repeat(count);
        for (file, expected) in [
            ("-".to_string(), "ok 0"),
            ("050001".to_string(), "refused 2 1 0 0"),
            ("0200630000".to_string(), "refused 2 1 0 0"),
            ("5802100000000000".to_string(), "refused 2 1 0 0"),
            (format!("58026300{}", bytes(600)), "refused 3 1 0 0"),
            (format!("0102010003{}", bytes(512)), "refused 4 1 0 0"),
            ("00000100".to_string(), "refused 5 2 4 0"),
            ("0100010000".to_string(), "refused 6 2 4 0"),
            ("00002000".to_string(), "refused 11 3 4 0"),
            ("03002000000000".to_string(), "refused 14 3 4 0"),
            ("010010000800006300".to_string(), "refused 12 3 4 0"),
            ("020001000041020001000041".to_string(), "refused 8 2 10 1"),
            (
                "02000100004103002000000000".to_string(),
                "refused 16 2 12 1",
            ),
        ] {
            assert_eq!(last_answer("", &format!("load {file}")), expected, "{file}");
        }
        let in_use = last_answer("file 16 0001", "load 050001");
        assert_eq!(in_use, "refused 1 1 0 0");
    }

    const FORMAT_FILE: &str = "060001000052656c61790400010001686173030001000251310800100006000100\
                               01020000030014000101000b0015000200070200000100020000020020000000";

    #[test]
    fn file_of_format() {
        let file = FORMAT_FILE;
        assert_eq!(last_answer("", &format!("load {file}")), "ok 7");
        let unknown = format!("{}01{}", &file[..98], &file[100..]);
        assert_eq!(
            last_answer("", &format!("load {unknown}")),
            "refused 14 3 48 5"
        );
        assert_eq!(
            last_answer("", &format!("load {}", &file[..124])),
            "refused 2 1 59 6"
        );
    }

    const RELAYS: &str = "name 0 52656c6179\nname 0 44697374616e6365\nname 0 496e707574\n\
        name 0 426179\nname 1 686173\nname 1 696e\nname 2 5131\n\
        file 16 020100020000\nfile 16 020100070200000400020200\n\
        file 16 02000006000500020300\nfile 16 02030004020000\nfile 16 0600040001020000\n\
        file 21 0600020100\nfile 19 0500\n";

    #[test]
    fn examples_of_extraction() {
        for (pile, seed, aside, expected) in [
            (
                "bottom",
                3,
                "aside 5",
                "ok 0 1 0 1 00000000000000 00000001000000",
            ),
            (
                "bottom",
                0,
                "aside 5",
                "ok 3 3 2 3 00000101000001 01000001000100",
            ),
            ("bottom", 0, "", "ok 7 7 6 4 01010101010101 01010101010101"),
            (
                "top",
                1,
                "aside 5",
                "ok 6 6 5 4 01010101010001 01010101010100",
            ),
            (
                "bottom",
                4,
                "aside 3\naside 5",
                "ok 3 4 3 4 00000100010001 01000001010100",
            ),
            (
                "top/bottom",
                4,
                "aside 3\naside 5",
                "ok 0 1 0 5 00000000000000 00000000010000",
            ),
            (
                "whole",
                4,
                "aside 3\naside 5",
                "ok 5 6 5 0 01010100010001 01010101010100",
            ),
        ] {
            let before = format!("{RELAYS}seed {seed}\n{aside}\nfreeze");
            assert_eq!(
                last_answer(&before, &format!("mark {pile} 7 7")),
                expected,
                "{pile}"
            );
        }
    }

    #[test]
    fn piles_with_a_test_more_than_once() {
        let before = format!("{RELAYS}seed 4\naside 3\naside 5\nfreeze");
        for (pile, expected) in [
            (
                "bottom/bottom".to_string(),
                "ok 3 4 3 8 00000100010001 01000001010100",
            ),
            (
                "top/top".to_string(),
                "ok 1 3 2 4 00010000000000 00010100010000",
            ),
            (
                ["bottom"; 16].join("/"),
                "ok 3 4 3 64 00000100010001 01000001010100",
            ),
        ] {
            let answer = last_answer(&before, &format!("mark {pile} 7 7"));
            assert_eq!(answer, expected, "{pile}");
        }
    }

    #[test]
    fn example_of_writing() {
        let before = format!("{RELAYS}seed 4\naside 3\naside 5\nfreeze");
        let part = "060001000052656c6179\
                    090001000044697374616e6365\
                    0600010000496e707574\
                    0400010000426179\
                    0400010001686173\
                    0300010001696e\
                    03000100025131\
                    020020000400\
                    0a00100002000006000500020300\
                    080010000600040001020000\
                    020013000500";
        let marks = "00000100010001 01000001010100";
        assert_eq!(
            last_answer(&before, "write bottom 7 7 101"),
            format!("ok 101 {marks} {part}")
        );
        assert_eq!(
            last_answer(&before, "write bottom 7 7 100"),
            "refused 21 2 0"
        );
        assert_eq!(last_answer("", &format!("load {part}")), "ok 11");
    }

    #[test]
    fn lines_that_are_no_call() {
        for line in [
            "Freeze",
            "freeze 1",
            "name 0",
            "name 256 41",
            "name 0 4",
            "name 0 4g",
            "name +1 41",
            "aside 65536",
            "aside -1",
            "aside",
            "mark Bottom 1 1",
            "mark bot 1 1",
            "mark bottom/Top 1 1",
            "mark bottom/whole 1 1",
            "mark whole/bottom 1 1",
            "mark whole/whole 1 1",
            "mark / 1 1",
            "mark /top 1 1",
            "mark bottom/ 1 1",
            "mark whole/ 1 1",
            "mark bottom//top 1 1",
            "mark bottom/ top 1 1",
            "mark bottom\\top 1 1",
            &format!("mark {} 1 1", ["top"; 17].join("/")),
            &format!("mark {}/ 1 1", ["bottom"; 16].join("/")),
            "write top/ 1 1 1",
            "mark top 1",
            "write top 1 1",
            "seed 1\t",
            "freeze\r",
            "\t",
            " # no comment",
            "load --",
        ] {
            let (lines, no_call) = answers(&format!("# first\n\n  freeze \n{line}\nreopen\n"));
            assert_eq!(no_call, Some(4), "{line:?}");
            assert_eq!(lines, ["ok"], "{line:?}");
        }
    }

    #[test]
    fn ways_to_write_a_call() {
        check(&[
            ("  name   000000000000000000000000 4a  ", "ok 0"),
            ("name 0 4A", "refused 8 2 0"),
            ("seed 065535", "refused 14 3 0"),
        ]);
        assert_eq!(answers("#only this\n   \n\n").0.len(), 0);
    }
}
