// Writes scripts of calls, to be run by two implementations whose answers are
// then compared. Written from docs/; no code is shared with either.
//
//     rustc --edition 2021 -O -o generate generate.rs
//     generate SEED COUNT DIR
//     generate --book random|chain SIZE FILE
//
// The first writes COUNT scripts of 100 calls each, one a line, into DIR:
// 00001.script, 00002.script and so on. In some of them one line is no call,
// for its pile. A script depends on SEED and its own number alone. The second writes a script with one call, the loading of a book
// of SIZE axioms, which is always the same.
//
// A small model follows which names, axioms and seeds the book has, so that
// most bodies are good and buffer lengths can be hit exactly. It knows neither
// refusals nor locality.

use std::collections::HashSet;
use std::fmt::Write as _;
use std::fs;
use std::path::Path;
use std::process::ExitCode;

const CALLS: usize = 100;
const MOST_NAMES: usize = 1_024;
const MOST_AXIOMS: usize = 1_024;
const MOST_BODY_BYTES: usize = 512;
const MOST_BYTES_OF_BODIES: usize = 32_768;
const MOST_NESTING: usize = 24;

const CONCEPT: u8 = 0;
const ROLE: u8 = 1;
const INDIVIDUAL: u8 = 2;

const NAME_RECORD: u16 = 1;
const SEED_RECORD: u16 = 32;

const MOST_STAGES: usize = 16;

const SHORT_PILES: [&str; 5] = ["whole", "bottom", "top", "top/bottom", "bottom/top"];

// ------------------------------------------------------------ random numbers

/// The generator splitmix64.
struct Random(u64);

impl Random {
    fn for_script(seed: u64, number: u64) -> Random {
        let mut random = Random(seed);
        let mixed = random.next();
        Random(mixed ^ number.wrapping_mul(0xd6e8_feb8_6659_fd93))
    }

    fn next(&mut self) -> u64 {
        self.0 = self.0.wrapping_add(0x9e37_79b9_7f4a_7c15);
        let mut z = self.0;
        z = (z ^ (z >> 30)).wrapping_mul(0xbf58_476d_1ce4_e5b9);
        z = (z ^ (z >> 27)).wrapping_mul(0x94d0_49bb_1331_11eb);
        z ^ (z >> 31)
    }

    /// A number below `bound`, which is 1 or more.
    fn below(&mut self, bound: usize) -> usize {
        (self.next() % bound as u64) as usize
    }

    /// A number from `least` to `most`.
    fn between(&mut self, least: usize, most: usize) -> usize {
        least + self.below(most - least + 1)
    }

    fn byte(&mut self) -> u8 {
        self.next() as u8
    }

    fn percent(&mut self, chance: usize) -> bool {
        self.below(100) < chance
    }

    fn pick<T: Copy>(&mut self, choices: &[T]) -> T {
        choices[self.below(choices.len())]
    }

    /// One of the choices, each with its weight.
    fn weighted<T: Copy>(&mut self, choices: &[(usize, T)]) -> T {
        let total = choices.iter().map(|(weight, _)| weight).sum();
        let mut left = self.below(total);
        for &(weight, choice) in choices {
            if left < weight {
                return choice;
            }
            left -= weight;
        }
        unreachable!()
    }
}

// --------------------------------------------------------------------- piles

fn tests(random: &mut Random, count: usize) -> Vec<&'static str> {
    (0..count)
        .map(|_| random.pick(&["bottom", "top"]))
        .collect()
}

/// A pile with a stage or more.
fn staged_pile(random: &mut Random) -> String {
    let stages = match random.below(20) {
        0..=6 => 1,
        7..=12 => 2,
        13..=15 => 3,
        16..=18 => random.between(4, MOST_STAGES - 1),
        _ => MOST_STAGES,
    };
    tests(random, stages).join("/")
}

fn any_pile(random: &mut Random) -> String {
    if random.percent(18) {
        "whole".to_string()
    } else {
        staged_pile(random)
    }
}

/// A word that is no pile.
fn wrong_pile(random: &mut Random) -> String {
    match random.below(5) {
        0 => {
            let stages = random.pick(&[17, 17, 17, 18, 32, 33, 255, 256, 257, 1_000]);
            tests(random, stages).join("/")
        }
        1 => {
            let stages = random.between(0, MOST_STAGES);
            let mut tests = tests(random, stages);
            tests.insert(random.below(stages + 1), "");
            if stages == 0 {
                tests.push("");
            }
            tests.join("/")
        }
        2 => {
            let stages = random.between(1, MOST_STAGES - 1);
            let mut tests = tests(random, stages);
            tests.insert(random.below(stages + 1), "whole");
            tests.join("/")
        }
        3 => {
            let wrong = random.pick(&[
                "Bottom",
                "TOP",
                "bot",
                "tops",
                "middle",
                "0",
                "-",
                ".",
                "top,bottom",
                "bottom\\top",
            ]);
            let stages = random.below(4);
            let mut tests = tests(random, stages);
            tests.insert(random.below(stages + 1), wrong);
            tests.join("/")
        }
        _ => random
            .pick(&[
                "Whole",
                "wholes",
                "whol",
                "whole/",
                "/whole",
                "whole/whole",
                "all",
                "none",
            ])
            .to_string(),
    }
}

// --------------------------------------------------------------------- model

#[derive(Clone)]
struct AxiomEntry {
    length: usize,
    in_force: bool,
}

/// What the generator knows of a book.
#[derive(Clone, Default)]
struct Model {
    names: Vec<(u8, Vec<u8>)>,
    names_held: HashSet<(u8, Vec<u8>)>,
    by_kind: [Vec<u16>; 3],
    seeded: Vec<bool>,
    axioms: Vec<AxiomEntry>,
    bytes_of_bodies: usize,
    frozen: bool,
}

impl Model {
    fn is_empty(&self) -> bool {
        self.names.is_empty() && self.axioms.is_empty()
    }

    fn name(&mut self, kind: u8, label: &[u8]) -> bool {
        let good = kind <= INDIVIDUAL
            && (1..=32).contains(&label.len())
            && label.iter().all(|byte| (33..=126).contains(byte))
            && self.names.len() < MOST_NAMES
            && self.names_held.insert((kind, label.to_vec()));
        if good {
            self.by_kind[usize::from(kind)].push(self.names.len() as u16);
            self.names.push((kind, label.to_vec()));
            self.seeded.push(false);
        }
        good
    }

    fn file(&mut self, kind: u16, body: &[u8]) -> bool {
        let good = body.len() <= MOST_BODY_BYTES
            && self.axioms.len() < MOST_AXIOMS
            && self.bytes_of_bodies + body.len() <= MOST_BYTES_OF_BODIES
            && self.rest_of_axiom(kind, body) == Some(&[]);
        if good {
            self.axioms.push(AxiomEntry {
                length: body.len(),
                in_force: true,
            });
            self.bytes_of_bodies += body.len();
        }
        good
    }

    fn seed(&mut self, number: usize, seeded: bool) -> bool {
        let known = number < self.seeded.len();
        if known {
            self.seeded[number] = seeded;
        }
        known
    }

    fn load(&mut self, file: &[u8]) {
        if !self.is_empty() {
            return;
        }
        let mut rest = file;
        while rest.len() >= 4 {
            let length = usize::from(u16::from_le_bytes([rest[0], rest[1]]));
            let kind = u16::from_le_bytes([rest[2], rest[3]]);
            if rest.len() < 4 + length || !self.take_record(kind, &rest[4..4 + length]) {
                return;
            }
            rest = &rest[4 + length..];
        }
    }

    fn take_record(&mut self, kind: u16, body: &[u8]) -> bool {
        match (kind, body) {
            (NAME_RECORD, [kind_byte, label @ ..]) => self.name(*kind_byte, label),
            (SEED_RECORD, [low, high]) => {
                self.seed(usize::from(u16::from_le_bytes([*low, *high])), true)
            }
            _ => self.file(kind, body),
        }
    }

    // The bytes behind a part of a body, or `None` if the part is at fault.

    fn rest_of_number<'a>(&self, kind: u8, bytes: &'a [u8]) -> Option<&'a [u8]> {
        let (number, rest) = (bytes.get(..2)?, &bytes[2..]);
        let number = usize::from(u16::from_le_bytes([number[0], number[1]]));
        (self.names.get(number)?.0 == kind).then_some(rest)
    }

    fn rest_of_role_item<'a>(&self, bytes: &'a [u8]) -> Option<&'a [u8]> {
        let (&direction, rest) = bytes.split_first()?;
        if direction > 1 {
            return None;
        }
        self.rest_of_number(ROLE, rest)
    }

    fn rest_of_term<'a>(&self, nesting_left: usize, bytes: &'a [u8]) -> Option<&'a [u8]> {
        let left = nesting_left.checked_sub(1)?;
        let (&code, rest) = bytes.split_first()?;
        match code {
            0 | 1 => Some(rest),
            2 => self.rest_of_number(CONCEPT, rest),
            3 => self.rest_of_number(INDIVIDUAL, rest),
            4 => self.rest_of_term(left, rest),
            5 => self.rest_of_term(left, self.rest_of_term(left, rest)?),
            6 => self.rest_of_term(left, self.rest_of_role_item(rest)?),
            7 if rest.get(..2)? != [0, 0] => {
                self.rest_of_term(left, self.rest_of_role_item(&rest[2..])?)
            }
            _ => None,
        }
    }

    fn rest_of_axiom<'a>(&self, kind: u16, body: &'a [u8]) -> Option<&'a [u8]> {
        match kind {
            16 | 17 => self.rest_of_term(MOST_NESTING, self.rest_of_term(MOST_NESTING, body)?),
            18 => self.rest_of_role_item(self.rest_of_role_item(body)?),
            19 => self.rest_of_number(ROLE, body),
            20 => self.rest_of_role_item(body),
            21 => self.rest_of_term(MOST_NESTING, self.rest_of_number(INDIVIDUAL, body)?),
            22 => {
                let individuals = self.rest_of_number(ROLE, body)?;
                self.rest_of_number(INDIVIDUAL, self.rest_of_number(INDIVIDUAL, individuals)?)
            }
            _ => None,
        }
    }

    /// The length of a part without axioms.
    fn part_base(&self) -> usize {
        let names: usize = self.names.iter().map(|(_, label)| 5 + label.len()).sum();
        names + 6 * self.seeded.iter().filter(|&&seeded| seeded).count()
    }

    /// The lengths of the records of all axioms in force.
    fn records_in_force(&self) -> Vec<usize> {
        self.axioms
            .iter()
            .filter(|axiom| axiom.in_force)
            .map(|axiom| 4 + axiom.length)
            .collect()
    }
}

// -------------------------------------------------------------------- labels

fn good_label(random: &mut Random) -> Vec<u8> {
    let style: u8 = random.weighted(&[(60, 0), (12, 1), (10, 2), (6, 3), (12, 4)]);
    match style {
        0 => {
            let mut label = vec![b'A' + random.below(26) as u8];
            label.extend(random.below(30).to_string().bytes());
            label
        }
        1 => vec![random.pick(b"!~AZaz09#-/@")],
        2 => (0..32).map(|_| label_byte(random)).collect(),
        3 => (0..random.pick(&[1, 2, 31, 32]))
            .map(|_| random.pick(b"!~"))
            .collect(),
        _ => (0..random.between(1, 12))
            .map(|_| label_byte(random))
            .collect(),
    }
}

fn label_byte(random: &mut Random) -> u8 {
    random.between(33, 126) as u8
}

/// Kind byte and label of a naming that is mostly refused.
fn faulty_name(random: &mut Random, model: &Model) -> (u8, Vec<u8>) {
    let mut kind = random.below(3) as u8;
    let mut label = good_label(random);
    let style: u8 = random.weighted(&[(20, 0), (22, 1), (24, 2), (26, 3), (8, 4)]);
    match style {
        0 => kind = odd_kind_byte(random),
        1 => label = label_of_odd_length(random),
        2 => put_odd_byte(random, &mut label),
        3 => {
            if !model.names.is_empty() {
                let held = &model.names[random.below(model.names.len())];
                label = held.1.clone();
                if random.percent(65) {
                    kind = held.0;
                }
            }
        }
        _ => {
            // several faults at once
            label = label_of_odd_length(random);
            put_odd_byte(random, &mut label);
            if random.percent(50) {
                kind = odd_kind_byte(random);
            }
        }
    }
    (kind, label)
}

fn odd_kind_byte(random: &mut Random) -> u8 {
    if random.percent(80) {
        random.pick(&[3, 3, 3, 4, 16, 127, 128, 254, 255])
    } else {
        random.between(3, 255) as u8
    }
}

fn label_of_odd_length(random: &mut Random) -> Vec<u8> {
    let length = random.pick(&[0, 0, 0, 33, 33, 33, 34, 64, 65, 255, 32]);
    (0..length).map(|_| label_byte(random)).collect()
}

fn put_odd_byte(random: &mut Random, label: &mut [u8]) {
    if !label.is_empty() {
        let position = match random.below(3) {
            0 => 0,
            1 => label.len() - 1,
            _ => random.below(label.len()),
        };
        label[position] =
            random.pick(&[32, 32, 32, 127, 127, 127, 33, 126, 0, 10, 31, 128, 160, 255]);
    }
}

// -------------------------------------------------------------------- bodies

#[derive(Clone, Copy, PartialEq)]
enum Item {
    Code,
    Count,
    Direction,
    Number(u8),
}

/// A body with the offsets of its items.
#[derive(Clone, Default)]
struct Body {
    bytes: Vec<u8>,
    items: Vec<(usize, Item)>,
}

impl Body {
    fn of_bytes(bytes: Vec<u8>) -> Body {
        Body {
            bytes,
            items: Vec::new(),
        }
    }

    fn put(&mut self, item: Item, bytes: &[u8]) {
        self.items.push((self.bytes.len(), item));
        self.bytes.extend_from_slice(bytes);
    }

    fn code(&mut self, code: u8) {
        self.put(Item::Code, &[code]);
    }

    fn number(&mut self, kind: u8, number: u16) {
        self.put(Item::Number(kind), &number.to_le_bytes());
    }
}

#[derive(Clone, Copy, PartialEq)]
enum NestEnd {
    /// A good term.
    Leaf,
    /// The body ends where the innermost term is due.
    Cut,
    /// A byte that is no code.
    Wild,
}

/// Which axioms a script likes.
#[derive(Clone, Copy)]
struct Taste {
    /// Weights of the kinds 16 to 22.
    kinds: [usize; 7],
    /// Weights of leaf, not, and, some, at least.
    codes: [usize; 5],
    nesting: usize,
}

impl Taste {
    fn random(random: &mut Random) -> Taste {
        // Memberships and relations are rarely local, so most books have few.
        let (membership, relation) =
            random.pick(&[(0, 0), (0, 0), (2, 0), (0, 2), (2, 2), (12, 8)]);
        let kinds = match random.below(4) {
            0 => [70, 10, 6, 3, 3, membership, relation],
            1 => [50, 15, 10, 8, 6, membership, relation],
            2 => [85, 5, 4, 2, 1, membership, relation],
            _ => [20, 20, 15, 10, 10, membership, relation],
        };
        let codes = random.pick(&[
            [60, 8, 8, 18, 6],
            [40, 15, 15, 18, 12],
            [80, 3, 3, 12, 2],
            [30, 14, 20, 22, 14],
        ]);
        Taste {
            kinds,
            codes,
            nesting: random.between(2, 5),
        }
    }
}

/// Writes bodies over the names of a model.
struct BodyWriter<'a> {
    random: &'a mut Random,
    by_kind: &'a [Vec<u16>; 3],
    taste: Taste,
    body: Body,
}

impl<'a> BodyWriter<'a> {
    fn new(random: &'a mut Random, model: &'a Model, taste: Taste) -> BodyWriter<'a> {
        BodyWriter {
            random,
            by_kind: &model.by_kind,
            taste,
            body: Body::default(),
        }
    }

    fn has(&self, kind: u8) -> bool {
        !self.by_kind[usize::from(kind)].is_empty()
    }

    fn number_of(&mut self, kind: u8) {
        let number = self.random.pick(&self.by_kind[usize::from(kind)]);
        self.body.number(kind, number);
    }

    fn role_item(&mut self) {
        let direction = self.random.pick(&[0, 0, 1]);
        self.body.put(Item::Direction, &[direction]);
        self.number_of(ROLE);
    }

    fn count(&mut self) {
        let small = self.random.between(1, 4) as u16;
        let count = self.random.weighted(&[
            (80, small),
            (6, 65_535),
            (4, 256),
            (4, 255),
            (3, 65_280),
            (3, 32_768),
        ]);
        self.body.put(Item::Count, &count.to_le_bytes());
    }

    fn leaf(&mut self) {
        let code = self.random.weighted(&[(74, 2), (10, 1), (8, 0), (8, 3)]);
        match code {
            2 if self.has(CONCEPT) => {
                self.body.code(2);
                self.number_of(CONCEPT);
            }
            3 if self.has(INDIVIDUAL) => {
                self.body.code(3);
                self.number_of(INDIVIDUAL);
            }
            0 => self.body.code(0),
            _ => self.body.code(1),
        }
    }

    /// A code from 4 to 7 that the names allow.
    fn wrapping_code(&mut self) -> u8 {
        if self.has(ROLE) {
            self.random.between(4, 7) as u8
        } else {
            self.random.between(4, 5) as u8
        }
    }

    /// The code and what stands between it and its first inner term.
    fn open(&mut self, code: u8) {
        self.body.code(code);
        if code == 7 {
            self.count();
        }
        if code >= 6 {
            self.role_item();
        }
    }

    fn term(&mut self, nesting: usize) {
        let [leaf, not, and, some, at_least] = self.taste.codes;
        let mut code: u8 =
            self.random
                .weighted(&[(leaf, 2), (not, 4), (and, 5), (some, 6), (at_least, 7)]);
        if nesting <= 1 || (code >= 6 && !self.has(ROLE)) {
            code = 2;
        }
        if code == 2 {
            return self.leaf();
        }
        self.open(code);
        self.term(nesting - 1);
        if code == 5 {
            self.term(nesting - 1);
        }
    }

    /// A term of the nesting given, with the end given innermost. Whether the
    /// body may go on behind it is answered.
    fn nest(&mut self, nesting: usize, end: NestEnd) -> bool {
        let plain = self.random.percent(30);
        let mut behind = 0;
        for _ in 1..nesting {
            let code = if plain { 4 } else { self.wrapping_code() };
            self.open(code);
            if code == 5 {
                if self.random.percent(50) {
                    self.leaf();
                } else {
                    behind += 1;
                }
            }
        }
        match end {
            NestEnd::Cut => return false,
            NestEnd::Wild => {
                let wild = self.random.pick(&[8, 9, 128, 255]);
                self.body.code(wild);
            }
            NestEnd::Leaf => self.leaf(),
        }
        for _ in 0..behind {
            self.leaf();
        }
        true
    }

    /// A term of exactly this many bytes.
    fn term_of_length(&mut self, length: usize) {
        let role = self.has(ROLE);
        match length {
            1 => {
                let code = self.random.below(2) as u8;
                self.body.code(code);
            }
            3 if self.has(CONCEPT) && self.random.percent(90) => {
                self.body.code(2);
                self.number_of(CONCEPT);
            }
            2 => {
                self.open(4);
                self.term_of_length(1);
            }
            _ if length >= 7 && length < 40 && role && self.random.percent(12) => {
                self.open(7);
                self.term_of_length(length - 6);
            }
            _ if length >= 5 && length < 40 && role && self.random.percent(20) => {
                self.open(6);
                self.term_of_length(length - 4);
            }
            _ => {
                self.open(5);
                let inner = length - 1;
                let first = (inner / 2)
                    .saturating_sub(self.random.below(inner / 4 + 1))
                    .max(1);
                self.term_of_length(first);
                self.term_of_length(inner - first);
            }
        }
    }

    fn is_possible(&self, kind: u16) -> bool {
        match kind {
            18 | 19 | 20 => self.has(ROLE),
            21 => self.has(INDIVIDUAL),
            22 => self.has(ROLE) && self.has(INDIVIDUAL),
            _ => true,
        }
    }

    fn random_kind(&mut self) -> u16 {
        let kinds: Vec<(usize, u16)> = (16..=22)
            .zip(self.taste.kinds)
            .map(|(kind, weight)| (weight, kind))
            .collect();
        let kind = self.random.weighted(&kinds);
        if self.is_possible(kind) {
            kind
        } else {
            16
        }
    }

    fn axiom(mut self, kind: u16) -> Body {
        let nesting = self.taste.nesting;
        match kind {
            18 => {
                self.role_item();
                self.role_item();
            }
            19 => self.number_of(ROLE),
            20 => self.role_item(),
            21 => {
                self.number_of(INDIVIDUAL);
                self.term(nesting);
            }
            22 => {
                self.number_of(ROLE);
                self.number_of(INDIVIDUAL);
                self.number_of(INDIVIDUAL);
            }
            _ => {
                self.term(nesting);
                self.term(nesting);
            }
        }
        self.body
    }

    /// An axiom with a deep term, as its first or its second one.
    fn deep_axiom(mut self, nesting: usize, end: NestEnd) -> (u16, Body) {
        let kind = if self.has(INDIVIDUAL) {
            self.random.pick(&[16, 17, 21])
        } else {
            self.random.pick(&[16, 17])
        };
        if kind == 21 {
            self.number_of(INDIVIDUAL);
            self.nest(nesting, end);
        } else if self.random.percent(50) {
            self.leaf();
            self.nest(nesting, end);
        } else if self.nest(nesting, end) {
            self.leaf();
        }
        (kind, self.body)
    }

    /// An inclusion or equivalence of exactly this many bytes, 2 or more.
    fn axiom_of_length(mut self, length: usize) -> (u16, Body) {
        let first = match length {
            2..=5 => 1,
            6 => 3,
            _ => self.random.between(1, length - 1),
        };
        self.term_of_length(first);
        self.term_of_length(length - first);
        (self.random.pick(&[16, 16, 17]), self.body)
    }
}

fn good_axiom(random: &mut Random, model: &Model, taste: Taste) -> (u16, Body) {
    let mut writer = BodyWriter::new(random, model, taste);
    let kind = writer.random_kind();
    (kind, writer.axiom(kind))
}

/// The number of a name that does not exist or is of another kind.
fn odd_number(random: &mut Random, model: &Model, kind: u8) -> u16 {
    let names = model.names.len();
    let others: Vec<u16> = (0..3u8)
        .filter(|&other| other != kind)
        .flat_map(|other| model.by_kind[usize::from(other)].iter().copied())
        .collect();
    if !others.is_empty() && random.percent(45) {
        return random.pick(&others);
    }
    let known = random.below(names.max(1));
    random.pick(&[
        names,
        names,
        names + 1,
        65_535,
        65_534,
        256,
        32_768,
        known + 256,
        known << 8,
        1_024,
    ]) as u16
}

/// Puts a fault of its sort into one item of the body.
fn break_item(random: &mut Random, model: &Model, body: &mut Body) {
    let sorts: [(usize, fn(&Item) -> bool); 4] = [
        (20, |item| matches!(item, Item::Code)),
        (36, |item| matches!(item, Item::Count)),
        (21, |item| matches!(item, Item::Direction)),
        (23, |item| matches!(item, Item::Number(_))),
    ];
    let sort = random.weighted(&sorts);
    let mut places: Vec<(usize, Item)> = body
        .items
        .iter()
        .copied()
        .filter(|(_, item)| sort(item))
        .collect();
    if places.is_empty() {
        places = body.items.clone();
    }
    if places.is_empty() {
        return;
    }
    let (offset, item) = random.pick(&places);
    match item {
        Item::Code => body.bytes[offset] = random.pick(&[8, 8, 9, 16, 128, 255]),
        Item::Direction => body.bytes[offset] = random.pick(&[2, 2, 3, 128, 255]),
        Item::Count => body.bytes[offset..offset + 2].fill(0),
        Item::Number(kind) => {
            let number = odd_number(random, model, kind);
            body.bytes[offset..offset + 2].copy_from_slice(&number.to_le_bytes());
        }
    }
}

/// Ends the body where an item begins or in the middle of one.
fn cut(random: &mut Random, body: &mut Body) {
    let length = if body.items.is_empty() || random.percent(20) {
        random.below(body.bytes.len() + 1)
    } else {
        let (offset, item) = random.pick(&body.items);
        let long = matches!(item, Item::Count | Item::Number(_));
        offset + usize::from(long && random.percent(60))
    };
    body.bytes.truncate(length);
}

fn add_bytes(random: &mut Random, bytes: &mut Vec<u8>) {
    for _ in 0..random.pick(&[1, 1, 1, 2, 3, 5]) {
        let byte = if random.percent(50) {
            random.below(9) as u8
        } else {
            random.byte()
        };
        bytes.push(byte);
    }
}

fn change_byte(random: &mut Random, bytes: &mut [u8]) {
    if !bytes.is_empty() {
        let position = random.below(bytes.len());
        bytes[position] = match random.below(4) {
            0 => random.byte(),
            1 => bytes[position].wrapping_add(1),
            2 => bytes[position].wrapping_sub(1),
            _ => bytes[position] ^ (1 << random.below(8)),
        };
    }
}

/// Spoils a good body in one way or several.
fn spoil(random: &mut Random, model: &Model, body: &mut Body) {
    let item_faults = if body.items.is_empty() { 0 } else { 46 };
    let way: u8 = random.weighted(&[(item_faults, 0), (18, 1), (14, 2), (8, 3), (10, 4), (4, 5)]);
    match way {
        0 => break_item(random, model, body),
        1 => cut(random, body),
        2 => add_bytes(random, &mut body.bytes),
        3 => change_byte(random, &mut body.bytes),
        4 => {
            break_item(random, model, body);
            if random.percent(50) {
                break_item(random, model, body);
            } else {
                add_bytes(random, &mut body.bytes);
            }
        }
        _ => {
            let length = random.below(12);
            body.bytes = (0..length).map(|_| random.below(9) as u8).collect();
        }
    }
}

fn unknown_kind(random: &mut Random) -> u16 {
    random.pick(&[
        0, 2, 3, 15, 23, 24, 31, 33, 99, 255, 256, 257, 272, 4_096, 8_192, 65_535,
    ])
}

/// Nesting and end for a deep term: below, at and above the limit.
fn random_depth(random: &mut Random) -> (usize, NestEnd) {
    let nesting = random.pick(&[22, 23, 23, 24, 24, 24, 24, 25, 25, 25, 25, 26, 30]);
    let end = random.weighted(&[(50, NestEnd::Leaf), (30, NestEnd::Cut), (20, NestEnd::Wild)]);
    (nesting, end)
}

fn deep_body(random: &mut Random, model: &Model, taste: Taste) -> (u16, Body) {
    let (nesting, end) = random_depth(random);
    let (kind, mut body) = BodyWriter::new(random, model, taste).deep_axiom(nesting, end);
    if random.percent(15) {
        break_item(random, model, &mut body);
    } else if random.percent(10) {
        // the fault in the last item but one, so near the term that is too deep
        body.bytes
            .truncate(body.bytes.len().saturating_sub(random.between(1, 3)));
    }
    (kind, body)
}

/// Kind and body of a filing that is mostly refused.
fn faulty_axiom(random: &mut Random, model: &Model, taste: Taste) -> (u16, Body) {
    let way: u8 = random.weighted(&[(56, 0), (20, 1), (7, 2), (7, 3), (4, 4), (4, 5), (2, 6)]);
    match way {
        0 => {
            let (kind, mut body) = rich_axiom(random, model, taste);
            spoil(random, model, &mut body);
            (kind, body)
        }
        1 => deep_body(random, model, taste),
        2 => {
            let (kind, body) = good_axiom(random, model, taste);
            (
                if random.percent(85) {
                    unknown_kind(random)
                } else {
                    kind
                },
                body,
            )
        }
        3 => {
            let (_, body) = good_axiom(random, model, taste);
            (random.between(16, 22) as u16, body)
        }
        4 => long_axiom(random, model, taste),
        5 => (random.between(15, 23) as u16, Body::default()),
        _ => {
            let (_, mut body) = long_axiom(random, model, taste);
            if random.percent(50) {
                change_byte(random, &mut body.bytes);
            }
            (unknown_kind(random), body)
        }
    }
}

/// A body of about the greatest length or above it.
fn long_axiom(random: &mut Random, model: &Model, taste: Taste) -> (u16, Body) {
    let length = random.pick(&[510, 511, 512, 512, 512, 513, 513, 513, 514, 600]);
    BodyWriter::new(random, model, taste).axiom_of_length(length)
}

/// A good axiom with many sorts of items, whatever the taste is.
fn rich_axiom(random: &mut Random, model: &Model, taste: Taste) -> (u16, Body) {
    let rich = Taste {
        kinds: [40, 20, 12, 6, 8, 8, 6],
        codes: [30, 10, 15, 20, 25],
        nesting: 4,
    };
    let taste = if random.percent(70) { rich } else { taste };
    good_axiom(random, model, taste)
}

// --------------------------------------------------------------------- files

#[derive(Clone)]
struct Record {
    /// The length that the head tells, if it is not that of the body.
    told_length: Option<u16>,
    kind: u16,
    body: Body,
}

impl Record {
    fn new(kind: u16, body: Body) -> Record {
        Record {
            told_length: None,
            kind,
            body,
        }
    }

    fn name(kind: u8, label: &[u8]) -> Record {
        let mut bytes = vec![kind];
        bytes.extend_from_slice(label);
        Record::new(NAME_RECORD, Body::of_bytes(bytes))
    }

    fn seed(number: u16) -> Record {
        let mut body = Body::default();
        body.number(3, number);
        Record::new(SEED_RECORD, body)
    }

    fn put(&self, file: &mut Vec<u8>) {
        let length = self.told_length.unwrap_or(self.body.bytes.len() as u16);
        file.extend_from_slice(&length.to_le_bytes());
        file.extend_from_slice(&self.kind.to_le_bytes());
        file.extend_from_slice(&self.body.bytes);
    }
}

fn bytes_of(records: &[Record]) -> Vec<u8> {
    let mut file = Vec::new();
    for record in records {
        record.put(&mut file);
    }
    file
}

/// The records of a small good file, with the model of its book.
fn small_file(random: &mut Random, taste: Taste) -> (Vec<Record>, Model) {
    let mut model = Model::default();
    let mut records = Vec::new();
    let names = random.between(5, 20);
    let axioms = random.between(5, 30);
    let seeds = random.below(4);
    let mixed = random.percent(35);
    for _ in 0..names {
        add_name(random, &mut model, &mut records);
        if mixed && random.percent(40) {
            add_axiom(random, &mut model, &mut records, taste);
        }
        if mixed && random.percent(8) {
            add_seed(random, &mut model, &mut records);
        }
    }
    let seeds_first = random.percent(50);
    if seeds_first {
        (0..seeds).for_each(|_| add_seed(random, &mut model, &mut records));
    }
    while model.axioms.len() < axioms {
        add_axiom(random, &mut model, &mut records, taste);
    }
    if !seeds_first {
        (0..seeds).for_each(|_| add_seed(random, &mut model, &mut records));
    }
    (records, model)
}

fn random_name_kind(random: &mut Random) -> u8 {
    random.weighted(&[(60, CONCEPT), (28, ROLE), (12, INDIVIDUAL)])
}

fn add_name(random: &mut Random, model: &mut Model, records: &mut Vec<Record>) {
    let kind = random_name_kind(random);
    let label = good_label(random);
    if model.name(kind, &label) {
        records.push(Record::name(kind, &label));
    }
}

fn add_axiom(random: &mut Random, model: &mut Model, records: &mut Vec<Record>, taste: Taste) {
    let (kind, body) = good_axiom(random, model, taste);
    if model.file(kind, &body.bytes) {
        records.push(Record::new(kind, body));
    }
}

fn add_seed(random: &mut Random, model: &mut Model, records: &mut Vec<Record>) {
    if !model.names.is_empty() {
        let number = random.below(model.names.len());
        model.seed(number, true);
        records.push(Record::seed(number as u16));
    }
}

/// The model of the book that the records ahead of `index` make.
fn model_ahead(records: &[Record], index: usize) -> Model {
    let mut model = Model::default();
    model.load(&bytes_of(&records[..index]));
    model
}

/// Puts a fault into the record at `index`, or a faulty one in front of it.
fn damage_record(random: &mut Random, records: &mut Vec<Record>, index: usize, taste: Taste) {
    let ahead = model_ahead(records, index);
    let way: u8 = random.weighted(&[
        (5, 0),
        (6, 1),
        (8, 2),
        (5, 3),
        (14, 4),
        (26, 5),
        (6, 6),
        (18, 7),
        (8, 8),
        (4, 9),
        (16, 10),
    ]);
    match way {
        0 => records[index].kind = unknown_kind(random),
        1 => records[index].kind = random.pick(&[1, 16, 17, 18, 19, 20, 21, 22, 32]),
        2 => tell_other_length(random, &mut records[index]),
        3 => records.insert(index, long_record(random, &ahead, taste)),
        4 => spoil(random, &ahead, &mut records[index].body),
        5 => {
            let (kind, body) = faulty_axiom(random, &ahead, taste);
            records.insert(index, Record::new(kind, body));
        }
        6 => {
            let (kind, body) = deep_body(random, &ahead, taste);
            records.insert(index, Record::new(kind, body));
        }
        7 => records.insert(index, faulty_name_record(random, &ahead)),
        8 => records.insert(index, faulty_seed(random, &ahead)),
        10 => {
            let (kind, mut body) = rich_axiom(random, &ahead, taste);
            break_item(random, &ahead, &mut body);
            records.insert(index, Record::new(kind, body));
        }
        _ => {
            // a record further back comes first
            let from = random.between(index, records.len() - 1);
            let record = records.remove(from);
            records.insert(index, record);
        }
    }
}

fn tell_other_length(random: &mut Random, record: &mut Record) {
    let length = record.body.bytes.len();
    let told = random.pick(&[
        length + 1,
        length + 1,
        length.saturating_sub(1),
        length + 4,
        length + 7,
        0,
        1,
        512,
        513,
        600,
        65_535,
        length + 256,
    ]);
    record.told_length = Some(told as u16);
}

fn long_record(random: &mut Random, ahead: &Model, taste: Taste) -> Record {
    let kind = random.pick(&[1, 1, 16, 17, 19, 22, 32, 32, 2, 99]);
    let (_, mut body) = long_axiom(random, ahead, taste);
    if random.percent(40) {
        body.bytes[0] = random.pick(&[0, 1, 2, 3]);
    }
    Record::new(kind, body)
}

fn faulty_name_record(random: &mut Random, ahead: &Model) -> Record {
    if random.percent(15) {
        return Record::new(NAME_RECORD, Body::default());
    }
    if !ahead.names.is_empty() && random.percent(25) {
        let (kind, label) = &ahead.names[random.below(ahead.names.len())];
        return Record::name(*kind, label);
    }
    let (kind, label) = faulty_name(random, ahead);
    Record::name(kind, &label)
}

fn faulty_seed(random: &mut Random, ahead: &Model) -> Record {
    let known = random.below(ahead.names.len().max(1)) as u16;
    let unknown = odd_number(random, ahead, 3);
    let number = random.pick(&[known, known, unknown]);
    let mut record = Record::seed(number);
    match random.below(4) {
        0 => record.body.bytes.truncate(random.below(2)),
        1 | 2 => add_bytes(random, &mut record.body.bytes),
        _ => record = Record::seed(unknown),
    }
    record
}

/// Damages the bytes of a file, without regard to its records.
fn damage_bytes(random: &mut Random, file: &mut Vec<u8>) {
    match random.below(6) {
        0 | 1 => file.truncate(random.below(file.len() + 1)),
        2 => change_byte(random, file),
        3 => {
            let count = random.between(1, 9);
            file.extend((0..count).map(|_| random.pick(&[0, 0, 1, 2, 16, 19, 32, 255])));
        }
        4 => {
            if !file.is_empty() {
                file.remove(random.below(file.len()));
            }
        }
        _ => file.insert(random.below(file.len() + 1), random.byte()),
    }
}

fn damaged_file(random: &mut Random, taste: Taste) -> Vec<u8> {
    let (mut records, _) = small_file(random, taste);
    let style: u8 = random.weighted(&[(60, 0), (25, 1), (15, 2)]);
    if style != 1 {
        let index = match random.below(3) {
            0 => records.len() - 1,
            1 => random.between(records.len() / 2, records.len() - 1),
            _ => random.below(records.len()),
        };
        damage_record(random, &mut records, index, taste);
    }
    let mut file = bytes_of(&records);
    if style != 0 {
        damage_bytes(random, &mut file);
    }
    file
}

/// A short file that is mostly refused at its first record.
fn file_faulty_at_once(random: &mut Random, taste: Taste) -> Vec<u8> {
    let mut model = Model::default();
    let mut records = Vec::new();
    match random.below(4) {
        0 => add_name(random, &mut model, &mut records),
        1 => add_axiom(random, &mut model, &mut records, taste),
        2 => {
            let number = odd_number(random, &model, 3);
            records.push(Record::seed(number));
        }
        _ => records.push(Record::name(3, &good_label(random))),
    }
    damage_record(random, &mut records, 0, taste);
    let mut file = bytes_of(&records);
    if random.percent(25) {
        file.truncate(random.below(8).min(file.len()));
    }
    file
}

// ---------------------------------------------------------------- full books

#[derive(Clone, Copy)]
enum Fullness {
    Names,
    Axioms,
    BytesOfBodies,
    AxiomsAndBytes,
    Chain,
    LongestPart,
}

/// A number at a limit or a few to either side of it.
fn about(random: &mut Random, limit: usize) -> usize {
    let less = limit - random.between(1, 12);
    random.pick(&[
        limit,
        limit,
        limit,
        limit - 1,
        limit - 2,
        less,
        limit + 1,
        limit + 1,
        limit + 2,
    ])
}

fn full_file(random: &mut Random, fullness: Fullness, taste: Taste) -> Vec<u8> {
    let mut full = FullFile {
        records: Vec::new(),
        model: Model::default(),
        taste,
    };
    match fullness {
        Fullness::Names => {
            let names = about(random, MOST_NAMES);
            full.add_numbered_names(random, names, 3);
            full.add_seeds(random, 3);
            full.add_short_axioms(random, 25);
        }
        Fullness::Axioms => {
            let names = random.between(6, 60);
            full.add_numbered_names(random, names, 3);
            full.add_seeds(random, 2);
            let axioms = about(random, MOST_AXIOMS);
            full.add_short_axioms(random, axioms);
        }
        Fullness::BytesOfBodies => {
            let names = random.between(6, 20);
            full.add_numbered_names(random, names, 3);
            full.add_seeds(random, 2);
            let bytes = about(random, MOST_BYTES_OF_BODIES);
            let axioms = random.pick(&[64, 65, 70, 100, 300]);
            full.add_axioms_of_bytes(random, axioms, bytes);
        }
        Fullness::AxiomsAndBytes => {
            let names = random.between(6, 60);
            full.add_numbered_names(random, names, 3);
            full.add_seeds(random, 2);
            let axioms = about(random, MOST_AXIOMS);
            let bytes = about(random, MOST_BYTES_OF_BODIES);
            full.add_axioms_of_bytes(random, axioms, bytes);
        }
        Fullness::Chain => full.add_chain(random),
        Fullness::LongestPart => {
            full.add_numbered_names(random, MOST_NAMES, 32);
            let all = random.percent(50);
            for number in 0..MOST_NAMES {
                if all || random.percent(30) {
                    full.model.seed(number, true);
                    full.records.push(Record::seed(number as u16));
                }
            }
            full.add_axioms_of_bytes(random, MOST_AXIOMS, MOST_BYTES_OF_BODIES);
        }
    }
    bytes_of(&full.records)
}

struct FullFile {
    records: Vec<Record>,
    model: Model,
    taste: Taste,
}

impl FullFile {
    /// Names with labels of the length given, made from their numbers.
    fn add_numbered_names(&mut self, random: &mut Random, count: usize, length: usize) {
        for number in 0..count {
            let kind = if number < 3 {
                number as u8
            } else {
                random_name_kind(random)
            };
            let label: Vec<u8> = (0..length as u32)
                .map(|place| numeral(number, place))
                .collect();
            self.model.name(kind, &label);
            self.records.push(Record::name(kind, &label));
        }
    }

    fn add_seeds(&mut self, random: &mut Random, most: usize) {
        for _ in 0..random.below(most + 1) {
            add_seed(random, &mut self.model, &mut self.records);
        }
    }

    fn add(&mut self, kind: u16, body: Body) {
        self.model.file(kind, &body.bytes);
        self.records.push(Record::new(kind, body));
    }

    fn add_short_axioms(&mut self, random: &mut Random, count: usize) {
        for _ in 0..count {
            let taste = Taste {
                nesting: 2,
                codes: [75, 5, 3, 14, 3],
                ..self.taste
            };
            let (kind, body) = good_axiom(random, &self.model, taste);
            self.add(kind, body);
        }
    }

    /// So many axioms, with so many bytes in their bodies together.
    fn add_axioms_of_bytes(&mut self, random: &mut Random, axioms: usize, bytes: usize) {
        let mut bytes_left = bytes;
        for axioms_left in (1..=axioms).rev() {
            let others = axioms_left - 1;
            let least = bytes_left.saturating_sub(others * MOST_BODY_BYTES).max(2);
            let most = bytes_left
                .saturating_sub(others * 2)
                .clamp(2, MOST_BODY_BYTES);
            let fair = bytes_left / axioms_left;
            let wanted = random.between(fair / 2, fair + fair / 2).max(2);
            let length = if others == 0 {
                most
            } else {
                wanted.clamp(least.min(most), most)
            };
            let (kind, body) =
                BodyWriter::new(random, &self.model, self.taste).axiom_of_length(length);
            bytes_left = bytes_left.saturating_sub(length);
            self.add(kind, body);
        }
    }

    /// Inclusions from each concept to the next, which take very many rounds.
    fn add_chain(&mut self, random: &mut Random) {
        let concepts = random.pick(&[1_024, 1_024, 1_023, 1_000]);
        self.add_concepts(concepts);
        let last = concepts - 1;
        for seed in random.pick(&[[0, 0], [last, last], [0, last], [last / 2, last / 2]]) {
            self.model.seed(seed, true);
            self.records.push(Record::seed(seed as u16));
        }
        let mut links: Vec<(usize, usize)> = (0..last).map(|number| (number, number + 1)).collect();
        if random.percent(50) {
            links.reverse();
        }
        if random.percent(40) {
            links.push((last, 0));
        }
        for (from, to) in links {
            self.add_link(from, to);
        }
    }

    fn add_concepts(&mut self, count: usize) {
        for number in 0..count {
            let label: Vec<u8> = (0..2).map(|place| numeral(number, place)).collect();
            self.model.name(CONCEPT, &label);
            self.records.push(Record::name(CONCEPT, &label));
        }
    }

    /// The inclusion of one concept in another.
    fn add_link(&mut self, from: usize, to: usize) {
        let mut body = Body::default();
        for concept in [from, to] {
            body.code(2);
            body.number(CONCEPT, concept as u16);
        }
        self.add(16, body);
    }
}

/// A book of so many axioms, from 3 to 1,024, for measuring.
fn book_to_measure(kind: &str, axioms: usize) -> Option<Vec<u8>> {
    if !(3..=MOST_AXIOMS).contains(&axioms) {
        return None;
    }
    let mut random = Random::for_script(0, axioms as u64);
    let mut full = FullFile {
        records: Vec::new(),
        model: Model::default(),
        taste: Taste {
            kinds: [70, 10, 6, 3, 3, 2, 2],
            codes: [60, 8, 8, 18, 6],
            nesting: 3,
        },
    };
    match kind {
        "random" => {
            full.add_numbered_names(&mut random, 300, 3);
            for _ in 0..axioms {
                let (kind, body) = good_axiom(&mut random, &full.model, full.taste);
                full.add(kind, body);
            }
        }
        "chain" => {
            // A ring, so that from any seed both tests mark one axiom a round.
            full.add_concepts(axioms);
            for number in 0..axioms {
                full.add_link(number, (number + 1) % axioms);
            }
        }
        _ => return None,
    }
    (full.model.axioms.len() == axioms).then(|| bytes_of(&full.records))
}

/// A digit of the number, as a byte of a label.
fn numeral(number: usize, place: u32) -> u8 {
    let digit = if place < 3 {
        number / 60usize.pow(place) % 60
    } else {
        0
    };
    b'A' + digit as u8
}

// ------------------------------------------------------------------- scripts

struct Script {
    random: Random,
    model: Model,
    taste: Taste,
    /// Whether the book is a big one, whose parts are long.
    full: bool,
    long_writes_left: usize,
    calls: usize,
    text: String,
}

impl Script {
    fn new(mut random: Random) -> Script {
        let taste = Taste::random(&mut random);
        Script {
            random,
            model: Model::default(),
            taste,
            full: false,
            long_writes_left: 2,
            calls: 0,
            text: String::new(),
        }
    }

    fn left(&self) -> usize {
        CALLS - self.calls
    }

    fn is_finished(&self) -> bool {
        self.left() == 0
    }

    // Writing lines.

    fn line(&mut self, words: &[String]) {
        if self.is_finished() {
            return;
        }
        let spaces = if self.random.below(300) == 0 {
            "   "
        } else {
            " "
        };
        if self.random.below(500) == 0 {
            self.text.push(' ');
        }
        self.text.push_str(&words.join(spaces));
        if self.random.below(500) == 0 {
            self.text.push(' ');
        }
        self.text.push('\n');
        self.calls += 1;
    }

    fn decimal(&mut self, number: usize) -> String {
        if self.random.below(200) == 0 {
            format!("000{number}")
        } else {
            number.to_string()
        }
    }

    fn bytes(&mut self, bytes: &[u8]) -> String {
        if bytes.is_empty() {
            return "-".to_string();
        }
        let mut text = String::with_capacity(2 * bytes.len());
        let capital = self.random.below(40) == 0;
        for byte in bytes {
            let _ = if capital {
                write!(text, "{byte:02X}")
            } else {
                write!(text, "{byte:02x}")
            };
        }
        text
    }

    // One call each. The model follows where the call is allowed.

    fn call_name(&mut self, kind: u8, label: &[u8]) {
        let words = [
            "name".to_string(),
            self.decimal(usize::from(kind)),
            self.bytes(label),
        ];
        self.line(&words);
        if !self.model.frozen {
            self.model.name(kind, label);
        }
    }

    fn call_file(&mut self, kind: u16, body: &[u8]) {
        let words = [
            "file".to_string(),
            self.decimal(usize::from(kind)),
            self.bytes(body),
        ];
        self.line(&words);
        if !self.model.frozen {
            self.model.file(kind, body);
        }
    }

    fn call_load(&mut self, file: &[u8]) {
        let words = ["load".to_string(), self.bytes(file)];
        self.line(&words);
        if !self.model.frozen {
            self.model.load(file);
        }
    }

    fn call_force(&mut self, number: usize, in_force: bool) {
        let word = if in_force { "restore" } else { "aside" };
        let words = [word.to_string(), self.decimal(number)];
        self.line(&words);
        if !self.model.frozen && number < self.model.axioms.len() {
            self.model.axioms[number].in_force = in_force;
        }
    }

    fn call_seed(&mut self, number: usize, seeded: bool) {
        let word = if seeded { "seed" } else { "unseed" };
        let words = [word.to_string(), self.decimal(number)];
        self.line(&words);
        if !self.model.frozen {
            self.model.seed(number, seeded);
        }
    }

    fn call_freeze(&mut self) {
        self.line(&["freeze".to_string()]);
        self.model.frozen = true;
    }

    fn call_reopen(&mut self) {
        self.line(&["reopen".to_string()]);
        self.model.frozen = false;
    }

    fn call_mark(&mut self, pile: &str, axioms: usize, names: usize) {
        let words = [
            "mark".to_string(),
            pile.to_string(),
            self.decimal(axioms),
            self.decimal(names),
        ];
        self.line(&words);
    }

    fn call_write(&mut self, pile: &str, axioms: usize, names: usize, part: usize) {
        let words = [
            "write".to_string(),
            pile.to_string(),
            self.decimal(axioms),
            self.decimal(names),
            self.decimal(part.min(65_535)),
        ];
        self.line(&words);
    }

    // Calls with random arguments.

    fn good_name(&mut self) {
        let kind = random_name_kind(&mut self.random);
        let label = good_label(&mut self.random);
        self.call_name(kind, &label);
    }

    fn faulty_name(&mut self) {
        let (kind, label) = faulty_name(&mut self.random, &self.model);
        self.call_name(kind, &label);
    }

    fn good_file(&mut self) {
        let (kind, body) = good_axiom(&mut self.random, &self.model, self.taste);
        self.call_file(kind, &body.bytes);
    }

    fn faulty_file(&mut self) {
        let (kind, body) = faulty_axiom(&mut self.random, &self.model, self.taste);
        self.call_file(kind, &body.bytes);
    }

    fn deep_file(&mut self) {
        let nesting = self.random.pick(&[23, 24, 24]);
        let writer = BodyWriter::new(&mut self.random, &self.model, self.taste);
        let (kind, body) = writer.deep_axiom(nesting, NestEnd::Leaf);
        self.call_file(kind, &body.bytes);
    }

    /// A body that just fits into the bytes left, or is just too long.
    fn fitting_file(&mut self) {
        let left = MOST_BYTES_OF_BODIES - self.model.bytes_of_bodies;
        let length = (left + self.random.below(3))
            .saturating_sub(1)
            .clamp(2, MOST_BODY_BYTES);
        let writer = BodyWriter::new(&mut self.random, &self.model, self.taste);
        let (kind, mut body) = writer.axiom_of_length(length);
        if self.random.percent(20) {
            spoil(&mut self.random, &self.model, &mut body);
        }
        self.call_file(kind, &body.bytes);
    }

    /// A number below `count`, or now and then one that is not.
    fn number(&mut self, count: usize, unknown: usize) -> usize {
        if count == 0 || self.random.percent(unknown) {
            self.random.pick(&[
                count,
                count,
                count + 1,
                255,
                256,
                1_023,
                1_024,
                32_768,
                65_535,
            ])
        } else if self.random.percent(10) {
            count - 1
        } else {
            self.random.below(count)
        }
    }

    fn aside_or_restore(&mut self) {
        let number = self.number(self.model.axioms.len(), 15);
        let in_force = self.random.percent(40);
        self.call_force(number, in_force);
    }

    fn seed_or_unseed(&mut self) {
        let number = self.number(self.model.names.len(), 15);
        let seeded = self.random.percent(60);
        self.call_seed(number, seeded);
    }

    fn good_seed(&mut self) {
        if !self.model.names.is_empty() {
            let number = self.random.below(self.model.names.len());
            self.call_seed(number, true);
        }
    }

    fn unseed_all(&mut self) {
        for number in 0..self.model.names.len() {
            if self.model.seeded[number] {
                self.call_seed(number, false);
            }
        }
    }

    fn lay_all_aside(&mut self) {
        self.lay_aside_down_to(0);
    }

    /// Lays axioms aside until no more than `most` are in force.
    fn lay_aside_down_to(&mut self, most: usize) {
        let mut in_force = self.model.records_in_force().len();
        while in_force > most && !self.is_finished() {
            let place = self.random.below(in_force);
            let numbers =
                (0..self.model.axioms.len()).filter(|&number| self.model.axioms[number].in_force);
            let number = numbers.collect::<Vec<usize>>()[place];
            self.call_force(number, false);
            in_force -= 1;
        }
    }

    fn any_load(&mut self) {
        let file = match self.random.below(4) {
            0 => Vec::new(),
            1 => bytes_of(&[Record::name(CONCEPT, b"A")]),
            _ => file_faulty_at_once(&mut self.random, self.taste),
        };
        self.call_load(&file);
    }

    /// A buffer's length, where `wanted` bytes are just enough.
    fn buffer(&mut self, wanted: usize) -> usize {
        if self.random.below(8_000) == 0 {
            return 65_535;
        }
        let style: u8 = self
            .random
            .weighted(&[(68, 0), (6, 1), (3, 2), (18, 3), (5, 4)]);
        match style {
            0 => wanted,
            1 => wanted.saturating_sub(1),
            2 => 0,
            3 => wanted + self.random.between(1, 9),
            _ => self.random.below(2 * wanted + 2),
        }
    }

    fn part_buffer(&mut self, pile: &str) -> usize {
        let base = self.model.part_base();
        let records = self.model.records_in_force();
        let whole = base + records.iter().sum::<usize>();
        let some = base + self.some_of(&records);
        let between = self.random.between(base, whole);
        let above = whole + self.random.between(1, 12);
        if pile == "whole" {
            return self.random.weighted(&[
                (45, whole),
                (20, whole.saturating_sub(1)),
                (25, above),
                (5, between),
                (5, 0),
            ]);
        }
        self.random.weighted(&[
            (36, whole),
            (5, whole.saturating_sub(1)),
            (28, above),
            (6, base),
            (3, base.saturating_sub(1)),
            (8, some),
            (4, some.saturating_sub(1)),
            (8, between),
            (2, 0),
        ])
    }

    /// The sum of some of the numbers.
    fn some_of(&mut self, numbers: &[usize]) -> usize {
        let chance = self.random.between(20, 80);
        numbers.iter().filter(|_| self.random.percent(chance)).sum()
    }

    fn any_mark(&mut self) {
        let pile = any_pile(&mut self.random);
        let axioms = self.buffer(self.model.axioms.len());
        let names = self.buffer(self.model.names.len());
        self.call_mark(&pile, axioms, names);
    }

    fn any_write(&mut self) {
        if self.full {
            if self.long_writes_left == 0 {
                return self.any_mark();
            }
            self.long_writes_left -= 1;
        }
        let pile = any_pile(&mut self.random);
        let axioms = self.buffer(self.model.axioms.len());
        let names = self.buffer(self.model.names.len());
        let part = self.part_buffer(&pile);
        self.call_write(&pile, axioms, names, part);
    }

    fn good_mark(&mut self, pile: &str) {
        self.call_mark(pile, self.model.axioms.len(), self.model.names.len());
    }

    /// Marks by all short piles and by one more.
    fn mark_all(&mut self) {
        for pile in SHORT_PILES {
            self.good_mark(pile);
        }
        let pile = staged_pile(&mut self.random);
        self.good_mark(&pile);
    }

    /// With few axioms in force, writes with all lengths a part may have and
    /// with one byte less.
    fn sweep(&mut self) {
        if self.model.records_in_force().len() + 25 > self.left() {
            return self.aside_or_restore();
        }
        if self.model.frozen {
            self.call_reopen();
        }
        let most = self.random.between(1, 3);
        self.lay_aside_down_to(most);
        self.ensure_seed();
        self.call_freeze();
        let base = self.model.part_base();
        let records = self.model.records_in_force();
        let mut lengths: Vec<usize> = (0..1usize << records.len())
            .map(|set| {
                (0..records.len())
                    .filter(|bit| set >> bit & 1 == 1)
                    .map(|bit| records[bit])
                    .sum::<usize>()
                    + base
            })
            .flat_map(|length| [length - 1, length])
            .collect();
        lengths.sort_unstable();
        lengths.dedup();
        let pile = staged_pile(&mut self.random);
        for length in lengths {
            self.call_write(
                &pile,
                self.model.axioms.len(),
                self.model.names.len(),
                length,
            );
        }
    }

    fn ensure_seed(&mut self) {
        if !self.model.seeded.contains(&true) {
            for _ in 0..self.random.between(1, 3) {
                self.good_seed();
            }
        }
    }

    /// Mostly sees to it that there is a seed, then freezes.
    fn freeze_for_marking(&mut self) {
        if self.random.percent(85) {
            self.ensure_seed();
        }
        self.call_freeze();
    }

    fn not_allowed_on_draft(&mut self) {
        match self.random.below(3) {
            0 => self.call_reopen(),
            1 => self.any_mark(),
            _ => self.any_write(),
        }
    }

    fn not_allowed_on_frozen(&mut self) {
        match self.random.below(9) {
            0 => self.good_name(),
            1 => self.faulty_name(),
            2 => self.good_file(),
            3 => self.faulty_file(),
            4 => self.any_load(),
            5 | 6 => self.aside_or_restore(),
            7 => self.seed_or_unseed(),
            _ => self.call_freeze(),
        }
    }

    fn step_on_draft(&mut self) {
        let steps: [(usize, fn(&mut Script)); 15] = [
            (5, Script::good_name),
            (12, Script::faulty_name),
            (9, Script::good_file),
            (26, Script::faulty_file),
            (2, Script::deep_file),
            (if self.full { 14 } else { 0 }, Script::fitting_file),
            (10, Script::aside_or_restore),
            (9, Script::seed_or_unseed),
            (3, Script::good_seed),
            (if self.full { 0 } else { 1 }, Script::lay_all_aside),
            (1, Script::unseed_all),
            (2, Script::any_load),
            (3, Script::not_allowed_on_draft),
            (16, Script::freeze_for_marking),
            (if self.full { 0 } else { 1 }, Script::sweep),
        ];
        self.random.weighted(&steps)(self);
    }

    fn step_on_frozen(&mut self) {
        let steps: [(usize, fn(&mut Script)); 6] = [
            (40, Script::any_mark),
            (22, Script::any_write),
            (2, Script::mark_all),
            (20, Script::call_reopen),
            (8, Script::not_allowed_on_frozen),
            (if self.full { 0 } else { 1 }, Script::sweep),
        ];
        self.random.weighted(&steps)(self);
    }

    /// Goes on until 100 calls are there; the last ones mark.
    fn go_on(&mut self) {
        while self.left() > 10 {
            if self.model.frozen {
                self.step_on_frozen();
            } else {
                self.step_on_draft();
            }
        }
        if !self.model.frozen {
            self.ensure_seed();
            self.call_freeze();
        }
        self.mark_all();
        while !self.is_finished() {
            self.step_on_frozen();
        }
    }

    // Beginnings.

    /// Calls that leave the book empty.
    fn begin_with_faults(&mut self, most: usize) {
        for _ in 0..self.random.below(most + 1) {
            match self.random.below(12) {
                0 => self.call_load(&[]),
                1 => self.aside_or_restore(),
                2 => self.seed_or_unseed(),
                3 => self.not_allowed_on_draft(),
                4 => {
                    self.call_freeze();
                    self.any_mark();
                    if self.random.percent(30) {
                        self.not_allowed_on_frozen();
                    }
                    self.call_reopen();
                }
                5 => {
                    let (kind, label) = faulty_name(&mut self.random, &self.model);
                    if !Model::default().name(kind, &label) {
                        self.call_name(kind, &label);
                    }
                }
                6 => {
                    let (kind, body) = faulty_axiom(&mut self.random, &self.model, self.taste);
                    if !Model::default().file(kind, &body.bytes) {
                        self.call_file(kind, &body.bytes);
                    }
                }
                _ => {
                    let file = file_faulty_at_once(&mut self.random, self.taste);
                    let mut loaded = Model::default();
                    loaded.load(&file);
                    if loaded.is_empty() {
                        self.call_load(&file);
                    }
                }
            }
        }
    }

    /// Names, files and seeds until the book is of use.
    fn build_by_calls(&mut self, names: usize, axioms: usize) {
        while self.model.names.len() < names && self.left() > 30 {
            self.good_name();
            if self.random.percent(12) {
                self.faulty_name();
            }
        }
        while self.model.axioms.len() < axioms && self.left() > 30 {
            self.good_file();
            if self.random.percent(20) {
                self.faulty_file();
            }
        }
    }

    fn small_book_by_calls(&mut self) {
        self.begin_with_faults(2);
        let names = self.random.between(5, 14);
        let axioms = self.random.between(5, 24);
        self.build_by_calls(names, axioms);
    }

    fn small_book_by_load(&mut self) {
        self.begin_with_faults(4);
        let (records, _) = small_file(&mut self.random, self.taste);
        self.call_load(&bytes_of(&records));
    }

    fn damaged_book(&mut self) {
        self.begin_with_faults(8);
        let file = damaged_file(&mut self.random, self.taste);
        self.call_load(&file);
        let names = self.random.between(4, 9);
        let axioms = self.random.between(3, 12);
        self.build_by_calls(names, axioms);
    }

    fn full_book(&mut self) {
        self.begin_with_faults(2);
        let fullness = self.random.weighted(&[
            (26, Fullness::Names),
            (23, Fullness::Axioms),
            (21, Fullness::BytesOfBodies),
            (17, Fullness::AxiomsAndBytes),
            (9, Fullness::Chain),
            (4, Fullness::LongestPart),
        ]);
        let mut file = full_file(&mut self.random, fullness, self.taste);
        if self.random.percent(5) {
            damage_bytes(&mut self.random, &mut file);
        }
        self.full = true;
        self.call_load(&file);
        if let Fullness::LongestPart = fullness {
            self.write_longest();
        }
    }

    /// Writes a part that may be longer than any buffer of a script.
    fn write_longest(&mut self) {
        self.ensure_seed();
        self.call_freeze();
        let (axioms, names) = (self.model.axioms.len(), self.model.names.len());
        self.call_write("whole", axioms, names, 65_535);
        self.call_write("bottom/top", axioms, names, 65_535);
        self.call_reopen();
        for _ in 0..10 {
            self.aside_or_restore();
        }
    }

    fn any_beginning(&mut self) {
        for _ in 0..self.random.below(12) {
            self.step_on_draft();
            if self.model.frozen {
                self.step_on_frozen();
                self.call_reopen();
            }
        }
    }

    /// Puts a call whose pile is none in the place of a line, mostly of one of
    /// the last ones.
    fn spoil_line(&mut self) {
        let mut lines: Vec<&str> = self.text.lines().collect();
        let place = if self.random.percent(20) {
            self.random.below(lines.len())
        } else {
            lines.len() - 1 - self.random.below(10)
        };
        let pile = wrong_pile(&mut self.random);
        let wrong = if self.random.percent(50) {
            format!("mark {pile} 20 20")
        } else {
            format!("write {pile} 20 20 200")
        };
        lines[place] = &wrong;
        self.text = lines.join("\n") + "\n";
    }

    fn generate(mut self) -> String {
        let beginnings: [(usize, fn(&mut Script)); 5] = [
            (24, Script::small_book_by_calls),
            (26, Script::small_book_by_load),
            (40, Script::damaged_book),
            (6, Script::full_book),
            (4, Script::any_beginning),
        ];
        self.random.weighted(&beginnings)(&mut self);
        self.go_on();
        if self.random.percent(8) {
            self.spoil_line();
        }
        self.text
    }
}

// ---------------------------------------------------------------------- main

fn write_scripts(seed: u64, count: u64, directory: &Path) -> std::io::Result<()> {
    fs::create_dir_all(directory)?;
    for number in 1..=count {
        let script = Script::new(Random::for_script(seed, number)).generate();
        fs::write(directory.join(format!("{number:05}.script")), script)?;
    }
    Ok(())
}

fn write_book(kind: &str, axioms: usize, file: &Path) -> std::io::Result<()> {
    let book = book_to_measure(kind, axioms)
        .ok_or_else(|| std::io::Error::other("there is no such book"))?;
    let digits: String = book.iter().map(|byte| format!("{byte:02x}")).collect();
    fs::write(file, format!("load {digits}\n"))
}

fn main() -> ExitCode {
    let arguments: Vec<String> = std::env::args().skip(1).collect();
    let words: Vec<&str> = arguments.iter().map(String::as_str).collect();
    let (written, place) = match words[..] {
        ["--book", kind, size, file] => {
            let Ok(size) = size.parse() else {
                return usage();
            };
            (write_book(kind, size, Path::new(file)), file)
        }
        [seed, count, directory] => {
            let (Ok(seed), Ok(count)) = (seed.parse(), count.parse()) else {
                return usage();
            };
            (write_scripts(seed, count, Path::new(directory)), directory)
        }
        _ => return usage(),
    };
    match written {
        Ok(()) => ExitCode::SUCCESS,
        Err(error) => {
            eprintln!("generate: {place}: {error}");
            ExitCode::from(1)
        }
    }
}

fn usage() -> ExitCode {
    eprintln!("usage: generate SEED COUNT DIR");
    eprintln!("       generate --book random|chain SIZE FILE");
    ExitCode::from(2)
}
