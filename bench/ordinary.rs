// A plain program without any proof, that prints what `minerful` prints: `kb`, `mine` at each stage and of both
// repertoires, `check` and `monitor`. It is for comparison: what the same work costs in ordinary Rust, with std alone.
// It has the refusals of the logs and models that bench/run.py makes, and most others.
//
//     rustc -O -o /tmp/ordinary bench/ordinary.rs
//     /tmp/ordinary mine LOG

use std::borrow::Cow;
use std::cmp::Ordering;
use std::collections::HashMap;
use std::fs::File;
use std::io::{self, BufRead, BufReader, BufWriter, Read, Write};
use std::process::ExitCode;
use std::rc::Rc;

// Limits and refusals

const MOST_EVENTS: u64 = 16_777_215;
const MOST_TRACES: u64 = 1_048_575;
const MOST_ACTIVITIES: usize = 1_000;
const MOST_LINE_BYTES: usize = 1_048_576;
const MOST_CSV_BYTES: usize = 134_217_728;
const MOST_MODEL_BYTES: usize = 16_777_216;
const MOST_CANDIDATES: usize = 65_536;
const MOST_WATCHED: usize = 1_000;
const NONE: u32 = u32::MAX;

/// Why a run ends without its text: the exit status, and the line on standard error.
struct Refusal {
    status: u8,
    line: String,
}

type Outcome<T> = Result<T, Refusal>;

fn refuse<T>(status: u8, line: String) -> Outcome<T> {
    Err(Refusal { status, line })
}

fn too_many_states<T>(phase: u8, constraints: usize) -> Outcome<T> {
    refuse(5, format!("too many states, phase {phase}, constraints {constraints}"))
}

fn read_fault(_: io::Error) -> Refusal {
    Refusal { status: 6, line: "read fault".to_string() }
}

fn write_fault(_: io::Error) -> Refusal {
    Refusal { status: 7, line: "write fault".to_string() }
}

// Templates

#[rustfmt::skip]
#[derive(Clone, Copy, PartialEq, Eq, Hash, Debug)]
enum Template {
    Init, End, Participation, AtMostOne, ChainSuccession, AlternateSuccession, Succession, CoExistence, ChainResponse,
    AlternateResponse, Response, ChainPrecedence, AlternatePrecedence, Precedence, RespondedExistence, NotCoExistence,
    NotSuccession, NotChainSuccession, Exactly(u8), AtLeast(u8), AtMost(u8), NotRespondedExistence, NotResponse,
    NotPrecedence, NotChainResponse, NotChainPrecedence,
}

use Template::*;

#[rustfmt::skip]
const FIRST_REPERTOIRE: [Template; 18] = [
    Init, End, Participation, AtMostOne, ChainSuccession, AlternateSuccession, Succession, CoExistence, ChainResponse,
    AlternateResponse, Response, ChainPrecedence, AlternatePrecedence, Precedence, RespondedExistence, NotCoExistence,
    NotSuccession, NotChainSuccession,
];

const ONE_SIDED: [Template; 5] =
    [NotRespondedExistence, NotResponse, NotPrecedence, NotChainResponse, NotChainPrecedence];

/// All fifty in the order of their numbers, from 1.
fn all_templates() -> Vec<Template> {
    let mut found = FIRST_REPERTOIRE.to_vec();
    found.extend((1..=9).map(Exactly));
    found.extend((1..=9).rev().map(AtLeast));
    found.extend((1..=9).map(AtMost));
    found.extend(ONE_SIDED);
    found
}

/// Those that are mined: two counted ones say what two others say.
fn mined_templates(repertoire: u8) -> Vec<Template> {
    match repertoire {
        1 => FIRST_REPERTOIRE.to_vec(),
        _ => all_templates().into_iter().filter(|each| !matches!(each, AtLeast(1) | AtMost(1))).collect(),
    }
}

#[derive(Clone, Copy, PartialEq, Eq)]
enum Group {
    Existence,
    Mutual,
    ByFirst,
    BySecond,
}

/// What an activated event asks of the other activity.
#[derive(Clone, Copy)]
enum Asks {
    Next,
    Previous,
    Later,
    Earlier,
    AlternatesLater,
    AlternatesEarlier,
    Somewhere,
}

impl Template {
    fn name(self) -> String {
        match self {
            Exactly(count) => format!("Exactly{count}"),
            AtLeast(count) => format!("AtLeast{count}"),
            AtMost(count) => format!("AtMost{count}"),
            other => format!("{other:?}"),
        }
    }

    fn number(self) -> u8 {
        match self {
            Exactly(count) => 18 + count,
            AtLeast(count) => 37 - count,
            AtMost(count) => 36 + count,
            other => {
                let place = FIRST_REPERTOIRE.iter().position(|each| *each == other);
                let later = ONE_SIDED.iter().position(|each| *each == other);
                place.map_or(46 + later.unwrap_or(0), |place| place + 1) as u8
            }
        }
    }

    fn group(self) -> Group {
        match self {
            Init | End | Participation | AtMostOne | Exactly(_) | AtLeast(_) | AtMost(_) => Group::Existence,
            ChainSuccession | AlternateSuccession | Succession | CoExistence => Group::Mutual,
            NotCoExistence | NotSuccession | NotChainSuccession => Group::Mutual,
            ChainPrecedence | AlternatePrecedence | Precedence | NotPrecedence | NotChainPrecedence => Group::BySecond,
            _ => Group::ByFirst,
        }
    }

    fn has_two(self) -> bool {
        self.group() != Group::Existence
    }

    /// Whether it says the same in both orders of its activities.
    fn is_symmetric(self) -> bool {
        matches!(self, CoExistence | NotCoExistence)
    }

    /// What stands directly below it, and whether its activities are turned.
    fn directly_below(self) -> Vec<(Template, bool)> {
        match self {
            Init | End => vec![(Participation, false)],
            ChainSuccession => vec![(AlternateSuccession, false), (ChainResponse, false), (ChainPrecedence, false)],
            AlternateSuccession => vec![(Succession, false), (AlternateResponse, false), (AlternatePrecedence, false)],
            Succession => vec![(CoExistence, false), (CoExistence, true), (Response, false), (Precedence, false)],
            CoExistence => vec![(RespondedExistence, false), (RespondedExistence, true)],
            ChainResponse => vec![(AlternateResponse, false)],
            AlternateResponse => vec![(Response, false)],
            Response => vec![(RespondedExistence, false)],
            ChainPrecedence => vec![(AlternatePrecedence, false)],
            AlternatePrecedence => vec![(Precedence, false)],
            Precedence => vec![(RespondedExistence, true)],
            NotCoExistence => vec![
                (NotSuccession, false),
                (NotSuccession, true),
                (NotRespondedExistence, false),
                (NotRespondedExistence, true),
            ],
            NotSuccession => vec![(NotChainSuccession, false), (NotResponse, false), (NotPrecedence, false)],
            NotChainSuccession => vec![(NotChainResponse, false), (NotChainPrecedence, false)],
            NotRespondedExistence => vec![(NotResponse, false), (NotPrecedence, true)],
            NotResponse => vec![(NotChainResponse, false)],
            NotPrecedence => vec![(NotChainPrecedence, false)],
            Exactly(count) => vec![(AtLeast(count), false), (AtMost(count), false)],
            AtLeast(1) => vec![(Participation, false)],
            AtLeast(count) => vec![(AtLeast(count - 1), false)],
            AtMost(1) => vec![(AtMostOne, false)],
            AtMostOne => vec![(AtMost(2), false)],
            AtMost(count) if count < 9 => vec![(AtMost(count + 1), false)],
            _ => vec![],
        }
    }

    /// All that stands below it.
    fn below(self) -> Vec<(Template, bool)> {
        let mut found = self.directly_below();
        let mut place = 0;
        while place < found.len() {
            let (template, turned) = found[place];
            for (lower, more) in template.directly_below() {
                let item = (lower, turned != more);
                if !found.contains(&item) {
                    found.push(item);
                }
            }
            place += 1;
        }
        found
    }

    /// What it asks at its first activity and at its second, and whether the contrary; None where it isn't activated.
    fn asks(self) -> (Option<Asks>, Option<Asks>, bool) {
        use Asks::*;
        match self {
            ChainSuccession => (Some(Next), Some(Previous), false),
            AlternateSuccession => (Some(AlternatesLater), Some(AlternatesEarlier), false),
            Succession => (Some(Later), Some(Earlier), false),
            CoExistence => (Some(Somewhere), Some(Somewhere), false),
            ChainResponse => (Some(Next), None, false),
            AlternateResponse => (Some(AlternatesLater), None, false),
            Response => (Some(Later), None, false),
            ChainPrecedence => (None, Some(Previous), false),
            AlternatePrecedence => (None, Some(AlternatesEarlier), false),
            Precedence => (None, Some(Earlier), false),
            RespondedExistence => (Some(Somewhere), None, false),
            NotCoExistence => (Some(Somewhere), Some(Somewhere), true),
            NotSuccession => (Some(Later), Some(Earlier), true),
            NotChainSuccession => (Some(Next), Some(Previous), true),
            NotRespondedExistence => (Some(Somewhere), None, true),
            NotResponse => (Some(Later), None, true),
            NotPrecedence => (None, Some(Earlier), true),
            NotChainResponse => (Some(Next), None, true),
            NotChainPrecedence => (None, Some(Previous), true),
            _ => (None, None, false),
        }
    }

    /// Its least automaton over the classes of events: first activity, second, other. State 0 is the start.
    fn table(self) -> Table {
        let (accepting, next): (&[bool], &[[u8; 3]]) = match self {
            Init => (&[false, true, false], &[[1, 2, 2], [1, 1, 1], [2, 2, 2]]),
            End => (&[false, true], &[[1, 0, 0], [1, 0, 0]]),
            Participation => (&[false, true], &[[1, 0, 0], [1, 1, 1]]),
            AtMostOne => return Table::counted(2, |count| count <= 1),
            Exactly(count) => return Table::counted(count + 1, |found| found == count),
            AtLeast(count) => return Table::counted(count, |found| found >= count),
            AtMost(count) => return Table::counted(count + 1, |found| found <= count),
            ChainSuccession => (&[true, false, false], &[[1, 2, 0], [2, 0, 2], [2, 2, 2]]),
            AlternateSuccession => (&[true, false, false], &[[1, 2, 0], [2, 0, 1], [2, 2, 2]]),
            Succession => (&[true, false, true, false], &[[1, 3, 0], [1, 2, 1], [1, 2, 2], [3, 3, 3]]),
            CoExistence => (&[true, false, false, true], &[[1, 2, 0], [1, 3, 1], [3, 2, 2], [3, 3, 3]]),
            ChainResponse => (&[true, false, false], &[[1, 0, 0], [2, 0, 2], [2, 2, 2]]),
            AlternateResponse => (&[true, false, false], &[[1, 0, 0], [2, 0, 1], [2, 2, 2]]),
            Response => (&[true, false], &[[1, 0, 0], [1, 0, 1]]),
            ChainPrecedence => (&[true, true, false], &[[1, 2, 0], [1, 0, 0], [2, 2, 2]]),
            AlternatePrecedence => (&[true, true, false], &[[1, 2, 0], [1, 0, 1], [2, 2, 2]]),
            Precedence => (&[true, true, false], &[[1, 2, 0], [1, 1, 1], [2, 2, 2]]),
            RespondedExistence => (&[true, false, true], &[[1, 2, 0], [1, 2, 1], [2, 2, 2]]),
            NotCoExistence | NotRespondedExistence => {
                (&[true, true, true, false], &[[1, 2, 0], [1, 3, 1], [3, 2, 2], [3, 3, 3]])
            }
            NotSuccession | NotResponse | NotPrecedence => (&[true, true, false], &[[1, 0, 0], [1, 2, 1], [2, 2, 2]]),
            NotChainSuccession | NotChainResponse | NotChainPrecedence => {
                (&[true, true, false], &[[1, 0, 0], [1, 2, 0], [2, 2, 2]])
            }
        };
        Table { accepting: accepting.to_vec(), next: next.to_vec() }
    }
}

struct Table {
    accepting: Vec<bool>,
    next: Vec<[u8; 3]>,
}

impl Table {
    /// The states are how many of the first activity there were, up to `last`, which is so many or more.
    fn counted(last: u8, accepts: impl Fn(u8) -> bool) -> Table {
        let next = (0..=last).map(|count| [(count + 1).min(last), count, count]).collect();
        Table { accepting: (0..=last).map(accepts).collect(), next }
    }
}

/// A template with its activities; `b` is NONE where it has one only.
#[derive(Clone, Copy, PartialEq, Eq, Hash)]
struct Constraint {
    template: Template,
    a: u32,
    b: u32,
}

impl Constraint {
    /// What an event is to it: 0 the first activity, 1 the second, 2 another.
    fn class(&self, symbol: u32) -> usize {
        if symbol == self.a {
            0
        } else if symbol == self.b {
            1
        } else {
            2
        }
    }

    /// Another template of its activities.
    fn with(&self, template: Template, turned: bool) -> Constraint {
        match (template.has_two(), turned) {
            (false, _) => Constraint { template, a: self.a, b: NONE },
            (true, false) => Constraint { template, a: self.a, b: self.b },
            (true, true) => Constraint { template, a: self.b, b: self.a },
        }
    }
}

// Counters

#[derive(Clone, Default)]
struct Unary {
    occurrences: u64,
    traces: u64,
    repeated: u64,
    first: u64,
    last: u64,
    exact: [u64; 9],
}

/// The counters of an ordered pair. All but the last count events that are the first activity.
#[derive(Clone, Copy)]
struct Pair {
    without: u64,
    no_later: u64,
    no_earlier: u64,
    next: u64,
    previous: u64,
    rep_later: u64,
    rep_earlier: u64,
    together: u64,
}

/// The counters of the traces so far. Each matrix has a row for an activity b, and in it a place for an activity a: it
/// counts a's. Those of the current trace are set back at its end.
#[derive(Default)]
struct Counters {
    stride: usize,
    events: u64,
    traces: u64,
    unary: Vec<Unary>,
    /// a's before the first b, and behind the last one, in traces with a b.
    leading: Vec<u32>,
    trailing: Vec<u32>,
    rep_later: Vec<u32>,
    rep_earlier: Vec<u32>,
    /// a's in traces with b, and traces with both.
    beside: Vec<u32>,
    together: Vec<u32>,
    /// b's right behind which an a stands.
    adjacent: Vec<u32>,
    /// Of the current trace: its activities, how often each came, and how often each had come at the last b.
    present: Vec<u32>,
    counts: Vec<u32>,
    seen: Vec<u32>,
}

/// Of so many a's between two b's, or between a b and an end, those with another a on the way to a b.
fn repeats(count: u32) -> u32 {
    count - u32::from(count != 0)
}

// What an event, or the end of a trace, adds to whole rows. These are functions of their own so that the compiler knows
// that the rows are apart, and takes several places at once.

#[inline(never)]
fn add_first(counts: &[u32], seen: &mut [u32], later: &mut [u32], leading: &mut [u32]) {
    for (((count, seen), later), leading) in counts.iter().zip(seen).zip(later).zip(leading) {
        *leading += count;
        *later += repeats(*count);
        *seen = *count;
    }
}

#[inline(never)]
fn add_next(counts: &[u32], seen: &mut [u32], later: &mut [u32], earlier: &mut [u32]) {
    for (((count, seen), later), earlier) in counts.iter().zip(seen).zip(later).zip(earlier) {
        let repeated = repeats(count - *seen);
        *later += repeated;
        *earlier += repeated;
        *seen = *count;
    }
}

#[inline(never)]
fn add_last(counts: &[u32], seen: &[u32], trailing: &mut [u32], earlier: &mut [u32]) {
    for (((count, seen), trailing), earlier) in counts.iter().zip(seen).zip(trailing).zip(earlier) {
        *trailing += count - seen;
        *earlier += repeats(count - seen);
    }
}

#[inline(never)]
fn add_beside(counts: &[u32], seen: &mut [u32], beside: &mut [u32], together: &mut [u32]) {
    for (((count, seen), beside), together) in counts.iter().zip(seen).zip(beside).zip(together) {
        *beside += count;
        *together += u32::from(*count != 0);
        *seen = 0;
    }
}

impl Counters {
    /// Makes room for so many activities.
    fn grow(&mut self, activities: usize) {
        self.unary.resize(activities, Unary::default());
        if activities <= self.stride {
            return;
        }
        let (old, new) = (self.stride, activities.max(self.stride * 3 / 2).next_multiple_of(8));
        let matrices = [
            &mut self.leading,
            &mut self.trailing,
            &mut self.rep_later,
            &mut self.rep_earlier,
            &mut self.beside,
            &mut self.together,
            &mut self.adjacent,
            &mut self.seen,
        ];
        for matrix in matrices {
            let mut wider = vec![0; new * new];
            for row in 0..old {
                wider[row * new..][..old].copy_from_slice(&matrix[row * old..][..old]);
            }
            *matrix = wider;
        }
        self.counts.resize(new, 0);
        self.stride = new;
    }

    /// Whether the activities of the trace are so few that a list of them is shorter work than a whole row.
    fn is_sparse(&self) -> bool {
        self.present.len() * 4 < self.unary.len()
    }

    fn trace(&mut self, events: &[u32]) {
        self.traces += 1;
        self.events += events.len() as u64;
        for &event in events {
            self.event(event as usize);
        }
        for pair in events.windows(2) {
            self.adjacent[pair[0] as usize * self.stride + pair[1] as usize] += 1;
        }
        if let (Some(first), Some(last)) = (events.first(), events.last()) {
            self.unary[*first as usize].first += 1;
            self.unary[*last as usize].last += 1;
        }
        self.end_trace();
    }

    fn event(&mut self, event: usize) {
        let row = event * self.stride..event * self.stride + self.unary.len().next_multiple_of(8);
        let is_first = self.counts[event] == 0;
        if self.is_sparse() {
            let present = std::mem::take(&mut self.present);
            for &other in &present {
                let (at, count) = (row.start + other as usize, self.counts[other as usize]);
                let since = count - self.seen[at];
                self.seen[at] = count;
                self.rep_later[at] += repeats(since);
                if is_first {
                    self.leading[at] += since;
                } else {
                    self.rep_earlier[at] += repeats(since);
                }
            }
            self.present = present;
        } else {
            let counts = &self.counts[..row.len()];
            let (seen, later) = (&mut self.seen[row.clone()], &mut self.rep_later[row.clone()]);
            if is_first {
                add_first(counts, seen, later, &mut self.leading[row]);
            } else {
                add_next(counts, seen, later, &mut self.rep_earlier[row]);
            }
        }
        if is_first {
            self.present.push(event as u32);
        }
        self.counts[event] += 1;
    }

    fn end_trace(&mut self) {
        let present = std::mem::take(&mut self.present);
        let is_sparse = present.len() * 4 < self.unary.len();
        for &event in &present {
            let start = event as usize * self.stride;
            if is_sparse {
                for &other in &present {
                    let (at, count) = (start + other as usize, self.counts[other as usize]);
                    let since = count - self.seen[at];
                    self.seen[at] = 0;
                    self.trailing[at] += since;
                    self.rep_earlier[at] += repeats(since);
                    self.beside[at] += count;
                    self.together[at] += 1;
                }
            } else {
                let row = start..start + self.unary.len().next_multiple_of(8);
                let counts = &self.counts[..row.len()];
                add_last(
                    counts,
                    &self.seen[row.clone()],
                    &mut self.trailing[row.clone()],
                    &mut self.rep_earlier[row.clone()],
                );
                add_beside(counts, &mut self.seen[row.clone()], &mut self.beside[row.clone()], &mut self.together[row]);
            }
        }
        for &event in &present {
            let count = std::mem::take(&mut self.counts[event as usize]);
            let unary = &mut self.unary[event as usize];
            unary.occurrences += u64::from(count);
            unary.traces += 1;
            unary.repeated += u64::from(count > 1);
            if let Some(exact) = unary.exact.get_mut(count as usize - 1) {
                *exact += 1;
            }
        }
        self.present = present;
        self.present.clear();
    }

    fn pair(&self, a: u32, b: u32) -> Pair {
        let at = b as usize * self.stride + a as usize;
        let turned = a as usize * self.stride + b as usize;
        let without = self.unary[a as usize].occurrences - u64::from(self.beside[at]);
        Pair {
            without,
            no_later: without + u64::from(self.trailing[at]),
            no_earlier: without + u64::from(self.leading[at]),
            next: u64::from(self.adjacent[turned]),
            previous: u64::from(self.adjacent[at]),
            rep_later: u64::from(self.rep_later[at]),
            rep_earlier: u64::from(self.rep_earlier[at]),
            together: u64::from(self.together[at]),
        }
    }
}

// String logs

/// The names of a log, by the numbers of their first appearance.
type Names = Vec<String>;

/// Numbers characters.
struct Characters {
    ascii: [u32; 128],
    others: HashMap<char, u32>,
    names: Names,
}

impl Characters {
    fn new() -> Characters {
        Characters { ascii: [NONE; 128], others: HashMap::new(), names: Names::new() }
    }

    fn number(&mut self, character: char) -> u32 {
        let next = self.names.len() as u32;
        let number = match self.ascii.get_mut(character as usize) {
            Some(number) => {
                if *number == NONE {
                    *number = next;
                }
                *number
            }
            None => *self.others.entry(character).or_insert(next),
        };
        if number == next {
            self.names.push(character.to_string());
        }
        number
    }

    /// The numbers of a line's characters.
    fn line(&mut self, line: &str, events: &mut Vec<u32>) {
        events.clear();
        if line.is_ascii() {
            for byte in line.bytes() {
                let number = self.ascii[byte as usize];
                events.push(if number == NONE { self.number(char::from(byte)) } else { number });
            }
        } else {
            events.extend(line.chars().map(|character| self.number(character)));
        }
    }
}

/// The line of a piece: without its line feed and one carriage return before that. Refused where it is too long.
fn line_of(piece: &[u8], number: u64) -> Outcome<&[u8]> {
    let (line, ended) = piece.strip_suffix(b"\n").map_or((piece, false), |line| (line, true));
    if line.len() > MOST_LINE_BYTES {
        return refuse(5, format!("line {number} is too long"));
    }
    Ok(if ended { line.strip_suffix(b"\r").unwrap_or(line) } else { line })
}

fn text_of(line: &[u8], number: u64) -> Outcome<&str> {
    std::str::from_utf8(line).or_else(|_| refuse(3, format!("line {number} is not UTF-8")))
}

/// Hands the traces over one by one, with the names so far.
fn read_strings(input: impl Read, mut take: impl FnMut(&[String], &[u32])) -> Outcome<Names> {
    let mut input = BufReader::with_capacity(1 << 16, input);
    let (mut characters, mut piece, mut trace) = (Characters::new(), Vec::new(), Vec::new());
    let (mut number, mut events) = (0, 0);
    loop {
        piece.clear();
        if input.read_until(b'\n', &mut piece).map_err(read_fault)? == 0 {
            return Ok(characters.names);
        }
        number += 1;
        let line = line_of(&piece, number)?;
        if number > MOST_TRACES {
            return refuse(5, format!("more than {MOST_TRACES} traces"));
        }
        characters.line(text_of(line, number)?, &mut trace);
        events += trace.len() as u64;
        if events > MOST_EVENTS {
            return refuse(5, format!("more than {MOST_EVENTS} events"));
        }
        if characters.names.len() > MOST_ACTIVITIES {
            return refuse(5, format!("more than {MOST_ACTIVITIES} activities"));
        }
        take(&characters.names, &trace);
    }
}

// CSV logs

/// Records of CSV: fields between commas, which quotes may stand around; line ends between records are passed over.
struct Records<'a> {
    data: &'a [u8],
    place: usize,
}

impl<'a> Records<'a> {
    fn plain(&mut self) -> &'a [u8] {
        let rest = &self.data[self.place..];
        let length = rest.iter().position(|byte| matches!(byte, b',' | b'\n' | b'\r')).unwrap_or(rest.len());
        self.place += length;
        &rest[..length]
    }

    fn field(&mut self) -> Cow<'a, [u8]> {
        if self.data.get(self.place) != Some(&b'"') {
            return Cow::Borrowed(self.plain());
        }
        self.place += 1;
        let mut field = Cow::Borrowed(&[][..]);
        loop {
            let rest = &self.data[self.place..];
            let length = rest.iter().position(|byte| *byte == b'"').unwrap_or(rest.len());
            push(&mut field, &rest[..length]);
            self.place = (self.place + length + 1).min(self.data.len());
            if rest.get(length + 1) == Some(&b'"') {
                push(&mut field, b"\"");
                self.place += 1;
            } else {
                if length < rest.len() {
                    push(&mut field, self.plain());
                }
                return field;
            }
        }
    }

    /// The fields of the next record, or false where there is none.
    fn record(&mut self, fields: &mut Vec<Cow<'a, [u8]>>) -> bool {
        fields.clear();
        while let Some(b'\r' | b'\n') = self.data.get(self.place) {
            self.place += 1;
        }
        if self.place == self.data.len() {
            return false;
        }
        fields.push(self.field());
        while self.data.get(self.place) == Some(&b',') {
            self.place += 1;
            fields.push(self.field());
        }
        true
    }
}

/// Puts bytes at the end of a field, which is copied only where it has some already.
fn push<'a>(field: &mut Cow<'a, [u8]>, bytes: &'a [u8]) {
    if field.is_empty() {
        *field = Cow::Borrowed(bytes);
    } else if !bytes.is_empty() {
        field.to_mut().extend_from_slice(bytes);
    }
}

/// 1 to 18 decimal digits, with or without a minus sign.
fn whole_number(value: &[u8]) -> Option<i64> {
    let digits = value.strip_prefix(b"-").unwrap_or(value);
    if digits.is_empty() || digits.len() > 18 || !digits.iter().all(u8::is_ascii_digit) {
        return None;
    }
    let number = digits.iter().fold(0, |number, digit| number * 10 + i64::from(digit - b'0'));
    Some(if digits.len() < value.len() { -number } else { number })
}

/// What the events of a case are ordered by.
enum OrderValues<'a> {
    None,
    Texts(Vec<Cow<'a, [u8]>>),
    Numbers(Vec<i64>),
}

fn read_csv(mut input: impl Read, words: &Words, mut take: impl FnMut(&[String], &[u32])) -> Outcome<Names> {
    let mut data = Vec::new();
    input.by_ref().take(MOST_CSV_BYTES as u64 + 1).read_to_end(&mut data).map_err(read_fault)?;
    if data.len() > MOST_CSV_BYTES {
        return refuse(5, format!("more than {MOST_CSV_BYTES} bytes"));
    }
    let mut text = &data[..];
    for _ in 0..2 {
        text = text.strip_prefix(b"\xef\xbb\xbf").unwrap_or(text);
    }
    let mut records = Records { data: text, place: 0 };
    let mut fields = Vec::new();
    records.record(&mut fields);
    let mut columns = Vec::new();
    let wanted = [Some(&words.case_column), Some(&words.activity_column), words.order_column.as_ref()];
    for (place, name) in wanted.iter().flatten().enumerate() {
        match fields.iter().position(|field| **field == *name.as_bytes()) {
            Some(column) => columns.push(column),
            None => return refuse(3, format!("no column, place {}", place + 1)),
        }
    }
    let mut values = match (&words.order_column, words.order_as_number) {
        (None, _) => OrderValues::None,
        (Some(_), false) => OrderValues::Texts(Vec::new()),
        (Some(_), true) => OrderValues::Numbers(Vec::new()),
    };
    let mut names = Names::new();
    let mut activities: HashMap<Cow<[u8]>, u32> = HashMap::new();
    let mut cases: HashMap<Cow<[u8]>, u32> = HashMap::new();
    let mut events: Vec<(u32, u32)> = Vec::new();
    let mut number = 1;
    while records.record(&mut fields) {
        number += 1;
        if columns.iter().any(|column| *column >= fields.len()) {
            return refuse(3, format!("record {number} is too short"));
        }
        let (case, activity) = (&fields[columns[0]], &fields[columns[1]]);
        let (Ok(_), Ok(activity_text)) = (std::str::from_utf8(case), std::str::from_utf8(activity)) else {
            return refuse(3, format!("record {number} is not UTF-8"));
        };
        match &mut values {
            OrderValues::None => (),
            OrderValues::Texts(texts) => texts.push(fields[columns[2]].clone()),
            OrderValues::Numbers(numbers) => match whole_number(&fields[columns[2]]) {
                Some(value) => numbers.push(value),
                None => return refuse(3, format!("record {number} has no order number")),
            },
        }
        if events.len() as u64 == MOST_EVENTS {
            return refuse(5, format!("more than {MOST_EVENTS} events"));
        }
        let next = cases.len() as u32;
        let case = *cases.entry(case.clone()).or_insert(next);
        if cases.len() as u64 > MOST_TRACES {
            return refuse(5, format!("more than {MOST_TRACES} traces"));
        }
        let activity = match activities.get(activity) {
            Some(known) => *known,
            None if names.len() == MOST_ACTIVITIES => {
                return refuse(5, format!("more than {MOST_ACTIVITIES} activities"));
            }
            None => {
                names.push(activity_text.to_string());
                activities.insert(activity.clone(), names.len() as u32 - 1);
                names.len() as u32 - 1
            }
        };
        events.push((case, activity));
    }
    let (starts, mut places) = by_cases(&events, cases.len());
    let mut trace = Vec::new();
    for case in starts.windows(2) {
        let places = &mut places[case[0] as usize..case[1] as usize];
        match &values {
            OrderValues::None => (),
            OrderValues::Texts(texts) => places.sort_by_key(|place| &texts[*place as usize]),
            OrderValues::Numbers(numbers) => places.sort_by_key(|place| numbers[*place as usize]),
        }
        trace.clear();
        trace.extend(places.iter().map(|place| events[*place as usize].1));
        take(&names, &trace);
    }
    Ok(names)
}

/// The places of the events, put by cases; and where each case starts among them, and the last one ends.
fn by_cases(events: &[(u32, u32)], cases: usize) -> (Vec<u32>, Vec<u32>) {
    let mut starts = vec![0; cases + 1];
    for (case, _) in events {
        starts[*case as usize + 1] += 1;
    }
    for case in 0..cases {
        starts[case + 1] += starts[case];
    }
    let mut ends = starts.clone();
    let mut places = vec![0; events.len()];
    for (place, (case, _)) in events.iter().enumerate() {
        let end = &mut ends[*case as usize];
        places[*end as usize] = place as u32;
        *end += 1;
    }
    (starts, places)
}

fn open(name: &str) -> Outcome<Box<dyn Read>> {
    if name == "-" {
        return Ok(Box::new(io::stdin().lock()));
    }
    Ok(Box::new(File::open(name).map_err(read_fault)?))
}

/// Hands the traces of the log over one by one, and gives the names by their numbers.
fn read_log(words: &Words, take: impl FnMut(&[String], &[u32])) -> Outcome<Names> {
    let input = open(&words.log)?;
    if words.csv {
        read_csv(input, words, take)
    } else {
        read_strings(input, take)
    }
}

/// The log's counters, its names in the order of their bytes, and the numbers that the counters have for them.
fn count_log(words: &Words) -> Outcome<(Counters, Names, Vec<u32>)> {
    let mut counters = Counters::default();
    let mut names = read_log(words, |names, trace| {
        counters.grow(names.len());
        counters.trace(trace);
    })?;
    let mut numbers: Vec<u32> = (0..names.len() as u32).collect();
    numbers.sort_by_key(|number| &names[*number as usize]);
    names.sort();
    Ok((counters, names, numbers))
}

// Scores

/// A fraction in lowest terms.
#[derive(Clone, Copy)]
struct Fraction {
    numerator: u64,
    denominator: u64,
}

impl Fraction {
    fn new(numerator: u64, denominator: u64) -> Fraction {
        let (mut greater, mut less) = (denominator, numerator);
        while less != 0 {
            (greater, less) = (less, greater % less);
        }
        Fraction { numerator: numerator / greater, denominator: denominator / greater }
    }

    fn compare(&self, other: &Fraction) -> Ordering {
        let own = u128::from(self.numerator) * u128::from(other.denominator);
        own.cmp(&(u128::from(other.numerator) * u128::from(self.denominator)))
    }
}

/// Whether a fraction reaches a threshold in millionths.
fn reaches(numerator: u128, denominator: u128, millionths: u64) -> bool {
    numerator * 1_000_000 >= u128::from(millionths) * denominator
}

struct Candidate {
    constraint: Constraint,
    support: Fraction,
    confidence: Fraction,
    interest: Fraction,
}

impl Candidate {
    fn priority(&self, other: &Candidate) -> Ordering {
        let place = |each: &Candidate| (each.constraint.template.number(), each.constraint.a, each.constraint.b);
        (other.support.compare(&self.support))
            .then_with(|| other.confidence.compare(&self.confidence))
            .then_with(|| other.interest.compare(&self.interest))
            .then_with(|| place(self).cmp(&place(other)))
    }
}

/// The numbers of a constraint over a log: activated, fulfilled, and the traces for confidence and for interest.
struct Numbers {
    activated: u64,
    fulfilled: u64,
    traces: u64,
    targets: u64,
}

fn numbers_of_one(template: Template, unary: &Unary, traces: u64) -> Numbers {
    let exact = |from: u8, to: u8| unary.exact[from as usize - 1..to as usize].iter().sum::<u64>();
    let fulfilled = match template {
        Init => unary.first,
        End => unary.last,
        Participation => unary.traces,
        AtMostOne => traces - unary.repeated,
        Exactly(count) => exact(count, count),
        AtLeast(count) => unary.traces - exact(1, count - 1),
        AtMost(count) => traces - unary.traces + exact(1, count),
        _ => unreachable!("a template of two activities"),
    };
    Numbers { activated: traces, fulfilled, traces, targets: unary.traces }
}

/// Both activities, and the counters of the pair in both orders.
struct Both<'a> {
    a: &'a Unary,
    b: &'a Unary,
    ab: Pair,
    ba: Pair,
}

fn numbers_of_two(template: Template, both: &Both) -> Numbers {
    let Both { a, b, ab, ba } = both;
    let (at_a, at_b) = match template {
        ChainSuccession => (ab.next, ba.previous),
        AlternateSuccession => {
            (a.occurrences - ab.no_later - ab.rep_later, b.occurrences - ba.no_earlier - ba.rep_earlier)
        }
        Succession => (a.occurrences - ab.no_later, b.occurrences - ba.no_earlier),
        CoExistence => (a.occurrences - ab.without, b.occurrences - ba.without),
        ChainResponse => (ab.next, 0),
        AlternateResponse => (a.occurrences - ab.no_later - ab.rep_later, 0),
        Response => (a.occurrences - ab.no_later, 0),
        ChainPrecedence => (0, ba.previous),
        AlternatePrecedence => (0, b.occurrences - ba.no_earlier - ba.rep_earlier),
        Precedence => (0, b.occurrences - ba.no_earlier),
        RespondedExistence => (a.occurrences - ab.without, 0),
        NotCoExistence => (ab.without, ba.without),
        NotSuccession => (ab.no_later, ba.no_earlier),
        NotChainSuccession => (a.occurrences - ab.next, b.occurrences - ba.previous),
        NotRespondedExistence => (ab.without, 0),
        NotResponse => (ab.no_later, 0),
        NotPrecedence => (0, ba.no_earlier),
        NotChainResponse => (a.occurrences - ab.next, 0),
        NotChainPrecedence => (0, b.occurrences - ba.previous),
        _ => unreachable!("a template of one activity"),
    };
    let fulfilled = at_a + at_b;
    match template.group() {
        Group::ByFirst => Numbers { activated: a.occurrences, fulfilled, traces: a.traces, targets: b.traces },
        Group::BySecond => Numbers { activated: b.occurrences, fulfilled, traces: b.traces, targets: a.traces },
        _ => Numbers {
            activated: a.occurrences + b.occurrences,
            fulfilled,
            traces: a.traces + b.traces - ab.together,
            targets: a.traces.min(b.traces),
        },
    }
}

/// Those that reach the thresholds: kept while they are within the limit, and counted beyond it.
struct Reaching<'a> {
    words: &'a Words,
    traces: u64,
    count: usize,
    found: Vec<Candidate>,
}

impl Reaching<'_> {
    fn put(&mut self, constraint: Constraint, numbers: &Numbers) {
        let all = self.traces;
        let (fulfilled, activated) = (numbers.fulfilled, numbers.activated);
        if !reaches(fulfilled.into(), activated.into(), self.words.support) {
            return;
        }
        let confident = u128::from(fulfilled * numbers.traces);
        let of_traces = u128::from(activated) * u128::from(all);
        if !reaches(confident, of_traces, self.words.confidence) {
            return;
        }
        let interesting = confident * u128::from(numbers.targets);
        if !reaches(interesting, of_traces * u128::from(all), self.words.interest) {
            return;
        }
        self.count += 1;
        if self.count <= MOST_CANDIDATES {
            self.found.push(Candidate {
                constraint,
                support: Fraction::new(fulfilled, activated),
                confidence: Fraction::new(fulfilled * numbers.traces, activated * all),
                interest: Fraction::new(fulfilled * numbers.traces * numbers.targets, activated * all * all),
            });
        }
    }
}

/// The candidates in the order of priority.
fn candidates(words: &Words, counters: &Counters, numbers: &[u32]) -> Outcome<Vec<Candidate>> {
    let templates = mined_templates(words.repertoire);
    let (of_two, of_one): (Vec<Template>, Vec<Template>) = templates.iter().partition(|each| each.has_two());
    let mut reaching = Reaching { words, traces: counters.traces, count: 0, found: Vec::new() };
    for (a, number) in numbers.iter().enumerate() {
        for template in &of_one {
            let constraint = Constraint { template: *template, a: a as u32, b: NONE };
            let unary = &counters.unary[*number as usize];
            reaching.put(constraint, &numbers_of_one(*template, unary, counters.traces));
        }
    }
    for a in 0..numbers.len() {
        for b in a + 1..numbers.len() {
            let (first, second) = (numbers[a], numbers[b]);
            let (ab, ba) = (counters.pair(first, second), counters.pair(second, first));
            let (one, other) = (&counters.unary[first as usize], &counters.unary[second as usize]);
            let (a, b) = (a as u32, b as u32);
            let both = Both { a: one, b: other, ab, ba };
            let turned = Both { a: other, b: one, ab: ba, ba: ab };
            for template in &of_two {
                reaching.put(Constraint { template: *template, a, b }, &numbers_of_two(*template, &both));
                if !template.is_symmetric() {
                    let constraint = Constraint { template: *template, a: b, b: a };
                    reaching.put(constraint, &numbers_of_two(*template, &turned));
                }
            }
        }
    }
    if reaching.count > MOST_CANDIDATES {
        return refuse(5, format!("{} constraints are too many", reaching.count));
    }
    let mut found = reaching.found;
    found.sort_unstable_by(Candidate::priority);
    Ok(found)
}

// Automata

/// An automaton whose start is state 0. Symbols of one column lead alike; columns stand in the order of their least symbols.
#[derive(Clone)]
struct Automaton {
    columns: Vec<u32>,
    least_symbols: Vec<u32>,
    /// By state and column.
    next: Vec<u32>,
    accepting: Vec<bool>,
}

/// A product with a constraint's table, and whether some trace that the automaton accepts keeps the constraint, or breaks it.
struct Product {
    automaton: Automaton,
    keeps: bool,
    breaks: bool,
}

/// A column of a product: the automaton's own, the class of its events, and its least symbol.
struct Parted {
    column: usize,
    class: usize,
    symbol: u32,
}

impl Automaton {
    fn everything(symbols: usize) -> Automaton {
        Automaton {
            columns: vec![0; symbols],
            least_symbols: vec![0; symbols.min(1)],
            next: vec![0; symbols.min(1)],
            accepting: vec![true],
        }
    }

    fn states(&self) -> usize {
        self.accepting.len()
    }

    fn width(&self) -> usize {
        self.least_symbols.len()
    }

    /// The columns of a product with a constraint, and that of each symbol.
    fn parted(&self, constraint: &Constraint) -> (Vec<Parted>, Vec<u32>) {
        let mut numbers = vec![NONE; self.width() * 3];
        let (mut found, mut columns) = (Vec::new(), Vec::with_capacity(self.columns.len()));
        for (symbol, column) in self.columns.iter().enumerate() {
            let (column, symbol) = (*column as usize, symbol as u32);
            let class = constraint.class(symbol);
            let number = &mut numbers[column * 3 + class];
            if *number == NONE {
                *number = found.len() as u32;
                found.push(Parted { column, class, symbol });
            }
            columns.push(*number);
        }
        (found, columns)
    }

    fn product(&self, constraint: &Constraint, table: &Table) -> Product {
        let (parted, columns) = self.parted(constraint);
        let table_states = table.accepting.len();
        let mut numbers = vec![NONE; self.states() * table_states];
        let (mut pairs, mut next) = (vec![(0, 0)], Vec::new());
        let (mut accepting, mut keeps, mut breaks) = (Vec::new(), false, false);
        numbers[0] = 0;
        let mut place = 0;
        while place < pairs.len() {
            let (state, other): (u32, u8) = pairs[place];
            let (own, both) = (self.accepting[state as usize], table.accepting[other as usize]);
            keeps |= own && both;
            breaks |= own && !both;
            accepting.push(own && both);
            let row = &self.next[state as usize * self.width()..][..self.width()];
            for each in &parted {
                let pair = (row[each.column], table.next[other as usize][each.class]);
                let number = &mut numbers[pair.0 as usize * table_states + pair.1 as usize];
                if *number == NONE {
                    *number = pairs.len() as u32;
                    pairs.push(pair);
                }
                next.push(*number);
            }
            place += 1;
        }
        let least_symbols = parted.iter().map(|each| each.symbol).collect();
        Product { automaton: Automaton { columns, least_symbols, next, accepting }, keeps, breaks }
    }

    /// The least trace that is accepted and breaks the constraint.
    fn first_broken(&self, constraint: &Constraint, table: &Table) -> Option<Vec<u32>> {
        let (parted, _) = self.parted(constraint);
        let table_states = table.accepting.len();
        let mut met = vec![false; self.states() * table_states];
        // Each with the place of the one before it, and the symbol that leads from there.
        let mut pairs: Vec<(u32, u8, u32, u32)> = vec![(0, 0, NONE, NONE)];
        met[0] = true;
        let mut place = 0;
        while place < pairs.len() {
            let (state, other, _, _) = pairs[place];
            if self.accepting[state as usize] && !table.accepting[other as usize] {
                return Some(way_back(place, |place| (pairs[place].2, pairs[place].3)));
            }
            let row = &self.next[state as usize * self.width()..][..self.width()];
            for each in &parted {
                let (to, to_other) = (row[each.column], table.next[other as usize][each.class]);
                let met = &mut met[to as usize * table_states + to_other as usize];
                if !*met {
                    *met = true;
                    pairs.push((to, to_other, place as u32, each.symbol));
                }
            }
            place += 1;
        }
        None
    }

    /// The least trace that is accepted.
    fn first_accepted(&self) -> Option<Vec<u32>> {
        let mut met = vec![false; self.states()];
        let mut states = vec![(0, NONE, NONE)];
        met[0] = true;
        let mut place = 0;
        while place < states.len() {
            let state: usize = states[place].0;
            if self.accepting[state] {
                return Some(way_back(place, |place| (states[place].1, states[place].2)));
            }
            for (column, symbol) in self.least_symbols.iter().enumerate() {
                let to = self.next[state * self.width() + column] as usize;
                if !met[to] {
                    met[to] = true;
                    states.push((to, place as u32, *symbol));
                }
            }
            place += 1;
        }
        None
    }

    /// The least automaton of the same traces, where all states are reached.
    fn least(&self) -> Automaton {
        let classes = Partition::of(self).refined(self);
        let mut members = vec![NONE; classes.count()];
        for (state, class) in classes.class.iter().enumerate() {
            members[*class as usize] = state as u32;
        }
        // The columns that lead alike from one state of each class.
        let mut alike: HashMap<Vec<u32>, u32> = HashMap::new();
        let (mut merged, mut kept) = (Vec::new(), Vec::new());
        for column in 0..self.width() {
            let to = |state: &u32| classes.class[self.next[*state as usize * self.width() + column] as usize];
            let number = *alike.entry(members.iter().map(to).collect()).or_insert(kept.len() as u32);
            if number as usize == kept.len() {
                kept.push(column);
            }
            merged.push(number);
        }
        let start = classes.class[0];
        let mut numbers = vec![NONE; classes.count()];
        let (mut order, mut next, mut accepting) = (vec![start], Vec::new(), Vec::new());
        numbers[start as usize] = 0;
        let mut place = 0;
        while place < order.len() {
            let state = members[order[place] as usize] as usize;
            accepting.push(self.accepting[state]);
            for column in &kept {
                let to = classes.class[self.next[state * self.width() + column] as usize];
                if numbers[to as usize] == NONE {
                    numbers[to as usize] = order.len() as u32;
                    order.push(to);
                }
                next.push(numbers[to as usize]);
            }
            place += 1;
        }
        Automaton {
            columns: self.columns.iter().map(|column| merged[*column as usize]).collect(),
            least_symbols: kept.iter().map(|column| self.least_symbols[*column]).collect(),
            next,
            accepting,
        }
    }
}

/// The symbols that lead to a place of a search, given the one before each and the symbol from there.
fn way_back(mut place: usize, before: impl Fn(usize) -> (u32, u32)) -> Vec<u32> {
    let mut trace = Vec::new();
    while before(place).0 != NONE {
        trace.push(before(place).1);
        place = before(place).0 as usize;
    }
    trace.reverse();
    trace
}

/// States in classes: each class is a range of the places, and its marked states stand first in it.
struct Partition {
    states: Vec<u32>,
    place: Vec<u32>,
    class: Vec<u32>,
    starts: Vec<u32>,
    ends: Vec<u32>,
    marked: Vec<u32>,
}

impl Partition {
    /// The accepting states and the others.
    fn of(automaton: &Automaton) -> Partition {
        let count = automaton.states() as u32;
        let mut states: Vec<u32> = (0..count).collect();
        states.sort_by_key(|state| automaton.accepting[*state as usize]);
        let mut place = vec![0; states.len()];
        for (at, state) in states.iter().enumerate() {
            place[*state as usize] = at as u32;
        }
        let rejecting = automaton.accepting.iter().filter(|accepts| !**accepts).count() as u32;
        let mut found = Partition {
            states,
            place,
            class: vec![0; count as usize],
            starts: vec![0],
            ends: vec![count],
            marked: vec![0],
        };
        if rejecting != 0 && rejecting != count {
            found.cut(0, rejecting);
        }
        found
    }

    fn count(&self) -> usize {
        self.starts.len()
    }

    /// Makes a new class of the last or the first part of a class, whichever is smaller.
    fn cut(&mut self, class: usize, at: u32) -> usize {
        let new = self.count();
        let (start, end) = (self.starts[class], self.ends[class]);
        let (from, to) = if at - start <= end - at { (start, at) } else { (at, end) };
        if from == start {
            self.starts[class] = at;
        } else {
            self.ends[class] = at;
        }
        self.starts.push(from);
        self.ends.push(to);
        self.marked.push(0);
        for place in from..to {
            self.class[self.states[place as usize] as usize] = new as u32;
        }
        new
    }

    /// Marks a state; its class is put to the touched ones where it is its first.
    fn mark(&mut self, state: u32, touched: &mut Vec<u32>) {
        let class = self.class[state as usize] as usize;
        let (place, to) = (self.place[state as usize], self.starts[class] + self.marked[class]);
        if self.marked[class] == 0 {
            touched.push(class as u32);
        }
        self.marked[class] += 1;
        let other = self.states[to as usize];
        self.states.swap(place as usize, to as usize);
        self.place[state as usize] = to;
        self.place[other as usize] = place;
    }

    /// Splits classes, after Hopcroft, until all states of one lead into one by each column.
    fn refined(mut self, automaton: &Automaton) -> Partition {
        let sources = Sources::of(automaton);
        let mut waiting: Vec<u32> = vec![self.count() as u32 - 1];
        let (mut touched, mut members) = (Vec::new(), Vec::new());
        while let Some(splitter) = waiting.pop() {
            let range = self.starts[splitter as usize] as usize..self.ends[splitter as usize] as usize;
            members.clear();
            members.extend_from_slice(&self.states[range]);
            for column in 0..automaton.width() {
                for member in &members {
                    for source in sources.leading(column, *member) {
                        self.mark(*source, &mut touched);
                    }
                }
                for class in touched.drain(..) {
                    let class = class as usize;
                    let at = self.starts[class] + std::mem::take(&mut self.marked[class]);
                    if at == self.ends[class] {
                        continue;
                    }
                    // The new class is the smaller part: whether or not the other one waits, it has to.
                    waiting.push(self.cut(class, at) as u32);
                }
            }
        }
        self
    }
}

/// For each column and state the states that the column leads into it.
struct Sources {
    count: usize,
    starts: Vec<u32>,
    states: Vec<u32>,
}

impl Sources {
    fn of(automaton: &Automaton) -> Sources {
        let (count, width) = (automaton.states(), automaton.width());
        let mut starts = vec![0; count * width + 1];
        for row in automaton.next.chunks_exact(width.max(1)) {
            for (column, to) in row.iter().enumerate() {
                starts[column * count + *to as usize + 1] += 1;
            }
        }
        for place in 0..count * width {
            starts[place + 1] += starts[place];
        }
        let mut ends = starts.clone();
        let mut states = vec![0; count * width];
        for (state, row) in automaton.next.chunks_exact(width.max(1)).enumerate() {
            for (column, to) in row.iter().enumerate() {
                let end = &mut ends[column * count + *to as usize];
                states[*end as usize] = state as u32;
                *end += 1;
            }
        }
        Sources { count, starts, states }
    }

    fn leading(&self, column: usize, state: u32) -> &[u32] {
        let at = column * self.count + state as usize;
        &self.states[self.starts[at] as usize..self.starts[at + 1] as usize]
    }
}

// Lists of constraints

/// The traces that keep a list, as an automaton that need not be least: `least` is how many states it had when it last was.
#[derive(Clone)]
struct List {
    automaton: Automaton,
    least: usize,
}

/// What comes of a list when a constraint joins it.
enum Joined {
    /// The list implies it: the traces are the same.
    Implied,
    /// No trace keeps all.
    Empty,
    /// The list tells too many traces apart.
    Wide,
    List(Rc<List>),
}

/// What is asked of lists: the tables of the templates, by their numbers, and how many traces may be told apart.
struct Lists {
    tables: Vec<Table>,
    symbols: usize,
    states: usize,
}

impl Lists {
    fn new(symbols: usize, states: usize) -> Lists {
        Lists { tables: all_templates().into_iter().map(Template::table).collect(), symbols, states }
    }

    fn table(&self, constraint: &Constraint) -> &Table {
        &self.tables[constraint.template.number() as usize - 1]
    }

    fn empty(&self) -> Rc<List> {
        Rc::new(List { automaton: Automaton::everything(self.symbols), least: 1 })
    }

    fn join(&self, list: &List, constraint: &Constraint) -> Joined {
        let product = list.automaton.product(constraint, self.table(constraint));
        if !product.breaks {
            return Joined::Implied;
        }
        if !product.keeps {
            return Joined::Empty;
        }
        let states = product.automaton.states();
        // Making it least costs more than a few states too many do.
        if states <= 2 * list.least && states <= self.states {
            return Joined::List(Rc::new(List { automaton: product.automaton, least: list.least }));
        }
        let automaton = product.automaton.least();
        let least = automaton.states();
        if least > self.states {
            Joined::Wide
        } else {
            Joined::List(Rc::new(List { automaton, least }))
        }
    }

    /// The list with others behind it, of which it already has `length`; or the length of the first prefix that is wide.
    fn extend<'a>(
        &self,
        list: &Rc<List>,
        length: usize,
        others: impl Iterator<Item = &'a Constraint>,
    ) -> Result<Rc<List>, usize> {
        let mut found = Rc::clone(list);
        for (more, constraint) in others.enumerate() {
            match self.join(&found, constraint) {
                Joined::Implied => (),
                Joined::List(list) => found = list,
                Joined::Wide => return Err(length + more + 1),
                Joined::Empty => unreachable!("some trace keeps the conflict-free model"),
            }
        }
        Ok(found)
    }

    /// The least trace that keeps the list and breaks the constraint.
    fn first_broken(&self, list: &List, constraint: &Constraint) -> Option<Vec<u32>> {
        list.automaton.first_broken(constraint, self.table(constraint))
    }
}

// The reduction

/// What becomes of a candidate.
enum Mark {
    Kept(Vec<u32>),
    Untested,
    Conflict,
    Beyond,
    Weaker(usize),
    FirstPass,
    SecondPass,
}

struct Reduction {
    marks: Vec<Mark>,
    example: Vec<u32>,
}

impl Mark {
    fn is_in_model(&self) -> bool {
        matches!(self, Mark::Kept(_) | Mark::Untested)
    }
}

/// The limit on states as it is asked: whether a wide list refuses the run, or is passed by.
struct Reducing<'a> {
    lists: Lists,
    keep: bool,
    constraints: &'a [Constraint],
    marks: Vec<Mark>,
}

impl Reducing<'_> {
    fn at<'b>(&'b self, places: &'b [usize]) -> impl Iterator<Item = &'b Constraint> {
        places.iter().map(move |place| &self.constraints[*place])
    }

    /// A wide list refuses the run, unless it is to go on.
    fn wide(&self, phase: u8, length: usize) -> Outcome<()> {
        if self.keep {
            Ok(())
        } else {
            too_many_states(phase, length)
        }
    }

    /// Marks what conflicts with those kept before it. Gives the conflict-free model.
    fn sift(&mut self) -> Outcome<Rc<List>> {
        let (mut list, mut length) = (self.lists.empty(), 0);
        for constraint in self.constraints {
            let mark = match self.lists.join(&list, constraint) {
                Joined::Empty => Mark::Conflict,
                Joined::Wide => {
                    self.wide(1, length + 1)?;
                    Mark::Beyond
                }
                Joined::Implied => Mark::Kept(Vec::new()),
                Joined::List(joined) => {
                    list = joined;
                    Mark::Kept(Vec::new())
                }
            };
            length += usize::from(mark.is_in_model());
            self.marks.push(mark);
        }
        Ok(list)
    }

    fn standing(&self) -> Vec<usize> {
        (0..self.marks.len()).filter(|place| self.marks[*place].is_in_model()).collect()
    }

    /// Marks those that a constraint of the model is above.
    fn prune(&mut self) {
        let standing = self.standing();
        let places: HashMap<Constraint, usize> =
            standing.iter().map(|place| (self.constraints[*place], *place)).collect();
        let below: Vec<_> = all_templates().into_iter().map(Template::below).collect();
        for place in standing {
            let above = &self.constraints[place];
            for (template, turned) in &below[above.template.number() as usize - 1] {
                if let Some(lower) = places.get(&above.with(*template, *turned)) {
                    if self.marks[*lower].is_in_model() {
                        self.marks[*lower] = Mark::Weaker(place);
                    }
                }
            }
        }
    }

    /// Marks those that the ones left before them imply. Gives the lists of the first of what is left, while none is wide.
    fn first_pass(&mut self) -> Outcome<Vec<Rc<List>>> {
        let (mut prefixes, mut basis) = (Vec::new(), self.lists.empty());
        let (mut length, mut is_wide) = (0, false);
        for place in self.standing() {
            let joined = self.lists.join(&basis, &self.constraints[place]);
            if let Joined::Implied = joined {
                self.marks[place] = Mark::FirstPass;
                continue;
            }
            if !is_wide {
                prefixes.push(Rc::clone(&basis));
            }
            length += 1;
            if let Joined::List(list) = joined {
                basis = list;
            } else {
                self.wide(2, length)?;
                is_wide = true;
            }
        }
        Ok(prefixes)
    }

    /// Marks, from the last to the first, those that the others imply which still stand. Gives the places of the model
    /// and how many of them, from the first, have their witness, or are untested, for good.
    fn second_pass(&mut self, prefixes: &[Rc<List>]) -> Outcome<(Vec<usize>, usize)> {
        let left = self.standing();
        let (mut behind, mut done) = (Vec::new(), left.len());
        for (place, at) in left.iter().enumerate().rev() {
            let constraint = &self.constraints[*at];
            let others: Vec<usize> = behind.iter().rev().copied().collect();
            let list =
                prefixes.get(place).map_or(Err(place), |prefix| self.lists.extend(prefix, place, self.at(&others)));
            self.marks[*at] = match list {
                Err(length) => {
                    self.wide(3, length)?;
                    Mark::Untested
                }
                Ok(list) => match self.lists.first_broken(&list, constraint) {
                    Some(trace) => Mark::Kept(trace),
                    None => Mark::SecondPass,
                },
            };
            if self.marks[*at].is_in_model() {
                behind.push(*at);
            } else {
                done = place;
            }
        }
        behind.reverse();
        Ok((behind, done))
    }

    /// Finds the witnesses of the model behind the first ones, which are done. `prefix` is the list of these.
    fn witnesses(&mut self, model: &[usize], done: usize, prefix: Option<&Rc<List>>) -> Outcome<()> {
        let mut prefix = prefix.cloned();
        for (place, at) in model.iter().enumerate().skip(done) {
            let list = prefix
                .as_ref()
                .map_or(Err(place), |prefix| self.lists.extend(prefix, place, self.at(&model[place + 1..])));
            match list {
                Err(length) => {
                    self.wide(4, length)?;
                    self.marks[*at] = Mark::Untested;
                }
                Ok(list) => {
                    if let Mark::Kept(witness) = &mut self.marks[*at] {
                        let found = self.lists.first_broken(&list, &self.constraints[*at]);
                        *witness = found.expect("the others don't imply it");
                    }
                }
            }
            prefix = prefix.and_then(|prefix| self.lists.extend(&prefix, place, self.at(&model[place..=place])).ok());
            if prefix.is_none() && place + 1 < model.len() {
                self.wide(4, place + 1)?;
            }
        }
        Ok(())
    }
}

fn reduce(words: &Words, symbols: usize, constraints: &[Constraint]) -> Outcome<Reduction> {
    let lists = Lists::new(symbols, words.max_states);
    let mut reducing = Reducing { lists, keep: words.keep, constraints, marks: Vec::new() };
    let list = reducing.sift()?;
    let example = list.automaton.first_accepted().expect("some trace keeps the conflict-free model");
    if words.stage == Stage::Model {
        reducing.prune();
        let prefixes = reducing.first_pass()?;
        let (model, done) = reducing.second_pass(&prefixes)?;
        reducing.witnesses(&model, done, prefixes.get(done))?;
    }
    Ok(Reduction { marks: reducing.marks, example })
}

// What is printed

/// A text as JSON.
fn quoted(text: &str) -> String {
    let mut found = String::from("\"");
    for character in text.chars() {
        match character {
            '"' => found.push_str("\\\""),
            '\\' => found.push_str("\\\\"),
            '\u{8}' => found.push_str("\\b"),
            '\u{c}' => found.push_str("\\f"),
            '\n' => found.push_str("\\n"),
            '\r' => found.push_str("\\r"),
            '\t' => found.push_str("\\t"),
            '\0'..='\u{1f}' => found.push_str(&format!("\\u{:04x}", character as u32)),
            other => found.push(other),
        }
    }
    found.push('"');
    found
}

/// What is put on standard output.
type Out<'a> = BufWriter<io::StdoutLock<'a>>;

/// Prints constraints and traces, with the names as JSON texts.
struct Printer<'a, 'b> {
    out: &'a mut Out<'b>,
    names: Vec<String>,
}

impl<'a, 'b> Printer<'a, 'b> {
    fn new(out: &'a mut Out<'b>, names: &[String]) -> Printer<'a, 'b> {
        Printer { out, names: names.iter().map(|name| quoted(name)).collect() }
    }

    fn trace(&mut self, trace: &[u32]) -> io::Result<()> {
        self.out.write_all(b"[")?;
        for (place, symbol) in trace.iter().enumerate() {
            let comma = if place == 0 { "" } else { "," };
            write!(self.out, "{comma}{}", self.names[*symbol as usize])?;
        }
        self.out.write_all(b"]")
    }

    /// The members `parameters` and, behind others, `template`.
    fn constraint(&mut self, constraint: &Constraint, between: &str) -> io::Result<()> {
        write!(self.out, "\"parameters\":[[{}]", self.names[constraint.a as usize])?;
        if constraint.b != NONE {
            write!(self.out, ",[{}]", self.names[constraint.b as usize])?;
        }
        write!(self.out, "],{between}\"template\":\"{}\"", constraint.template.name())
    }

    /// A candidate's members but for the first and the last ones.
    fn scored(&mut self, candidate: &Candidate) -> io::Result<()> {
        let score = |score: &Fraction| format!("[{},{}]", score.numerator, score.denominator);
        let (confidence, interest) = (score(&candidate.confidence), score(&candidate.interest));
        write!(self.out, "\"confidence\":{confidence},\"interest\":{interest},")?;
        self.constraint(&candidate.constraint, &format!("\"support\":{},", score(&candidate.support)))
    }

    fn listed(&mut self, candidate: &Candidate, mark: Option<&Mark>) -> io::Result<()> {
        self.out.write_all(b"{")?;
        self.scored(candidate)?;
        match mark {
            Some(Mark::Kept(witness)) => {
                self.out.write_all(b",\"witness\":")?;
                self.trace(witness)?;
            }
            Some(_) => self.out.write_all(b",\"untested\":true")?,
            None => (),
        }
        self.out.write_all(b"}")
    }

    fn dropped(&mut self, candidates: &[Candidate], place: usize, mark: &Mark) -> io::Result<()> {
        self.out.write_all(b"{")?;
        if let Mark::Weaker(by) = mark {
            self.out.write_all(b"\"by\":{")?;
            self.constraint(&candidates[*by].constraint, "")?;
            self.out.write_all(b"},")?;
        }
        self.scored(&candidates[place])?;
        let why = match mark {
            Mark::Conflict => "conflict",
            Mark::Beyond => "beyond",
            Mark::Weaker(_) => "weaker",
            Mark::FirstPass => "first-pass",
            _ => "second-pass",
        };
        write!(self.out, ",\"why\":\"{why}\"}}")
    }

    fn report(&mut self, words: &Words, mined: &Mined) -> io::Result<()> {
        self.out.write_all(b"{\"constraints\":[")?;
        let mut comma = "";
        for (candidate, mark) in mined.listed() {
            self.out.write_all(comma.as_bytes())?;
            self.listed(candidate, mark.filter(|_| words.stage == Stage::Model))?;
            comma = ",";
        }
        self.out.write_all(b"],")?;
        if let Some(reduction) = &mined.reduction {
            self.out.write_all(b"\"dropped\":[")?;
            comma = "";
            for (place, mark) in reduction.marks.iter().enumerate().filter(|(_, mark)| !mark.is_in_model()) {
                self.out.write_all(comma.as_bytes())?;
                self.dropped(&mined.candidates, place, mark)?;
                comma = ",";
            }
            self.out.write_all(b"],")?;
        }
        write!(self.out, "\"events\":{},", mined.counters.events)?;
        if let Some(reduction) = &mined.reduction {
            self.out.write_all(b"\"example\":")?;
            self.trace(&reduction.example)?;
            self.out.write_all(b",")?;
        }
        let version = if words.repertoire == 2 { ",\"version\":2" } else { "" };
        let (tasks, traces) = (self.names.join(","), mined.counters.traces);
        writeln!(self.out, "\"tasks\":[{tasks}],\"traces\":{traces}{version}}}")
    }

    /// A constraint as tables have it.
    fn written(&self, constraint: &Constraint) -> String {
        let (name, a) = (constraint.template.name(), &self.names[constraint.a as usize]);
        if constraint.b == NONE {
            format!("{name}({a})")
        } else {
            format!("{name}({a},{})", self.names[constraint.b as usize])
        }
    }

    fn model_table(&mut self, words: &Words, mined: &Mined) -> io::Result<()> {
        writeln!(self.out, "{:>12} {:>12} {:>12} constraint", "support", "confidence", "interest")?;
        for (candidate, mark) in mined.listed() {
            for score in [&candidate.support, &candidate.confidence, &candidate.interest] {
                write!(self.out, "{:>12} ", format!("{}/{}", score.numerator, score.denominator))?;
            }
            let constraint = self.written(&candidate.constraint);
            self.out.write_all(constraint.as_bytes())?;
            match mark.filter(|_| words.stage == Stage::Model) {
                Some(Mark::Kept(witness)) => {
                    self.out.write_all(b" ")?;
                    self.trace(witness)?;
                }
                Some(_) => self.out.write_all(b" -")?,
                None => (),
            }
            self.out.write_all(b"\n")?;
        }
        Ok(())
    }

    /// Numbers in columns of 12, each with a space behind it.
    fn columns(&mut self, numbers: &[u64]) -> io::Result<()> {
        for number in numbers {
            // Right in its column by hand: this is most of the work of a large table.
            let mut digits = *b"                        ";
            let (mut start, mut rest) = (23, *number);
            loop {
                start -= 1;
                digits[start] = b'0' + (rest % 10) as u8;
                rest /= 10;
                if rest == 0 {
                    break;
                }
            }
            self.out.write_all(&digits[start.min(11)..])?;
        }
        Ok(())
    }

    fn counters_table(&mut self, counters: &Counters, numbers: &[u32]) -> io::Result<()> {
        writeln!(self.out, "traces {}", counters.traces)?;
        for head in ["occurrences", "traces", "repeated", "first", "last"] {
            write!(self.out, "{head:>12} ")?;
        }
        self.out.write_all(b"activity\n")?;
        for (rank, number) in numbers.iter().enumerate() {
            let one = &counters.unary[*number as usize];
            self.columns(&[one.occurrences, one.traces, one.repeated, one.first, one.last])?;
            writeln!(self.out, "{}", self.names[rank])?;
        }
        let heads = "without no_later no_earlier next previous rep_later rep_earlier together";
        for head in heads.split(' ') {
            write!(self.out, "{head:>12} ")?;
        }
        self.out.write_all(b"pair\n")?;
        for (a, first) in numbers.iter().enumerate() {
            for (b, second) in numbers.iter().enumerate().filter(|(b, _)| *b != a) {
                let pair = counters.pair(*first, *second);
                self.columns(&[pair.without, pair.no_later, pair.no_earlier, pair.next])?;
                self.columns(&[pair.previous, pair.rep_later, pair.rep_earlier, pair.together])?;
                for piece in [&self.names[a], " ", &self.names[b], "\n"] {
                    self.out.write_all(piece.as_bytes())?;
                }
            }
        }
        Ok(())
    }

    fn check_table(&mut self, constraints: &[Constraint], rows: &[Checked]) -> io::Result<()> {
        let heads = ["activated", "fulfilled", "kept", "trace", "place"];
        for head in heads {
            write!(self.out, "{head:>10} ")?;
        }
        self.out.write_all(b"constraint\n")?;
        for (constraint, row) in constraints.iter().zip(rows) {
            write!(self.out, "{:>10} {:>10} {:>10} ", row.activated, row.fulfilled, row.kept)?;
            match row.broken {
                Some((trace, place)) => write!(self.out, "{:>10} {place:>10} ", trace + 1)?,
                None => write!(self.out, "{:>10} {:>10} ", "-", "-")?,
            }
            let constraint = self.written(constraint);
            writeln!(self.out, "{constraint}")?;
        }
        Ok(())
    }
}

// The commands kb and mine

struct Mined {
    counters: Counters,
    candidates: Vec<Candidate>,
    reduction: Option<Reduction>,
}

impl Mined {
    /// The candidates that are listed, with their marks.
    fn listed(&self) -> impl Iterator<Item = (&Candidate, Option<&Mark>)> {
        let mark = move |place: usize| self.reduction.as_ref().map(|reduction| &reduction.marks[place]);
        let marked = self.candidates.iter().enumerate().map(move |(place, candidate)| (candidate, mark(place)));
        marked.filter(|(_, mark)| mark.is_none_or(Mark::is_in_model))
    }
}

fn kb(words: &Words, out: &mut Out) -> Outcome<u8> {
    let (counters, names, numbers) = count_log(words)?;
    Printer::new(out, &names).counters_table(&counters, &numbers).map_err(write_fault)?;
    Ok(0)
}

fn mine(words: &Words, out: &mut Out) -> Outcome<u8> {
    let (counters, names, numbers) = count_log(words)?;
    let candidates = candidates(words, &counters, &numbers)?;
    let reduction = match words.stage {
        Stage::Scores => None,
        _ => {
            let constraints: Vec<Constraint> = candidates.iter().map(|each| each.constraint).collect();
            Some(reduce(words, names.len(), &constraints)?)
        }
    };
    let mined = Mined { counters, candidates, reduction };
    let mut printer = Printer::new(out, &names);
    let printed = if words.table { printer.model_table(words, &mined) } else { printer.report(words, &mined) };
    printed.map_err(write_fault)?;
    Ok(0)
}

// JSON that is read

enum Json {
    Other,
    Whole(i128),
    Text(String),
    List(Vec<Json>),
    Object(HashMap<String, Json>),
}

struct JsonReader<'a> {
    text: &'a str,
    place: usize,
}

/// None stands for a text that is not JSON.
impl JsonReader<'_> {
    fn peek(&self) -> Option<u8> {
        self.text.as_bytes().get(self.place).copied()
    }

    fn takes(&mut self, piece: &str) -> bool {
        let found = self.text[self.place..].starts_with(piece);
        self.place += if found { piece.len() } else { 0 };
        found
    }

    fn spaces(&mut self) {
        while matches!(self.peek(), Some(b' ' | b'\t' | b'\n' | b'\r')) {
            self.place += 1;
        }
    }

    fn value(&mut self, levels: u32) -> Option<Json> {
        self.spaces();
        match self.peek()? {
            b'[' => self.list(levels.checked_sub(1)?),
            b'{' => self.object(levels.checked_sub(1)?),
            b'"' => self.string().map(Json::Text),
            b'-' | b'0'..=b'9' => self.number(),
            _ => (self.takes("null") || self.takes("true") || self.takes("false")).then_some(Json::Other),
        }
    }

    fn list(&mut self, levels: u32) -> Option<Json> {
        self.place += 1;
        let mut found = Vec::new();
        self.spaces();
        if self.takes("]") {
            return Some(Json::List(found));
        }
        loop {
            found.push(self.value(levels)?);
            self.spaces();
            if self.takes("]") {
                return Some(Json::List(found));
            }
            if !self.takes(",") {
                return None;
            }
        }
    }

    fn object(&mut self, levels: u32) -> Option<Json> {
        self.place += 1;
        let mut found = HashMap::new();
        self.spaces();
        if self.takes("}") {
            return Some(Json::Object(found));
        }
        loop {
            self.spaces();
            let name = self.string()?;
            self.spaces();
            if !self.takes(":") {
                return None;
            }
            found.insert(name, self.value(levels)?);
            self.spaces();
            if self.takes("}") {
                return Some(Json::Object(found));
            }
            if !self.takes(",") {
                return None;
            }
        }
    }

    fn string(&mut self) -> Option<String> {
        if !self.takes("\"") {
            return None;
        }
        let mut found = String::new();
        loop {
            let rest = &self.text[self.place..];
            let plain = rest.find(|character| matches!(character, '"' | '\\' | '\0'..='\u{1f}'))?;
            found.push_str(&rest[..plain]);
            self.place += plain + 1;
            match rest.as_bytes()[plain] {
                b'"' => return Some(found),
                b'\\' => found.push(self.escape()?),
                _ => return None,
            }
        }
    }

    fn escape(&mut self) -> Option<char> {
        let letter = self.peek()?;
        self.place += 1;
        Some(match letter {
            b'"' | b'\\' | b'/' => char::from(letter),
            b'b' => '\u{8}',
            b'f' => '\u{c}',
            b'n' => '\n',
            b'r' => '\r',
            b't' => '\t',
            b'u' => {
                let code = self.hex()?;
                if (0xD800..0xDC00).contains(&code) {
                    let low = if self.takes("\\u") { self.hex()? } else { return None };
                    if !(0xDC00..0xE000).contains(&low) {
                        return None;
                    }
                    char::from_u32(0x10000 + (code - 0xD800) * 0x400 + (low - 0xDC00))?
                } else {
                    char::from_u32(code)?
                }
            }
            _ => return None,
        })
    }

    fn hex(&mut self) -> Option<u32> {
        let digits = self.text.get(self.place..self.place + 4)?;
        self.place += 4;
        digits.bytes().all(|byte| byte.is_ascii_hexdigit()).then(|| u32::from_str_radix(digits, 16).ok())?
    }

    fn digits(&mut self) -> Option<()> {
        let start = self.place;
        while matches!(self.peek(), Some(b'0'..=b'9')) {
            self.place += 1;
        }
        (self.place > start).then_some(())
    }

    /// One that is whole fits 64 bits, and isn't -0; one that is too large for a float is no number.
    fn number(&mut self) -> Option<Json> {
        let start = self.place;
        self.takes("-");
        if !self.takes("0") {
            self.digits()?;
        }
        let mut is_whole = true;
        if self.takes(".") {
            self.digits()?;
            is_whole = false;
        }
        if self.takes("e") || self.takes("E") {
            let _ = self.takes("+") || self.takes("-");
            self.digits()?;
            is_whole = false;
        }
        let text = &self.text[start..self.place];
        let whole = text.parse::<i128>().ok();
        let whole = whole.filter(|whole| (i64::MIN.into()..=u64::MAX.into()).contains(whole) && text != "-0");
        if let (Some(whole), true) = (whole, is_whole) {
            return Some(Json::Whole(whole));
        }
        text.parse::<f64>().is_ok_and(f64::is_finite).then_some(Json::Other)
    }
}

impl Json {
    fn read(bytes: &[u8]) -> Option<Json> {
        let mut reader = JsonReader { text: std::str::from_utf8(bytes).ok()?, place: 0 };
        let value = reader.value(127)?;
        reader.spaces();
        (reader.place == reader.text.len()).then_some(value)
    }

    fn list(&self) -> Option<&[Json]> {
        match self {
            Json::List(items) => Some(items),
            _ => None,
        }
    }

    fn text(&self) -> Option<&str> {
        match self {
            Json::Text(text) => Some(text),
            _ => None,
        }
    }

    fn texts(&self) -> Option<Vec<&str>> {
        self.list()?.iter().map(Json::text).collect()
    }

    fn member(&self, name: &str) -> Option<&Json> {
        match self {
            Json::Object(members) => members.get(name),
            _ => None,
        }
    }
}

// Models that are read

struct Model {
    names: Names,
    places: HashMap<String, u32>,
    constraints: Vec<Constraint>,
}

impl Model {
    fn read(name: &str) -> Outcome<Model> {
        let mut bytes = Vec::new();
        open(name)?.take(MOST_MODEL_BYTES as u64 + 1).read_to_end(&mut bytes).map_err(read_fault)?;
        if bytes.len() > MOST_MODEL_BYTES {
            return refuse(5, format!("more than {MOST_MODEL_BYTES} bytes"));
        }
        match Json::read(&bytes) {
            Some(value) => Model::of(&value),
            None => refuse(4, "the model is not JSON".to_string()),
        }
    }

    fn of(value: &Json) -> Outcome<Model> {
        let shape = |at: usize| Refusal { status: 4, line: format!("model shape, constraint {at}") };
        let constraints = value.member("constraints").and_then(Json::list).ok_or_else(|| shape(0))?;
        let tasks = match value.member("tasks") {
            Some(tasks) => tasks.texts().ok_or_else(|| shape(0))?,
            None => Vec::new(),
        };
        let known = match value.member("version") {
            Some(Json::Whole(2)) => all_templates(),
            Some(Json::Whole(version)) if *version != 1 => return Err(shape(0)),
            _ => FIRST_REPERTOIRE.to_vec(),
        };
        let known: HashMap<String, Template> = known.into_iter().map(|each| (each.name(), each)).collect();
        if constraints.len() > MOST_CANDIDATES {
            return refuse(5, format!("{} constraints are too many", constraints.len()));
        }
        let mut model = Model { names: Names::new(), places: HashMap::new(), constraints: Vec::new() };
        for name in tasks {
            model.place(name)?;
        }
        for (place, item) in constraints.iter().enumerate() {
            let at = place + 1;
            let template = item.member("template").and_then(Json::text).ok_or_else(|| shape(at))?;
            let parameters: Option<Vec<Vec<&str>>> = item
                .member("parameters")
                .and_then(Json::list)
                .and_then(|lists| lists.iter().map(Json::texts).collect());
            let parameters = parameters.ok_or_else(|| shape(at))?;
            let Some(template) = known.get(template) else {
                return refuse(4, format!("unknown template, constraint {at}"));
            };
            let arity = if template.has_two() { 2 } else { 1 };
            if parameters.len() != arity || parameters.iter().any(|parameter| parameter.len() != 1) {
                return refuse(4, format!("wrong parameters, constraint {at}"));
            }
            if arity == 2 && parameters[0] == parameters[1] {
                return refuse(4, format!("same parameter twice, constraint {at}"));
            }
            let a = model.place(parameters[0][0])?;
            let b = if arity == 2 { model.place(parameters[1][0])? } else { NONE };
            model.constraints.push(Constraint { template: *template, a, b });
        }
        Ok(model)
    }

    /// The place of a name, which is put behind the others where it is new.
    fn place(&mut self, name: &str) -> Outcome<u32> {
        if let Some(place) = self.places.get(name) {
            return Ok(*place);
        }
        if self.names.len() == MOST_ACTIVITIES {
            return refuse(5, format!("more than {MOST_ACTIVITIES} activities"));
        }
        let place = self.names.len() as u32;
        self.names.push(name.to_string());
        self.places.insert(name.to_string(), place);
        Ok(place)
    }
}

// The command check

/// Where an event of an activity stands.
#[derive(Clone, Copy)]
struct Place {
    trace: u32,
    place: u32,
}

struct Checked {
    activated: u64,
    fulfilled: u64,
    kept: u64,
    broken: Option<(u32, u32)>,
}

/// The places of the events of each activity of the model, and the lengths of the traces.
struct Checking {
    places: Vec<Vec<Place>>,
    lengths: Vec<u32>,
}

impl Checking {
    fn of_one(&self, constraint: &Constraint) -> Checked {
        let places = &self.places[constraint.a as usize];
        let mut row = Checked { activated: self.lengths.len() as u64, fulfilled: 0, kept: 0, broken: None };
        let mut start = 0;
        for (trace, length) in self.lengths.iter().enumerate() {
            let count = places[start..].iter().take_while(|place| place.trace == trace as u32).count();
            let own = &places[start..start + count];
            start += count;
            let keeps = match constraint.template {
                Init => own.first().is_some_and(|first| first.place == 0),
                End => own.last().is_some_and(|last| last.place + 1 == *length),
                Participation => count > 0,
                AtMostOne => count <= 1,
                Exactly(number) => count == number as usize,
                AtLeast(number) => count >= number as usize,
                AtMost(number) => count <= number as usize,
                _ => unreachable!("a template of two activities"),
            };
            if keeps {
                row.kept += 1;
            } else if row.broken.is_none() {
                row.broken = Some((trace as u32, *length));
            }
        }
        row.fulfilled = row.kept;
        row
    }

    /// Goes over the traces that have one of both activities.
    fn of_two(&self, constraint: &Constraint) -> Checked {
        let (mut firsts, mut seconds) =
            (&self.places[constraint.a as usize][..], &self.places[constraint.b as usize][..]);
        let asks = constraint.template.asks();
        let mut row = Checked { activated: 0, fulfilled: 0, kept: self.lengths.len() as u64, broken: None };
        while let Some(trace) = firsts.first().into_iter().chain(seconds.first()).map(|place| place.trace).min() {
            let (first, second);
            (first, firsts) = of_trace(firsts, trace);
            (second, seconds) = of_trace(seconds, trace);
            let broken = check_trace(asks, first, second, &mut row);
            if let Some(place) = broken {
                row.kept -= 1;
                row.broken.get_or_insert((trace, place));
            }
        }
        row
    }
}

/// The places in a trace, which stand first, and those in others.
fn of_trace(places: &[Place], trace: u32) -> (&[Place], &[Place]) {
    let count = places.iter().take_while(|place| place.trace == trace).count();
    places.split_at(count)
}

/// Counts the activated places of a trace and the fulfilled ones. Gives the first that isn't.
fn check_trace(
    (at_first, at_second, negated): (Option<Asks>, Option<Asks>, bool),
    firsts: &[Place],
    seconds: &[Place],
    row: &mut Checked,
) -> Option<u32> {
    let (mut i, mut j, mut broken) = (0, 0, None);
    while i < firsts.len() || j < seconds.len() {
        let is_first = j == seconds.len() || (i < firsts.len() && firsts[i].place < seconds[j].place);
        let (asks, own, at, others, later) =
            if is_first { (at_first, firsts, i, seconds, j) } else { (at_second, seconds, j, firsts, i) };
        if let Some(asks) = asks {
            row.activated += 1;
            if holds(asks, own, at, others, later) != negated {
                row.fulfilled += 1;
            } else if broken.is_none() {
                broken = Some(own[at].place);
            }
        }
        if is_first {
            i += 1;
        } else {
            j += 1;
        }
    }
    broken
}

/// Whether an event of an activity has what it asks of the other activity, whose later events begin at `later`.
fn holds(asks: Asks, own: &[Place], at: usize, others: &[Place], later: usize) -> bool {
    let place = own[at].place;
    match asks {
        Asks::Next => later < others.len() && others[later].place == place + 1,
        Asks::Previous => later > 0 && others[later - 1].place + 1 == place,
        Asks::Later => later < others.len(),
        Asks::Earlier => later > 0,
        Asks::AlternatesLater => {
            later < others.len() && (at + 1 == own.len() || own[at + 1].place > others[later].place)
        }
        Asks::AlternatesEarlier => later > 0 && (at == 0 || own[at - 1].place < others[later - 1].place),
        Asks::Somewhere => !others.is_empty(),
    }
}

fn check(words: &Words, out: &mut Out) -> Outcome<u8> {
    let model = Model::read(&words.model)?;
    let mut checking = Checking { places: vec![Vec::new(); model.names.len()], lengths: Vec::new() };
    // The place in the model of each name of the log so far.
    let mut places: Vec<u32> = Vec::new();
    read_log(words, |names, trace| {
        for name in &names[places.len()..] {
            places.push(model.places.get(name).copied().unwrap_or(NONE));
        }
        let number = checking.lengths.len() as u32;
        checking.lengths.push(trace.len() as u32);
        for (place, event) in trace.iter().enumerate() {
            if let Some(found) = checking.places.get_mut(places[*event as usize] as usize) {
                found.push(Place { trace: number, place: place as u32 });
            }
        }
    })?;
    let row = |constraint: &Constraint| match constraint.b {
        NONE => checking.of_one(constraint),
        _ => checking.of_two(constraint),
    };
    let rows: Vec<Checked> = model.constraints.iter().map(row).collect();
    Printer::new(out, &model.names).check_table(&model.constraints, &rows).map_err(write_fault)?;
    Ok(u8::from(rows.iter().any(|row| row.broken.is_some())))
}

// The command monitor

/// How each running case stands.
struct Monitor {
    names: HashMap<String, u32>,
    whole: Automaton,
    /// The letters of the states of the whole, and of those of each rule.
    letters: Vec<u8>,
    rules: Vec<Rule>,
    cases: HashMap<String, usize>,
    /// By case: its name as JSON, the state of the whole, and those of the rules.
    texts: Vec<String>,
    states: Vec<u32>,
    rule_states: Vec<u8>,
}

struct Rule {
    constraint: Constraint,
    next: Vec<[u8; 3]>,
    letters: Vec<u8>,
}

/// A state of a least automaton that is never left is kept for good, or broken for good.
fn letter(accepts: bool, is_left: bool) -> u8 {
    match (accepts, is_left) {
        (true, false) => b'K',
        (true, true) => b'k',
        (false, true) => b'b',
        (false, false) => b'B',
    }
}

impl Rule {
    fn of(constraint: Constraint) -> Rule {
        let table = constraint.template.table();
        let is_left = |state: usize| table.next[state].iter().any(|to| *to as usize != state);
        let letters =
            table.accepting.iter().enumerate().map(|(state, accepts)| letter(*accepts, is_left(state))).collect();
        Rule { constraint, next: table.next, letters }
    }
}

impl Monitor {
    /// The model over its names in the order of their bytes, and one symbol more for any other name.
    fn new(words: &Words) -> Outcome<Monitor> {
        let model = Model::read(&words.model)?;
        if model.constraints.len() > MOST_WATCHED {
            return refuse(5, format!("{} constraints are too many", model.constraints.len()));
        }
        let mut order: Vec<u32> = (0..model.names.len() as u32).collect();
        order.sort_by_key(|place| &model.names[*place as usize]);
        let mut ranks = vec![0; order.len()];
        for (rank, place) in order.iter().enumerate() {
            ranks[*place as usize] = rank as u32;
        }
        let ranked = |each: &Constraint| Constraint {
            template: each.template,
            a: ranks[each.a as usize],
            b: if each.b == NONE { NONE } else { ranks[each.b as usize] },
        };
        let constraints: Vec<Constraint> = model.constraints.iter().map(ranked).collect();
        let lists = Lists::new(order.len() + 1, words.max_states);
        let mut list = lists.empty();
        for (place, constraint) in constraints.iter().enumerate() {
            match lists.join(&list, constraint) {
                Joined::Implied => (),
                Joined::List(joined) => list = joined,
                Joined::Wide => return too_many_states(5, place + 1),
                Joined::Empty => {
                    // No trace keeps the list: one state that doesn't accept.
                    let nothing = Automaton { accepting: vec![false], ..Automaton::everything(order.len() + 1) };
                    list = Rc::new(List { automaton: nothing, least: 1 });
                }
            }
        }
        let whole = list.automaton.least();
        let is_left = |state: usize| {
            let row = &whole.next[state * whole.width()..][..whole.width()];
            row.iter().any(|to| *to as usize != state)
        };
        let letters =
            whole.accepting.iter().enumerate().map(|(state, accepts)| letter(*accepts, is_left(state))).collect();
        Ok(Monitor {
            names: model.places.into_iter().map(|(name, place)| (name, ranks[place as usize])).collect(),
            letters,
            whole,
            rules: constraints.into_iter().map(Rule::of).collect(),
            cases: HashMap::new(),
            texts: Vec::new(),
            states: Vec::new(),
            rule_states: Vec::new(),
        })
    }

    fn case(&mut self, name: &str) -> Outcome<usize> {
        if let Some(case) = self.cases.get(name) {
            return Ok(*case);
        }
        if self.texts.len() as u64 == MOST_TRACES {
            return refuse(5, format!("more than {MOST_TRACES} traces"));
        }
        let case = self.texts.len();
        self.cases.insert(name.to_string(), case);
        self.texts.push(quoted(name));
        self.states.push(0);
        self.rule_states.extend(std::iter::repeat_n(0, self.rules.len()));
        Ok(case)
    }

    /// Takes a line, and puts its text behind those that wait.
    fn line(&mut self, number: u64, piece: &[u8], waiting: &mut Vec<u8>) -> Outcome<()> {
        let text = text_of(line_of(piece, number)?, number)?;
        let Some((case, name)) = text.split_once('\t') else {
            return refuse(3, format!("line {number} has no tab"));
        };
        if number > MOST_EVENTS {
            return refuse(5, format!("more than {MOST_EVENTS} events"));
        }
        let case = self.case(case)?;
        let symbol = self.names.get(name).copied().unwrap_or(self.names.len() as u32);
        let state = &mut self.states[case];
        let column = self.whole.columns[symbol as usize] as usize;
        *state = self.whole.next[*state as usize * self.whole.width() + column];
        let whole = self.letters[*state as usize];
        write!(waiting, "{number} {} ", self.texts[case]).map_err(write_fault)?;
        waiting.extend([whole, b' ']);
        let states = &mut self.rule_states[case * self.rules.len()..][..self.rules.len()];
        for (state, rule) in states.iter_mut().zip(&self.rules) {
            *state = rule.next[*state as usize][rule.constraint.class(symbol)];
            waiting.push(rule.letters[*state as usize]);
        }
        waiting.extend_from_slice(if self.rules.is_empty() { b"-\n" } else { b"\n" });
        Ok(())
    }
}

/// The texts of the lines that a read gave are written before more is read.
fn monitor(words: &Words, out: &mut Out) -> Outcome<u8> {
    let mut monitor = Monitor::new(words)?;
    let mut log = open(&words.log)?;
    let (mut held, mut piece, mut waiting, mut number) = (Vec::new(), vec![0; 1 << 16], Vec::new(), 0);
    loop {
        let count = log.read(&mut piece).map_err(read_fault)?;
        held.extend_from_slice(&piece[..count]);
        let (mut start, mut ended) = (0, Ok(()));
        while ended.is_ok() && start < held.len() {
            let length = match held[start..].iter().position(|byte| *byte == b'\n') {
                Some(length) => length + 1,
                None if count == 0 => held.len() - start,
                None => break,
            };
            number += 1;
            ended = monitor.line(number, &held[start..start + length], &mut waiting);
            start += length;
        }
        held.drain(..start);
        out.write_all(&waiting).and_then(|()| out.flush()).map_err(write_fault)?;
        waiting.clear();
        ended?;
        if count == 0 {
            return Ok(0);
        }
    }
}

// The words of the command line

#[derive(Clone, Copy, PartialEq, Eq)]
enum Stage {
    Model,
    Consistent,
    Scores,
}

struct Words {
    model: String,
    log: String,
    csv: bool,
    case_column: String,
    activity_column: String,
    order_column: Option<String>,
    order_as_number: bool,
    support: u64,
    confidence: u64,
    interest: u64,
    max_states: usize,
    stage: Stage,
    table: bool,
    repertoire: u8,
    keep: bool,
}

const LOG_OPTIONS: [&str; 5] = ["format", "case-column", "activity-column", "order-column", "order-as"];
const MINE_OPTIONS: [&str; 8] =
    ["support", "confidence", "interest", "max-states", "stage", "out", "repertoire", "on-limit"];

fn usage<T>(place: u8) -> Outcome<T> {
    refuse(2, format!("usage, place {place}"))
}

/// 0 to 1 with at most 6 digits behind the point, in millionths.
fn millionths(text: &str) -> Option<u64> {
    let (whole, digits) = text.split_once('.').unwrap_or((text, "0"));
    if !matches!(whole, "0" | "1")
        || digits.is_empty()
        || digits.len() > 6
        || !digits.bytes().all(|byte| byte.is_ascii_digit())
    {
        return None;
    }
    format!("{whole}{digits:0<6}").parse().ok().filter(|millionths| *millionths <= 1_000_000)
}

fn most_states(text: &str) -> Option<usize> {
    let is_number = (1..=10).contains(&text.len()) && text.bytes().all(|byte| byte.is_ascii_digit());
    text.parse().ok().filter(|states| is_number && (1..=65_536).contains(states))
}

impl Words {
    /// The settings before any option is read.
    fn without_options() -> Words {
        Words {
            model: String::new(),
            log: "-".to_string(),
            csv: false,
            case_column: "case".to_string(),
            activity_column: "activity".to_string(),
            order_column: None,
            order_as_number: false,
            support: 950_000,
            confidence: 250_000,
            interest: 125_000,
            max_states: 16_384,
            stage: Stage::Model,
            table: false,
            repertoire: 1,
            keep: false,
        }
    }

    fn read(command: &str, words: &[String]) -> Outcome<Words> {
        let mut known = Vec::new();
        let mut takes = vec!["log"];
        match command {
            "kb" => known.extend(LOG_OPTIONS),
            "mine" => known.extend(LOG_OPTIONS.iter().chain(&MINE_OPTIONS)),
            "check" => {
                known.extend(LOG_OPTIONS);
                takes.push("model");
            }
            _ => {
                known.push("max-states");
                takes.push("model");
            }
        }
        let mut options: HashMap<&str, &str> = HashMap::new();
        let mut only_places = false;
        let mut words = words.iter();
        while let Some(word) = words.next() {
            let option = word.strip_prefix('-').filter(|rest| !rest.is_empty() && !only_places);
            let (name, value) = match option.map(|rest| rest.strip_prefix('-')) {
                None => (takes.pop(), Some(word.as_str())),
                Some(Some("")) => {
                    only_places = true;
                    continue;
                }
                Some(option) => match option
                    .map_or(("", None), |word| word.split_once('=').map_or((word, None), |(a, b)| (a, Some(b))))
                {
                    (name, value) if known.contains(&name) => {
                        let next =
                            || words.next().map(String::as_str).filter(|next| *next == "-" || !next.starts_with('-'));
                        (Some(name), value.or_else(next))
                    }
                    _ => return usage(1),
                },
            };
            let (Some(name), Some(value)) = (name, value) else { return usage(1) };
            if options.insert(name, value).is_some() {
                return usage(1);
            }
        }
        if takes.contains(&"model") {
            return usage(1);
        }
        let mut found = Words::without_options();
        let fault = options.into_iter().filter_map(|(name, value)| found.set(name, value).err()).min();
        if let Some(place) = fault {
            return usage(place);
        }
        if found.model == "-" && found.log == "-" {
            return usage(17);
        }
        Ok(found)
    }

    /// Sets an option, or gives its place where its value isn't in its grammar.
    fn set(&mut self, name: &str, value: &str) -> Result<(), u8> {
        match name {
            "model" => self.model = value.to_string(),
            "log" => self.log = value.to_string(),
            "format" => self.csv = one_of(value, &[("string", false), ("csv", true)]).ok_or(2)?,
            "case-column" => self.case_column = value.to_string(),
            "activity-column" => self.activity_column = value.to_string(),
            "order-column" => self.order_column = Some(value.to_string()),
            "order-as" => self.order_as_number = one_of(value, &[("text", false), ("number", true)]).ok_or(6)?,
            "support" => self.support = millionths(value).ok_or(7)?,
            "confidence" => self.confidence = millionths(value).ok_or(8)?,
            "interest" => self.interest = millionths(value).ok_or(9)?,
            "max-states" => self.max_states = most_states(value).ok_or(10)?,
            "stage" => {
                let stages = [("model", Stage::Model), ("consistent", Stage::Consistent), ("scores", Stage::Scores)];
                self.stage = one_of(value, &stages).ok_or(11)?;
            }
            "out" => self.table = one_of(value, &[("json", false), ("table", true)]).ok_or(12)?,
            "repertoire" => self.repertoire = one_of(value, &[("1", 1), ("2", 2)]).ok_or(19)?,
            _ => self.keep = one_of(value, &[("stop", false), ("keep", true)]).ok_or(20)?,
        }
        Ok(())
    }
}

fn one_of<T: Copy>(value: &str, meanings: &[(&str, T)]) -> Option<T> {
    meanings.iter().find(|(word, _)| *word == value).map(|(_, meaning)| *meaning)
}

fn run(words: &[String], out: &mut Out) -> Outcome<u8> {
    let Some((command, words)) = words.split_first() else { return usage(0) };
    let run = match command.as_str() {
        "kb" => kb,
        "mine" => mine,
        "check" => check,
        "monitor" => monitor,
        _ => return usage(0),
    };
    let status = run(&Words::read(command, words)?, out)?;
    out.flush().map_err(write_fault)?;
    Ok(status)
}

fn main() -> ExitCode {
    let words: Result<Vec<String>, _> = std::env::args_os().skip(1).map(|word| word.into_string()).collect();
    let Ok(words) = words else { return ExitCode::from(9) };
    let mut out = BufWriter::with_capacity(1 << 16, io::stdout().lock());
    match run(&words, &mut out) {
        Ok(status) => ExitCode::from(status),
        Err(refusal) => {
            let _ = writeln!(io::stderr(), "minerful: {}", refusal.line);
            ExitCode::from(refusal.status)
        }
    }
}
