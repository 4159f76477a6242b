//! Asks subject and oracle the same, and reports.

use std::collections::BTreeMap;
use std::hint::black_box;
use std::time::Instant;

use crate::analysis;
use crate::generate::{self, bodies, exhaust, Case};
use crate::oracle::{check_answer, lower_answer, verify_answer, Answer};
use crate::proof_sheets::hex;
use crate::sheet::{kind, SHEET_LIMIT};
use crate::shrink::shrink;
use crate::subject::Subject;

/// Which operation is compared.
#[derive(Debug, Clone, Copy, PartialEq, Eq)]
pub enum Task {
    Verify,
    /// What lowering asks of a sheet before its walk.
    Check,
    Lower,
    /// The body check.
    Analyze,
}

impl Task {
    pub fn root(self) -> u16 {
        match self {
            Task::Verify => kind::PROGRAM,
            Task::Check | Task::Lower | Task::Analyze => kind::CONTRACT,
        }
    }

    pub fn fixed_cases(self) -> Vec<Case> {
        match self {
            Task::Verify => generate::fixed_verify_cases(),
            Task::Check | Task::Lower => generate::fixed_lower_cases(),
            Task::Analyze => generate::fixed_analyze_cases(),
        }
    }

    pub fn case(self, seed: u64, index: u64) -> Case {
        match self {
            Task::Verify => generate::verify_case(seed, index),
            Task::Check | Task::Lower => generate::lower_case(seed, index),
            Task::Analyze => generate::analyze_case(seed, index),
        }
    }

    /// The numbers that the cases must bring about.
    pub fn numbers(self) -> Vec<u16> {
        match self {
            Task::Verify => [0, 1].into_iter().chain(40..=50).collect(),
            Task::Check => vec![0, 1, 3, 4],
            Task::Lower => {
                let walk = (10..=20).chain([30, 31]);
                [0, 1, 3, 4].into_iter().chain(walk).collect()
            }
            Task::Analyze => vec![0, 1, 3, 4, analysis::REFUSAL],
        }
    }

    pub fn expected(self, case: &Case) -> Answer {
        match self {
            Task::Verify => verify_answer(&case.sheet),
            Task::Check => check_answer(&case.sheet),
            Task::Lower => lower_answer(&case.sheet, case.room),
            Task::Analyze => analysis::analyze(&case.sheet),
        }
    }
}

/// The number of an answer, and that of its error text where it is the body
/// check's refusal, else 0.
pub fn numbers(answer: &Answer) -> (u16, u32) {
    match answer {
        Answer::Refused {
            number: analysis::REFUSAL,
            details,
        } => (analysis::REFUSAL, details[1]),
        other => (other.number(), 0),
    }
}

/// What the oracle expects and what the subject gave instead.
#[derive(Debug)]
pub struct Difference {
    pub expected: String,
    pub got: String,
}

impl Difference {
    fn between(expected: impl ToString, got: impl ToString) -> Self {
        Difference {
            expected: expected.to_string(),
            got: got.to_string(),
        }
    }
}

/// What subject and oracle both gave.
#[derive(Debug)]
pub struct Agreed {
    pub answer: Answer,
    /// The number of the verifier's answer to what a lowering gave.
    pub verified: Option<u16>,
    /// The numbers of all errors that the Rust's body check pushes, where it
    /// refuses.
    pub pushed: Vec<u16>,
}

/// What the lent output holds before the call, and the bytes around it: never
/// a zero, so that a byte left untouched shows.
const FILL: u8 = 0xA5;

/// How many bytes stand before the lent output, and how many behind it: they
/// must stay as they are.
const AROUND: usize = 16;

/// Longer than any lent output: comparing with it is faster than a loop.
static ZEROS: [u8; 1 << 16] = [0; 1 << 16];

/// Asks both, and compares the answers.
pub fn compare(subject: &dyn Subject, task: Task, case: &Case) -> Result<Agreed, Difference> {
    let lent = case.sheet.clone();
    let agreed = match task {
        Task::Lower => compare_lowering(subject, case, &lent)?,
        Task::Verify => agreed(task.expected(case), subject.verify(&lent))?,
        Task::Check => agreed(task.expected(case), subject.check(&lent))?,
        Task::Analyze => compare_analyzing(subject, case, &lent)?,
    };
    match *black_box(&lent) == case.sheet {
        true => Ok(agreed),
        false => Err(Difference::between("the sheet unchanged", hex(&lent))),
    }
}

fn agreed(expected: Answer, got: Answer) -> Result<Agreed, Difference> {
    if got != expected {
        return Err(Difference::between(expected, got));
    }
    Ok(Agreed {
        answer: expected,
        verified: None,
        pushed: Vec::new(),
    })
}

/// The answers; the expected one alone where the subject has no body check. It
/// is the Rust's, held against the second walk.
fn compare_analyzing(
    subject: &dyn Subject,
    case: &Case,
    sheet: &[u8],
) -> Result<Agreed, Difference> {
    let expected = Task::Analyze.expected(case);
    let got = subject.analyze(sheet);
    let got = got.unwrap_or_else(|| expected.clone());
    let mut agreed = agreed(expected, got)?;
    if agreed.answer.number() == analysis::REFUSAL {
        agreed.pushed = analysis::pushed(sheet);
    }
    Ok(agreed)
}

/// The answers, every byte of the output, and what verifying says of it.
fn compare_lowering(
    subject: &dyn Subject,
    case: &Case,
    sheet: &[u8],
) -> Result<Agreed, Difference> {
    let mut around = vec![FILL; AROUND + case.room + AROUND];
    let out = &mut around[AROUND..AROUND + case.room];
    let got = subject.lower(sheet, out);
    let mut agreed = agreed(Task::Lower.expected(case), got)?;
    compare_output(&agreed.answer, out)?;
    let (before, behind) = (&around[..AROUND], &around[AROUND + case.room..]);
    if before != [FILL; AROUND] || behind != [FILL; AROUND] {
        let got = format!("{} before it, {} behind it", hex(before), hex(behind));
        return Err(Difference::between("nothing beside the output", got));
    }
    if let Answer::Accepted(finished) = &agreed.answer {
        agreed.verified = Some(compare_verifying(subject, finished)?);
    }
    Ok(agreed)
}

/// On acceptance the output holds the sheet, then zeros; else zeros alone.
fn compare_output(expected: &Answer, out: &[u8]) -> Result<(), Difference> {
    let finished: &[u8] = match expected {
        Answer::Accepted(finished) => finished,
        Answer::Refused { .. } => &[],
    };
    let (sheet, rest) = out.split_at(finished.len());
    if sheet == finished && rest == &ZEROS[..rest.len()] {
        return Ok(());
    }
    let wanted = finished.iter().chain(std::iter::repeat(&0));
    let mut pairs = out.iter().zip(wanted).enumerate();
    let (place, (got, wanted)) = pairs.find(|(_, (got, wanted))| got != wanted).unwrap();
    Err(Difference::between(
        format!("{expected}, output byte {place} is {wanted}"),
        format!("the same answer, output byte {place} is {got}"),
    ))
}

/// The numbers that verifying may give to what was lowered: acceptance, and
/// the refusals for types.
const OF_LOWERED: [u16; 4] = [0, 45, 46, 47];

/// Verifies what a lowering gave, by both.
fn compare_verifying(subject: &dyn Subject, finished: &[u8]) -> Result<u16, Difference> {
    let (expected, got) = (verify_answer(finished), subject.verify(finished));
    if got != expected {
        let [expected, got] = [expected, got].map(|answer| format!("lowered, then {answer}"));
        return Err(Difference { expected, got });
    }
    match OF_LOWERED.contains(&expected.number()) {
        true => Ok(expected.number()),
        false => Err(Difference::between("a refusal for types at most", expected)),
    }
}

/// A run under way.
pub struct Run<'a> {
    subject: &'a dyn Subject,
    task: Task,
    /// How often each number was answered.
    pub histogram: BTreeMap<u16, u64>,
    /// The same for verifying what was lowered.
    pub verified: BTreeMap<u16, u64>,
    /// The same for the error texts of the body check, and how often one was
    /// the first of several errors.
    pub texts: BTreeMap<u16, [u64; 2]>,
    started: Instant,
    done: u64,
}

const PROGRESS: u64 = 100_000;

impl<'a> Run<'a> {
    pub fn new(subject: &'a dyn Subject, task: Task) -> Self {
        Run {
            subject,
            task,
            histogram: BTreeMap::new(),
            verified: BTreeMap::new(),
            texts: BTreeMap::new(),
            started: Instant::now(),
            done: 0,
        }
    }

    /// The fixed cases, then `count` random ones; false after a difference.
    pub fn random(&mut self, seed: u64, count: u64) -> bool {
        let task = self.task;
        let fixed = task.fixed_cases();
        fixed.iter().all(|case| self.ask(case))
            && (0..count).all(|index| self.ask(&task.case(seed, index)))
    }

    /// All short sheets and all small damages of a few, for lowering and the
    /// body check also all small bodies; false after a difference.
    pub fn exhaust(&mut self) -> bool {
        let task = self.task;
        let bodies = matches!(task, Task::Lower | Task::Analyze);
        let mut ask = |sheet: &[u8]| self.ask(&Case::of(sheet.to_vec()));
        exhaust::each(task.root(), &mut ask) && (!bodies || bodies::each(&mut ask))
    }

    /// Compares one case; reports a difference and gives false.
    fn ask(&mut self, case: &Case) -> bool {
        match compare(self.subject, self.task, case) {
            Ok(agreed) => self.count(&agreed),
            Err(_) => {
                self.report(case);
                return false;
            }
        }
        self.done += 1;
        if self.done.is_multiple_of(PROGRESS) {
            let seconds = self.started.elapsed().as_secs_f64();
            eprintln!("{} cases in {seconds:.1} s", self.done);
        }
        true
    }

    fn count(&mut self, agreed: &Agreed) {
        *self.histogram.entry(agreed.answer.number()).or_default() += 1;
        if let Some(number) = agreed.verified {
            *self.verified.entry(number).or_default() += 1;
        }
        if let Some(&number) = agreed.pushed.first() {
            let [times, of_several] = self.texts.entry(number).or_default();
            *times += 1;
            *of_several += u64::from(agreed.pushed.len() > 1);
        }
    }

    fn report(&self, case: &Case) {
        eprintln!("a difference after {} cases, shrinking", self.done);
        let differs = &mut |case: &Case| compare(self.subject, self.task, case).is_err();
        let small = shrink(case.clone(), self.task.root(), differs);
        let difference = compare(self.subject, self.task, &small).unwrap_err();
        println!("sheet:    {}", hex(&small.sheet));
        if self.task == Task::Lower {
            println!("room:     {}", small.room);
        }
        println!("expected: {}", difference.expected);
        println!("got:      {}", difference.got);
    }

    /// Whether each number was answered, also by the verifier to what was
    /// lowered, and each error text given; prints those that were not.
    pub fn all_numbers(&self) -> bool {
        let answered = all_counted("answered", self.task.numbers(), &self.histogram);
        match self.task {
            Task::Lower => {
                let label = "answered by the verifier to what was lowered";
                all_counted(label, OF_LOWERED.to_vec(), &self.verified) && answered
            }
            Task::Analyze => {
                let texts = (1..=analysis::TEXTS).collect();
                all_counted("the number of an error", texts, &self.texts) && answered
            }
            _ => answered,
        }
    }

    /// One line for each number, 0 for acceptance.
    pub fn print_histogram(&self) {
        let seconds = self.started.elapsed().as_secs_f64();
        for (number, times) in &self.histogram {
            println!("{number:>5} {times:>10}");
        }
        if !self.verified.is_empty() {
            println!("verifying what was lowered:");
        }
        for (number, times) in &self.verified {
            println!("{number:>5} {times:>10}");
        }
        if !self.texts.is_empty() {
            println!("51 by error texts, and how often each was the first of several errors:");
        }
        for (number, [times, of_several]) in &self.texts {
            println!("{number:>5} {times:>10} {of_several:>10}");
        }
        let rate = self.done as f64 / seconds.max(0.001);
        println!("{} cases in {seconds:.1} s, {rate:.0} a second", self.done);
    }
}

/// Whether each number was counted; prints those that were not.
fn all_counted<T>(label: &str, mut numbers: Vec<u16>, counted: &BTreeMap<u16, T>) -> bool {
    numbers.retain(|number| !counted.contains_key(number));
    if !numbers.is_empty() {
        println!("never {label}: {numbers:?}");
    }
    numbers.is_empty()
}

/// How many random cases a sample is drawn from.
const CANDIDATES: u64 = 20_000;
/// Longer sheets are sampled only for numbers that have no shorter ones.
const SHORT: usize = 300;

/// Cases and their answers: about `count`, the same share of each number and of
/// each error text, most of them short.
pub fn sample(task: Task, seed: u64, count: usize) -> Vec<(Vec<u8>, Answer)> {
    let mut by_number: BTreeMap<(u16, u32), Bucket> = BTreeMap::new();
    let random = (0..CANDIDATES).map(|index| task.case(seed, index));
    for case in task.fixed_cases().into_iter().chain(random) {
        let case = Case::of(case.sheet);
        let answer = task.expected(&case);
        let bucket = by_number.entry(numbers(&answer)).or_default();
        // A long line is not written for a sheet that is not sampled.
        if case.sheet.len() <= SHORT || !has_short(bucket) {
            let key = (case.sheet.len(), answer.to_string());
            bucket.entry(key).or_insert((case.sheet, answer));
        }
    }
    let share = count.div_ceil(by_number.len());
    let buckets = by_number.into_values();
    buckets.flat_map(|bucket| spread(bucket, share)).collect()
}

/// The sheets of a number or an error text: one, the first, for each length and answer.
type Bucket = BTreeMap<(usize, String), (Vec<u8>, Answer)>;

fn has_short(bucket: &Bucket) -> bool {
    matches!(bucket.first_key_value(), Some(((length, _), _)) if *length <= SHORT)
}

/// Some of the pairs, from the shortest on, denser among the short ones.
fn spread(bucket: Bucket, share: usize) -> Vec<(Vec<u8>, Answer)> {
    let mut pairs: Vec<_> = bucket.into_values().collect();
    let short = pairs.iter().filter(|pair| pair.0.len() <= SHORT).count();
    pairs.truncate(short.max(1));
    let total = pairs.len();
    let mut chosen: Vec<usize> = (0..share)
        .map(|i| total * i * i / (share * share))
        .collect();
    chosen.dedup();
    chosen.into_iter().map(|i| pairs[i].clone()).collect()
}

/// The sheet and the room of a random case, to look at one by its number.
pub fn describe(task: Task, seed: u64, index: u64) -> String {
    let case = task.case(seed, index);
    let room = match case.room {
        SHEET_LIMIT => String::new(),
        room => format!(" (output of {room} bytes)"),
    };
    format!("{}{room} -> {}", hex(&case.sheet), task.expected(&case))
}
