//! Runs the suite of test vectors with an implementation in Rust. A program calls [`run`] with a function that starts a
//! party: see `main.rs` and `snow/`.

use std::collections::HashMap;
use std::fmt::Write;
use std::panic::{catch_unwind, AssertUnwindSafe};

/// Why a call of a party gave nothing.
#[derive(Debug)]
pub enum Fault {
    /// The Noise refuses: the words, and the token, from 0 on, if it says so.
    Refused(String, Option<usize>),
    /// The Noise doesn't claim to do this: the test isn't run.
    NotSupported(String),
}

/// One party of a Noise. After the handshake, `write` and `read` are of transport messages. `receive` is the direction.
pub trait Party {
    fn write(&mut self, payload: &[u8]) -> Result<Vec<u8>, Fault>;
    fn read(&mut self, message: &[u8]) -> Result<Vec<u8>, Fault>;
    fn rekey(&mut self, receive: bool) -> Result<(), Fault>;
    fn set_nonce(&mut self, receive: bool, nonce: u64) -> Result<(), Fault>;
    fn hash(&self) -> Vec<u8>;
    /// The other party's static key, after the handshake.
    fn remote_static(&self) -> Result<Vec<u8>, Fault>;
}

/// What a party starts from: its own keys are private ones, `re` and `rs` the other party's that are known beforehand.
pub struct Setup<'a> {
    pub protocol: &'a str,
    /// Whether the protocol name is tested: read that, and not the pattern.
    pub by_name: bool,
    pub pattern: Vec<&'a str>,
    pub prologue: Vec<u8>,
    pub psks: Vec<[u8; 32]>,
    pub responder: bool,
    pub e: Option<[u8; 32]>,
    pub s: Option<[u8; 32]>,
    pub re: Option<[u8; 32]>,
    pub rs: Option<[u8; 32]>,
}

enum Outcome {
    Passed,
    Failed(String),
    NotRun(String),
}

type Parties = HashMap<bool, Box<dyn Party>>;

fn from_hex(digits: &str) -> Vec<u8> {
    digits.as_bytes().chunks(2).map(|it| u8::from_str_radix(std::str::from_utf8(it).unwrap(), 16).unwrap()).collect()
}

/// The first bytes as hex digits.
fn to_hex(data: &[u8]) -> String {
    data.iter().take(200).map(|it| format!("{:02x}", it)).collect()
}

fn bytes_of(value: &Value) -> Vec<u8> {
    match value {
        Value::Text(digits) => from_hex(digits),
        rule => from_hex(rule.text("byte")).repeat(rule.number("count").unwrap_or(0)),
    }
}

fn key_of(digits: &str) -> Option<[u8; 32]> {
    from_hex(digits).try_into().ok()
}

fn setup_of(group: &Value, responder: bool) -> Setup {
    let own = group.get(if responder { "responder" } else { "initiator" }).unwrap();
    let texts =
        |name| group.list(name).iter().filter_map(|it| if let Value::Text(text) = it { Some(&text[..]) } else { None });
    Setup {
        protocol: group.text("protocol"),
        by_name: group.text("what") == "name",
        pattern: texts("pattern").collect(),
        prologue: bytes_of(group.get("prologue").unwrap()),
        psks: texts("psks").filter_map(key_of).collect(),
        responder,
        e: key_of(own.text("e")),
        s: key_of(own.text("s")),
        re: key_of(own.text("re")),
        rs: key_of(own.text("rs")),
    }
}

/// A test that is being run.
struct Run<'a, F> {
    group: &'a Value,
    test: &'a Value,
    start: &'a F,
    parties: Parties,
    written: HashMap<usize, Vec<u8>>,
}

impl<'a, F: Fn(&Setup) -> Result<Box<dyn Party>, Fault>> Run<'a, F> {
    fn message(&self, step: &Value) -> Option<&'a Value> {
        self.group.list("messages").get(step.number("message")?)
    }

    /// The bytes that a step reads, with the step's change.
    fn received(&self, step: &Value) -> Vec<u8> {
        let given = step.get("bytes");
        let mut data = match given.or_else(|| self.message(step)?.get("message")) {
            Some(message) if message.text("sha256").is_empty() => bytes_of(message),
            _ => self.written[&step.number("message").unwrap()].clone(),
        };
        data.truncate(step.number("cut").unwrap_or(data.len()));
        data.extend(from_hex(step.text("append")));
        if let [Value::Number(at), Value::Number(mask)] = step.list("xor") {
            data[*at as usize] ^= *mask as u8;
        }
        data
    }

    fn call(&mut self, party: &mut dyn Party, step: &Value) -> Result<Vec<u8>, Fault> {
        let receive = step.text("direction") == "receive";
        match step.text("do") {
            "write" => {
                let payload = step.get("payload").or_else(|| self.message(step)?.get("payload"));
                let message = party.write(&bytes_of(payload.unwrap()))?;
                if let Some(number) = step.number("message") {
                    self.written.insert(number, message.clone());
                }
                Ok(message)
            }
            "read" => party.read(&self.received(step)),
            "rekey" => party.rekey(receive).map(|()| Vec::new()),
            "nonce" => party.set_nonce(receive, step.text("nonce").parse().unwrap()).map(|()| Vec::new()),
            "start" => Ok(Vec::new()),
            "remote" => party.remote_static(),
            _ => Ok(party.hash()),
        }
    }

    /// Compares what a step gave with what the suite says.
    fn compare(&self, step: &Value, got: Vec<u8>) -> Result<(), Outcome> {
        let wanted = match step.text("do") {
            "write" => step.get("is").or_else(|| self.message(step)?.get("message")),
            "read" => step.get("payload").or_else(|| self.message(step)?.get("payload")),
            "hash" => self.group.get("hash"),
            "remote" => step.get("is"),
            _ => return Ok(()),
        };
        let (got, right) = match wanted {
            Some(value) if !value.text("sha256").is_empty() => {
                (openssl::sha::sha256(&got).to_vec(), from_hex(value.text("sha256")))
            }
            Some(value) => (got, bytes_of(value)),
            None => (got, Vec::new()),
        };
        if got == right {
            return Ok(());
        }
        Err(Outcome::Failed(format!("{}: {} in place of {}", step.text("do"), to_hex(&got), to_hex(&right))))
    }

    /// Takes a step; an outcome ends the test.
    fn step(&mut self, step: &Value) -> Result<(), Outcome> {
        let role = if step.text("role").is_empty() { self.test.text("role") } else { step.text("role") };
        let responder = role == "responder";
        let mut party = match self.parties.remove(&responder) {
            Some(party) => party,
            None => (self.start)(&setup_of(self.group, responder)).map_err(|fault| match fault {
                Fault::NotSupported(why) => Outcome::NotRun(why),
                Fault::Refused(..) if self.test.list("steps")[0].get("optional").is_some() => Outcome::Passed,
                Fault::Refused(why, _) => Outcome::Failed(format!("the start was refused: {}", why)),
            })?,
        };
        let made = self.call(&mut *party, step);
        self.parties.insert(responder, party);
        let refused = step.text("refused");
        match made {
            Err(Fault::NotSupported(why)) => Err(Outcome::NotRun(why)),
            Err(Fault::Refused(..)) if refused.is_empty() && step.get("optional").is_some() => Err(Outcome::Passed),
            Err(Fault::Refused(why, _)) if refused.is_empty() => {
                Err(Outcome::Failed(format!("{} was refused: {}", step.text("do"), why)))
            }
            Err(Fault::Refused(_, Some(token))) if step.number("token") != Some(token) => {
                Err(Outcome::Failed(format!("refused at token {}", token)))
            }
            Err(Fault::Refused(..)) => Ok(()),
            Ok(_) if !refused.is_empty() => {
                let at = if step.text("at").is_empty() { String::new() } else { format!(" at {}", step.text("at")) };
                let what = step.text("do");
                Err(Outcome::Failed(format!("{} was accepted, and has to be refused: {}{}", what, refused, at)))
            }
            Ok(got) => self.compare(step, got),
        }
    }

    /// Takes the steps. What ended them, if not all succeeded.
    fn steps(&mut self) -> Option<Outcome> {
        for (number, step) in self.test.list("steps").iter().enumerate() {
            match self.step(step) {
                Ok(()) => {}
                Err(Outcome::Failed(why)) => return Some(Outcome::Failed(format!("step {}: {}", number, why))),
                Err(outcome) => return Some(outcome),
            }
        }
        None
    }

    fn run(&mut self, kind: &str) -> Outcome {
        match kind {
            "NoiseHandshake" => self.steps().unwrap_or(Outcome::Passed),
            "NoiseStart" if self.test.text("what") == "lengths" => {
                Outcome::NotRun("keys are arrays of 32 bytes".into())
            }
            "NoiseStart" => self.run_start(),
            _ => Outcome::NotRun("frames are the caller's".into()),
        }
    }

    /// A test of a set-up: if it is wrong, the start or a later step has to be refused.
    fn run_start(&mut self) -> Outcome {
        let outcome = self.steps();
        match outcome {
            Some(Outcome::NotRun(_)) => outcome.unwrap(),
            None | Some(Outcome::Failed(_)) if self.test.text("result") == "invalid" => {
                Outcome::Failed(format!("the set-up was taken, and has to be refused: {}", self.test.text("place")))
            }
            _ => outcome.unwrap_or(Outcome::Passed),
        }
    }
}

const USAGE: &str = "SUITE.json [JUNIT.xml] [--only WORDS]

It runs the suite, and reports. JUNIT.xml gets each test. --only runs a part: the tests that have one of the
words, which are joined by commas, as number, pattern or flag. The status is 0 if no test failed, 1 if one did,
and 2 if nothing was run.";

/// The words of the command line but `--only`, and those that it has; none if they can't be read.
fn words_of(mut given: impl Iterator<Item = String>) -> Option<(Vec<String>, Vec<String>)> {
    let (mut files, mut only) = (Vec::new(), Vec::new());
    while let Some(word) = given.next() {
        match word.as_str() {
            "--only" => only = given.next()?.split(',').map(String::from).collect(),
            _ => files.push(word),
        }
    }
    if files.len() == 1 || files.len() == 2 {
        Some((files, only))
    } else {
        None
    }
}

type Tests<'a> = Vec<(&'a Value, &'a Value)>;

/// The tests of the suite, each with its group: those that have one of the words, or all. An error is a word that no
/// test has.
fn chosen<'a>(suite: &'a Value, only: &[String]) -> Result<Tests<'a>, String> {
    let mut found = vec![false; only.len()];
    let mut tests = Vec::new();
    for group in suite.list("testGroups") {
        let pattern = pattern_name(group);
        for test in group.list("tests") {
            let number = test.number("tcId").unwrap_or(0).to_string();
            let mut is_chosen = only.is_empty();
            for (word, found) in only.iter().zip(&mut found) {
                if *word == number || *word == pattern || flags(test).any(|it| it == word) {
                    *found = true;
                    is_chosen = true;
                }
            }
            if is_chosen {
                tests.push((group, test));
            }
        }
    }
    match found.iter().position(|is| !is) {
        Some(at) => Err(format!("no test has the number, pattern or flag {}", only[at])),
        None => Ok(tests),
    }
}

/// Runs the suite of the first word of the command line, and reports. The status is that of the program: 0 if no test
/// failed.
pub fn run<F: Fn(&Setup) -> Result<Box<dyn Party>, Fault>>(name: &str, start: F) -> i32 {
    if std::env::args().any(|it| it == "--help" || it == "-h") {
        println!("usage: {} {}", name, USAGE);
        return 0;
    }
    let outcome = match words_of(std::env::args().skip(1)) {
        Some((files, only)) => run_files(name, &files, &only, &start),
        None => Err(format!("usage: {} {}", name, USAGE)),
    };
    match outcome {
        Ok(failed) => i32::from(failed),
        Err(why) => {
            eprintln!("{}", why);
            2
        }
    }
}

/// Runs the chosen tests of a file, and writes the reports: whether one failed.
fn run_files<F>(name: &str, files: &[String], only: &[String], start: &F) -> Result<bool, String>
where
    F: Fn(&Setup) -> Result<Box<dyn Party>, Fault>,
{
    let text = std::fs::read_to_string(&files[0]).map_err(|error| format!("{}: {}", files[0], error))?;
    let suite = read(&text).ok_or_else(|| format!("{} is no suite", files[0]))?;
    let mut report = Report::new(&suite);
    for (group, test) in chosen(&suite, only)? {
        let kind = group.text("type");
        let setup = if kind == "NoiseStart" { test } else { group };
        let mut it = Run { group: setup, test, start, parties: HashMap::new(), written: HashMap::new() };
        let outcome = catch_unwind(AssertUnwindSafe(|| it.run(kind)));
        report.add(group, test, outcome.unwrap_or_else(|_| Outcome::Failed("crashed".into())));
    }
    let failed = report.print();
    match files.get(1) {
        Some(path) => std::fs::write(path, report.junit(name)).map_err(|error| format!("{}: {}", path, error))?,
        None => {}
    }
    Ok(failed)
}

/// What came of the tests.
struct Report<'a> {
    notes: Option<&'a Value>,
    rows: Vec<Row<'a>>,
}

struct Row<'a> {
    pattern: String,
    test: &'a Value,
    outcome: Outcome,
}

fn pattern_name(group: &Value) -> String {
    match group.text("protocol").split('_').nth(1) {
        Some(name) => name.into(),
        None => group.text("type").trim_start_matches("Noise").to_lowercase(),
    }
}

fn place(outcome: &Outcome) -> usize {
    match outcome {
        Outcome::Passed => 0,
        Outcome::Failed(_) => 1,
        Outcome::NotRun(_) => 2,
    }
}

fn flags(test: &Value) -> impl Iterator<Item = &str> {
    test.list("flags").iter().filter_map(|it| if let Value::Text(text) = it { Some(&text[..]) } else { None })
}

fn add_to<'n>(all: &mut Vec<(&'n str, [usize; 3])>, name: &'n str, at: usize) {
    match all.iter_mut().find(|(other, _)| *other == name) {
        Some((_, counts)) => counts[at] += 1,
        None => {
            all.push((name, [0; 3]));
            add_to(all, name, at);
        }
    }
}

fn quoted(text: &str) -> String {
    text.replace('&', "&amp;").replace('<', "&lt;").replace('>', "&gt;").replace('"', "&quot;")
}

impl<'a> Report<'a> {
    /// A report of a suite, of which nothing was run yet.
    fn new(suite: &'a Value) -> Report<'a> {
        Report { notes: suite.get("notes"), rows: Vec::new() }
    }

    fn add(&mut self, group: &'a Value, test: &'a Value, outcome: Outcome) {
        self.rows.push(Row { pattern: pattern_name(group), test, outcome });
    }

    /// Whether a flag is of a kind of cases, or of a mistake.
    fn kind(&self, flag: &str) -> &str {
        self.notes.and_then(|it| it.get(flag)).map_or("", |it| it.text("kind"))
    }

    /// Prints a line for each flag, and the tests that failed; whether any has.
    fn print(&self) -> bool {
        let (mut tallies, mut reasons, mut total) = (Vec::new(), Vec::new(), [0; 3]);
        for Row { test, outcome, .. } in &self.rows {
            total[place(outcome)] += 1;
            flags(test).for_each(|flag| add_to(&mut tallies, flag, place(outcome)));
            if let Outcome::NotRun(why) = outcome {
                add_to(&mut reasons, why, 2);
            }
        }
        println!("{:28} {:7} {:>7} {:>7} {:>7}", "flag", "kind", "passed", "failed", "not run");
        for (flag, [passed, failed, not_run]) in &tallies {
            println!("{:28} {:7} {:7} {:7} {:7}", flag, self.kind(flag), passed, failed, not_run);
        }
        let order: Vec<&str> = tallies.iter().map(|(flag, _)| *flag).collect();
        self.print_failures("accepted, and has to be refused", &order, true);
        self.print_failures("other failures", &order, false);
        for (why, counts) in &reasons {
            println!("not run {}: {}", counts[2], why);
        }
        println!("{} passed, {} failed, {} not run", total[0], total[1], total[2]);
        total[1] > 0
    }

    /// Prints the tests that failed, by their first flag: those that accept what has to be refused, or all others.
    fn print_failures(&self, head: &str, order: &[&str], accepted: bool) {
        let mut some = Vec::new();
        for Row { pattern, test, outcome } in &self.rows {
            match outcome {
                Outcome::Failed(why) if why.contains("and has to be refused") == accepted => {
                    let first = flags(test).next();
                    some.push((order.iter().position(|it| Some(*it) == first), pattern, test, why));
                }
                _ => {}
            }
        }
        some.sort_by_key(|it| it.0);
        if !some.is_empty() {
            println!("{}: {}", head, some.len());
        }
        for (_, pattern, test, why) in some {
            let (id, names) = (test.number("tcId").unwrap_or(0), flags(test).collect::<Vec<_>>().join(","));
            println!("failed {} {} {}: {}: {}", id, pattern, names, test.text("comment"), why);
        }
    }

    /// JUnit's XML: a test case for each test, whose class is its first flag.
    fn junit(&self, name: &str) -> String {
        let many = |at| self.rows.iter().filter(|it| place(&it.outcome) == at).count();
        let mut made = String::from("<?xml version=\"1.0\" encoding=\"UTF-8\"?>\n");
        let (tests, failures, skipped) = (self.rows.len(), many(1), many(2));
        let head = (quoted(name), tests, failures, skipped);
        writeln!(
            made,
            "<testsuite name=\"{}\" tests=\"{}\" failures=\"{}\" skipped=\"{}\">",
            head.0, head.1, head.2, head.3
        )
        .unwrap();
        for Row { pattern, test, outcome } in &self.rows {
            let inside = match outcome {
                Outcome::Passed => String::new(),
                Outcome::Failed(why) => format!("<failure message=\"{}\"/>", quoted(why)),
                Outcome::NotRun(why) => format!("<skipped message=\"{}\"/>", quoted(why)),
            };
            let class = flags(test).next().unwrap_or("");
            let id = test.number("tcId").unwrap_or(0);
            let comment = quoted(test.text("comment"));
            let name = format!("{} {}: {}", id, pattern, comment);
            writeln!(made, "  <testcase classname=\"{}\" name=\"{}\">{}</testcase>", class, name, inside).unwrap();
        }
        made + "</testsuite>\n"
    }
}

// A small reader of JSON: enough for the suite.

/// A value of JSON.
enum Value {
    Text(String),
    Number(u64),
    List(Vec<Value>),
    Object(Vec<(String, Value)>),
}

impl Value {
    /// The member of an object.
    fn get(&self, key: &str) -> Option<&Value> {
        match self {
            Value::Object(members) => members.iter().find(|(name, _)| name == key).map(|(_, value)| value),
            _ => None,
        }
    }

    /// The text of a member; none is empty.
    fn text(&self, key: &str) -> &str {
        match self.get(key) {
            Some(Value::Text(text)) => text,
            _ => "",
        }
    }

    /// The number of a member.
    fn number(&self, key: &str) -> Option<usize> {
        match self.get(key) {
            Some(Value::Number(number)) => Some(*number as usize),
            _ => None,
        }
    }

    /// The items of a member.
    fn list(&self, key: &str) -> &[Value] {
        match self.get(key) {
            Some(Value::List(items)) => items,
            _ => &[],
        }
    }
}

/// Reads a text; none if that is no JSON of the suite's kind.
fn read(text: &str) -> Option<Value> {
    let mut rest = text.as_bytes();
    value(&mut rest)
}

fn space(rest: &mut &[u8]) {
    while rest.first().map_or(false, u8::is_ascii_whitespace) {
        *rest = &rest[1..];
    }
}

fn take(rest: &mut &[u8], byte: u8) -> Option<()> {
    space(rest);
    *rest = rest.strip_prefix(&[byte])?;
    Some(())
}

fn string(rest: &mut &[u8]) -> Option<String> {
    take(rest, b'"')?;
    let mut made = Vec::new();
    loop {
        let (&byte, after) = rest.split_first()?;
        *rest = after;
        match byte {
            b'"' => return String::from_utf8(made).ok(),
            b'\\' => {
                made.push(*rest.first()?);
                *rest = &rest[1..];
            }
            _ => made.push(byte),
        }
    }
}

fn value(rest: &mut &[u8]) -> Option<Value> {
    space(rest);
    match rest.first()? {
        b'"' => Some(Value::Text(string(rest)?)),
        b'{' => {
            let mut members = Vec::new();
            items(rest, b'{', b'}', |rest| {
                let key = string(rest)?;
                take(rest, b':')?;
                members.push((key, value(rest)?));
                Some(())
            })?;
            Some(Value::Object(members))
        }
        b'[' => {
            let mut list = Vec::new();
            items(rest, b'[', b']', |rest| {
                list.push(value(rest)?);
                Some(())
            })?;
            Some(Value::List(list))
        }
        b't' => {
            *rest = rest.strip_prefix(b"true")?;
            Some(Value::Number(1))
        }
        _ => {
            let count = rest.iter().take_while(|it| it.is_ascii_digit()).count();
            let number = std::str::from_utf8(&rest[..count]).ok()?.parse().ok()?;
            *rest = &rest[count..];
            Some(Value::Number(number))
        }
    }
}

fn items(rest: &mut &[u8], from: u8, to: u8, mut item: impl FnMut(&mut &[u8]) -> Option<()>) -> Option<()> {
    take(rest, from)?;
    if take(rest, to).is_some() {
        return Some(());
    }
    loop {
        item(rest)?;
        if take(rest, to).is_some() {
            return Some(());
        }
        take(rest, b',')?;
    }
}
