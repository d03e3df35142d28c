//! What is written while pairs are compared: lines for a person, or an object on each line.
use std::io::{self, Write};

use crate::compare::{Compared, Demand, Event, Told};
use crate::explain::{Explained, Step};
use crate::input::Refusal;
use crate::json::Json;
use crate::show::{Number, Shown};
use crate::verdict::Verdict;

/// The program's name, in messages and pages.
pub const PROGRAM: &str = env!("CARGO_PKG_NAME");

/// Standard output and standard error of a call.
pub struct Streams<'s> {
    pub out: &'s mut (dyn Write + Send),
    pub error: &'s mut (dyn Write + Send),
}

/// How it is written.
#[derive(Debug, Clone, Copy, PartialEq, Eq)]
pub enum Style {
    /// Lines of one pair of files.
    Lines,
    /// A line for each pair of a list.
    List,
    /// Objects; also those of pairs, if there may be several.
    Json { list: bool },
}

/// Pairs by verdict.
#[derive(Debug, Default)]
pub struct Count([usize; 4]);

impl Count {
    pub fn of(all: &[Compared]) -> Self {
        let mut count = Self::default();
        for compared in all {
            count.0[usize::from(compared.verdict.status())] += 1;
        }
        count
    }

    pub fn with(&self, verdict: Verdict) -> usize {
        self.0[usize::from(verdict.status())]
    }

    pub fn all(&self) -> usize {
        self.0.iter().sum()
    }
}

impl std::fmt::Display for Count {
    fn fmt(&self, f: &mut std::fmt::Formatter<'_>) -> std::fmt::Result {
        let [equal, differ, not_decided, refused] = self.0;
        let pairs = if self.all() == 1 { "pair" } else { "pairs" };
        write!(f, "{} {pairs}: {equal} equal, {differ} differ, {not_decided} not decided, {refused} refused", self.all())
    }
}

impl Streams<'_> {
    /// Lines to standard output, written at once.
    pub fn lines(&mut self, lines: &[String]) -> io::Result<()> {
        for line in lines {
            writeln!(self.out, "{line}")?;
        }
        self.out.flush()
    }

    /// What happened, in a style. `number` is the line of a list.
    pub fn event(&mut self, event: &Event, style: Style, number: usize) -> io::Result<()> {
        match (style, event) {
            (Style::Lines, Event::Begin(_, _, counted)) => self.lines(&counted.map(str::to_string).into_iter().collect::<Vec<_>>()),
            (Style::Lines, Event::Told(_, _, told)) => self.lines(&told.lines()),
            (Style::Lines, Event::End(compared, name)) => {
                self.refusals(compared)?;
                self.lines(&name.iter().map(|name| format!("{name}: {}", compared.verdict)).collect::<Vec<_>>())
            }
            (Style::Lines, Event::Alone(file, name)) => self.lines(&[format!("{name}: not compared, {file} has it alone")]),
            (Style::List, Event::End(compared, _)) => self.lines(&[listed(compared, number)]),
            (Style::List, Event::Alone(file, name)) => self.lines(&[format!("{number}: {file}:{name}: not compared, {file} has it alone")]),
            (Style::Json { .. }, Event::Told(old, new, told)) => self.lines(&[told_object(old, new, told).to_string()]),
            (Style::Json { list }, Event::End(compared, name)) => {
                if !list {
                    self.refusals(compared)?;
                }
                let mut objects: Vec<String> = refusal_objects(compared).iter().map(Json::to_string).collect();
                objects.extend((list || name.is_some()).then(|| pair_object(compared).to_string()));
                self.lines(&objects)
            }
            (Style::Json { .. }, Event::Alone(file, name)) => {
                let fields = [("type", Json::text("not compared")), ("file", Json::text(file)), ("function", Json::text(name))];
                self.lines(&[Json::object(fields).to_string()])
            }
            (Style::List, Event::Begin(..) | Event::Told(..)) | (Style::Json { .. }, Event::Begin(..)) => Ok(()),
        }
    }

    /// Why a pair was refused, on standard error.
    fn refusals(&mut self, compared: &Compared) -> io::Result<()> {
        for line in compared.refusals.iter().flat_map(|refusal| refusal.lines().collect::<Vec<_>>()) {
            writeln!(self.error, "{PROGRAM}: {line}")?;
        }
        self.error.flush()
    }

    /// The last line. A single pair that is refused has none.
    pub fn last(&mut self, all: &[Compared], verdict: Verdict, style: Style, several: bool) -> io::Result<()> {
        let count = Count::of(all);
        match style {
            Style::Lines if verdict == Verdict::Refused && !several => Ok(()),
            Style::Lines => self.lines(&[verdict.to_string()]),
            Style::List => self.lines(&[count.to_string()]),
            Style::Json { .. } => {
                let mut fields = vec![("type", Json::text("all")), ("answer", Json::text(&verdict.to_string())), ("status", Json::number(verdict.status()))];
                if let ([one], false) = (all, several) {
                    fields.extend(pair_fields(one));
                }
                let numbers = Verdict::ALL.map(|verdict| (if verdict == Verdict::NotDecided { "not_decided" } else { name_of(verdict) }, count.with(verdict)));
                fields.push(("pairs", Json::number(count.all() as u64)));
                fields.extend(numbers.map(|(name, number)| (name, Json::number(number as u64))));
                self.lines(&[Json::object(fields).to_string()])
            }
        }
    }
}

fn name_of(verdict: Verdict) -> &'static str {
    match verdict {
        Verdict::Equal => "equal",
        Verdict::Differs => "differs",
        Verdict::NotDecided => "not decided",
        Verdict::Refused => "refused",
    }
}

/// A pair in one line: its verdict and what it rests on, or what is wrong.
fn listed(compared: &Compared, number: usize) -> String {
    format!("{number}: {} {}: {}", compared.old, compared.new, summary(compared))
}

/// A verdict with its reason, in one line.
pub fn summary(compared: &Compared) -> String {
    let reasons: Vec<String> = match compared.verdict {
        Verdict::Refused => compared.refusals.iter().map(Refusal::line).collect(),
        verdict => compared.told.iter().filter(|told| told.answer.verdict() == verdict).filter_map(|told| told.lines().into_iter().next()).collect(),
    };
    format!("{}; {}", compared.verdict, reasons.join("; "))
}

fn number_object(number: &Number) -> Json {
    Json::object([("decimal", Json::text(&number.decimal)), ("hex", Json::text(&number.hex))])
}

fn step_object(step: &Step) -> Json {
    let lanes = |(name, lanes): &(String, String)| Json::object([("register", Json::text(name)), ("lanes", Json::text(lanes))]);
    Json::object([
        ("place", Json::text(&step.place)),
        ("instruction", Json::text(&step.instruction)),
        ("reads", Json::list(step.reads.iter().map(lanes))),
        ("writes", lanes(&step.writes)),
        ("saturated", Json::truth(step.saturated)),
    ])
}

fn difference_object(shown: &Shown, explained: Option<&Explained>) -> Json {
    let lane = |lane: &crate::show::LaneDifference| {
        Json::object([("lane", Json::number(lane.lane)), ("old", number_object(&lane.old)), ("new", number_object(&lane.new))])
    };
    let source = |source: &crate::show::Source| Json::object([("lane", Json::text(&source.name)), ("value", number_object(&source.value))]);
    let start = shown.start.iter().map(|(register, value)| (format!("v{register}"), Json::text(&format!("0x{value:032x}"))));
    let mut fields = vec![
        ("register", Json::text(&shown.name)),
        ("lanes", Json::list(shown.lanes.iter().map(lane))),
        ("where", Json::list(shown.sources.iter().map(source))),
        ("start", Json::object(start)),
        ("old", Json::text(&shown.old)),
        ("new", Json::text(&shown.new)),
    ];
    if let Some(explained) = explained {
        let steps = [("old", Json::list(explained.old.iter().map(step_object))), ("new", Json::list(explained.new.iter().map(step_object)))];
        fields.push(("steps", Json::object(steps)));
    }
    Json::object(fields)
}

/// A register. For one that has to be kept `old` of a difference is what it held, and `new` what the routine leaves.
fn told_object(old: &str, new: &str, told: &Told) -> Json {
    let mut fields = vec![
        ("type", Json::text("register")),
        ("old", Json::text(old)),
        ("new", Json::text(new)),
        ("register", Json::text(&told.register.to_string())),
        ("demand", Json::text(if told.demand == Demand::Equal { "equal" } else { "kept" })),
    ];
    if let Demand::KeptBy(side) = told.demand {
        fields.push(("routine", Json::text(side)));
    }
    fields.push(("answer", Json::text(name_of(told.answer.verdict()))));
    fields.extend(told.answer.fields());
    fields.extend(told.shown.as_ref().map(|shown| ("difference", difference_object(shown, told.explained.as_ref()))));
    Json::object(fields)
}

fn refusal_objects(compared: &Compared) -> Vec<Json> {
    let of = |refusal: &Refusal| {
        let place = refusal.place.clone();
        refusal.reasons.iter().map(move |reason| {
            let mut fields = vec![("type", Json::text("refusal"))];
            fields.extend((!place.is_empty()).then(|| ("file", Json::text(&place))));
            fields.extend(reason.offset.map(|offset| ("offset", Json::number(offset))));
            fields.extend(reason.text.as_ref().map(|text| ("text", Json::text(text))));
            fields.push(("reason", Json::text(&reason.reason)));
            Json::object(fields)
        }).collect::<Vec<_>>()
    };
    compared.refusals.iter().flat_map(of).collect()
}

fn pair_fields(compared: &Compared) -> Vec<(&'static str, Json)> {
    let mut fields = vec![("old", Json::text(&compared.old)), ("new", Json::text(&compared.new))];
    fields.extend(compared.counted.as_ref().map(|counted| ("counted", Json::text(counted))));
    fields.push(("seconds", Json::seconds(compared.seconds)));
    fields
}

fn pair_object(compared: &Compared) -> Json {
    let mut fields = vec![("type", Json::text("pair")), ("answer", Json::text(name_of(compared.verdict)))];
    fields.extend(pair_fields(compared));
    Json::object(fields)
}
