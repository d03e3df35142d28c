//! Two routines compared: which registers count, what is known of each, and the verdict.
use std::time::Instant;

use crate::answer::Answer;
use crate::args::{Choice, Entry};
use crate::elf::on_a_line;
use crate::explain::{self, Explained};
use crate::input::{self, Input, Refusal};
use crate::pair::{Pair, Register, Routine};
use crate::show::Shown;
use crate::stages;
use crate::verdict::Verdict;

/// What is asked of a register.
#[derive(Debug, Clone, Copy, PartialEq, Eq)]
pub enum Demand {
    /// Both routines leave the same in it.
    Equal,
    /// The old or the new function leaves in it what it held.
    KeptBy(&'static str),
}

impl Demand {
    /// What the two numbers of a difference are.
    pub fn sides(self) -> [&'static str; 2] {
        match self {
            Self::Equal => ["old", "new"],
            Self::KeptBy(_) => ["before", "after"],
        }
    }
}

/// What is known of a register.
#[derive(Debug, Clone)]
pub struct Told {
    pub register: Register,
    pub demand: Demand,
    pub answer: Answer,
    pub shown: Option<Shown>,
    pub explained: Option<Explained>,
}

impl Told {
    /// What is known, in a line without the register.
    fn line(&self) -> String {
        let (equal, differs, not_decided) = match self.demand {
            Demand::Equal => ("equal".to_string(), "differs".to_string(), "not decided".to_string()),
            Demand::KeptBy(side) => (format!("kept by {side}"), format!("not kept by {side}"), format!("not decided whether {side} keeps it")),
        };
        match (&self.answer, &self.shown) {
            (Answer::Same | Answer::Unsat(_), _) => format!("{equal}, by {}", self.answer.by()),
            (Answer::Left(what), _) => format!("{not_decided}, {what}"),
            (Answer::Differs(_), Some(shown)) => format!("{differs}, {}", shown.line(self.demand.sides())),
            (Answer::Differs(_), None) => differs,
        }
    }

    /// The register's line, and indented lines under it.
    pub fn lines(&self) -> Vec<String> {
        let sides = self.demand.sides();
        let mut lines = vec![format!("{}: {}", self.register, self.line())];
        lines.extend(self.shown.iter().map(|shown| format!("    {}", shown.numbers(sides))));
        lines.extend(self.explained.iter().flat_map(|explained| explained.lines(self.register, sides)));
        lines
    }
}

/// Two routines, and what was found.
#[derive(Debug)]
pub struct Compared {
    pub old: String,
    pub new: String,
    /// Which registers count, if a convention decides.
    pub counted: Option<String>,
    pub told: Vec<Told>,
    pub refusals: Vec<Refusal>,
    pub verdict: Verdict,
    pub seconds: f64,
}

/// What happens, in order, while pairs are compared.
pub enum Event<'e> {
    /// Names of the two routines, and which registers count.
    Begin(&'e str, &'e str, Option<&'e str>),
    Told(&'e str, &'e str, &'e Told),
    /// With the name that distinguishes it if there are several.
    End(&'e Compared, Option<&'e str>),
    /// A function that one of the two objects has alone.
    Alone(&'e str, &'e str),
}

/// The registers that count: those that have to be equal, and those that a function has to keep.
struct Counted {
    line: Option<String>,
    equal: Vec<Register>,
    kept: Vec<u8>,
}

fn list(registers: &[Register]) -> String {
    match registers {
        [] => String::new(),
        [one] => one.to_string(),
        [first @ .., last] => format!("{} and {last}", first.iter().map(Register::to_string).collect::<Vec<_>>().join(", ")),
    }
}

/// What the choice and, for functions, the convention say. A register that is named and that neither routine writes is refused: it is a slip.
fn counted(old: &Routine, new: &Routine, choice: &Choice) -> Result<Counted, String> {
    let written = |register: u8| old.writes(register) || new.writes(register);
    let convention = old.function && new.function;
    if choice.result.is_some() && !convention {
        return Err("--result is for whole functions of objects; --registers names the registers of other code".to_string());
    }
    let named = choice.registers.as_ref().or(choice.result.as_ref());
    // a function may give back its first argument as it is
    let first = |register: &Register| choice.result.is_some() && register.number == 0;
    let unwritten: Vec<Register> = named.into_iter().flatten().filter(|register| !written(register.number) && !first(register)).copied().collect();
    if !unwritten.is_empty() {
        return Err(format!("neither {} nor {} writes {}", old.name, new.name, list(&unwritten)));
    }
    let functions = format!("{} and {}", old.name, new.name);
    if let Some(registers) = &choice.registers {
        let line = convention.then(|| format!("{functions}: {} {} (--registers)", list(registers), if registers.len() == 1 { "counts" } else { "count" }));
        return Ok(Counted { line, equal: registers.clone(), kept: Vec::new() });
    }
    if convention {
        let equal = choice.result.clone().unwrap_or_else(|| vec![Register { number: 0, half: false }]);
        let result = format!("{} {} the result", list(&equal), if equal.len() == 1 { "is" } else { "are" });
        let line = format!("{functions}: {result}, d8 to d15 have to be kept, no other register counts (AAPCS64)");
        return Ok(Counted { line: Some(line), equal, kept: (8..16).filter(|&register| written(register)).collect() });
    }
    let equal: Vec<Register> = (0..32).filter(|&number| written(number)).map(|number| Register { number, half: false }).collect();
    if equal.is_empty() {
        return Err(format!("neither {} nor {} writes a register: there is nothing to compare", old.name, new.name));
    }
    let line = (old.function || new.function || choice.from.or(choice.to).is_some()).then(|| format!("{functions}: each register that either writes counts"));
    Ok(Counted { line, equal, kept: Vec::new() })
}

/// Two routines by the stages.
fn routines(old: &Routine, new: &Routine, choice: &Choice, explain: bool, tell: &mut dyn FnMut(Event)) -> Result<(Option<String>, Vec<Told>), String> {
    let counted = counted(old, new, choice)?;
    tell(Event::Begin(&old.name, &new.name, counted.line.as_deref()));
    let nothing = Routine::nothing();
    let halves = |routine: &Routine| counted.kept.iter().filter(|&&r| routine.writes(r)).map(|&number| Register { number, half: true }).collect::<Vec<_>>();
    let asked = [
        (Pair { old, new }, counted.equal.clone()),
        (Pair { old: &nothing, new: old }, halves(old)),
        (Pair { old: &nothing, new }, halves(new)),
    ];
    let demands = [Demand::Equal, Demand::KeptBy("old"), Demand::KeptBy("new")];
    let mut all = Vec::new();
    stages::decide(&asked, &choice.settings, |k, register, answer| {
        let difference = if let Answer::Differs(difference) = &answer { Some(difference) } else { None };
        let shown = difference.map(|difference| Shown::of(&asked[k].0, register, difference));
        let explained = difference.filter(|_| explain).map(|difference| explain::explain(&asked[k].0, register, &difference.start));
        let told = Told { register, demand: demands[k], answer, shown, explained };
        tell(Event::Told(&old.name, &new.name, &told));
        all.push(told);
    });
    Ok((counted.line, all))
}

/// The verdict of what was told; of nothing there is none.
fn verdict(told: &[Told]) -> Option<Verdict> {
    let (first, others) = told.split_first()?;
    Some(Verdict::of(first.answer.verdict(), others.iter().map(|told| told.answer.verdict())))
}

/// All pairs of routines that two files have. There is one or more.
pub fn entry(entry: &Entry, input: &Input, explain: bool, tell: &mut dyn FnMut(Event)) -> Vec<Compared> {
    let begun = Instant::now();
    let names = [&entry.old, &entry.new].map(|path| on_a_line(&path.to_string_lossy()));
    let [old, new] = names;
    let refused = |old: String, new: String, refusals: Vec<Refusal>, begun: Instant| Compared {
        old,
        new,
        counted: None,
        told: Vec::new(),
        refusals,
        verdict: Verdict::Refused,
        seconds: begun.elapsed().as_secs_f64(),
    };
    let pairing = match input::pairing(entry, input) {
        Ok(pairing) => pairing,
        Err(refusals) => {
            let compared = refused(old, new, refusals, begun);
            tell(Event::End(&compared, None));
            return vec![compared];
        }
    };
    let mut all = Vec::new();
    for input::Found { old, new, routines: found } in pairing.found {
        let begun = Instant::now();
        let done = match found {
            Err(refusals) => Err(refusals),
            Ok((one, other)) => routines(&one, &other, &entry.choice, explain, tell).map_err(|reason| vec![Refusal::of_pair(reason)]),
        };
        let compared = match done {
            Err(refusals) => refused(old, new, refusals, begun),
            Ok((counted, told)) => match verdict(&told) {
                Some(verdict) => Compared { old, new, counted, told, refusals: Vec::new(), verdict, seconds: begun.elapsed().as_secs_f64() },
                None => refused(old, new, vec![Refusal::of_pair("no register counts".to_string())], begun),
            },
        };
        let name = compared.old.rsplit_once(':').map(|(_, name)| name.to_string()).filter(|_| pairing.several);
        tell(Event::End(&compared, name.as_deref()));
        all.push(compared);
    }
    for (file, name) in &pairing.alone {
        tell(Event::Alone(file, name));
    }
    all
}
