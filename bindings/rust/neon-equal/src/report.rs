//! A run as one page: a row for each pair, with the difference by lanes behind a click. The page has all that it needs in itself.
use crate::compare::{Compared, Demand, Told};
use crate::output::{Count, PROGRAM};
use crate::verdict::Verdict;

const STYLE: &str = "\
body { font-family: sans-serif; margin: 2em; color: #222; background: #fff; }
table { border-collapse: collapse; }
th, td { border: 1px solid #bbb; padding: 0.3em 0.6em; text-align: left; vertical-align: top; }
th { background: #eee; }
td.number { text-align: right; }
pre { margin: 0.4em 0; white-space: pre-wrap; }
summary { cursor: pointer; }
.equal { background: #e4f4e4; }
.differs { background: #f8dcdc; }
.undecided { background: #faf2d4; }
.refused { background: #e8e8f0; }
";

/// Text as HTML.
fn html(text: &str) -> String {
    let mut out = String::new();
    for c in text.chars() {
        match c {
            '&' => out += "&amp;",
            '<' => out += "&lt;",
            '>' => out += "&gt;",
            '"' => out += "&quot;",
            c if (c as u32) < 0x20 && c != '\n' => out.push('\u{fffd}'),
            c => out.push(c),
        }
    }
    out
}

fn class(verdict: Verdict) -> &'static str {
    match verdict {
        Verdict::Equal => "equal",
        Verdict::Differs => "differs",
        Verdict::NotDecided => "undecided",
        Verdict::Refused => "refused",
    }
}

/// What a pair's verdict rests on, each register by itself.
fn rests_on(compared: &Compared) -> String {
    let one = |told: &Told| match told.demand {
        Demand::KeptBy(side) if told.answer.verdict() == Verdict::Equal => format!("{}, kept by {side}: {}", told.register, told.answer.basis()),
        _ => format!("{}: {}", told.register, told.answer.basis()),
    };
    if compared.verdict == Verdict::Refused {
        return "nothing: not compared".to_string();
    }
    compared.told.iter().map(one).collect::<Vec<_>>().join("; ")
}

/// The lines behind a click.
fn details(compared: &Compared) -> Vec<String> {
    let refused = compared.refusals.iter().flat_map(|refusal| refusal.lines().collect::<Vec<_>>());
    let told = compared.told.iter().filter(|told| told.answer.verdict() != Verdict::Equal).flat_map(|told| told.lines());
    compared.counted.clone().into_iter().chain(refused).chain(told).collect()
}

fn row(number: usize, compared: &Compared) -> String {
    let verdict = match (compared.verdict, details(compared)) {
        (Verdict::Equal, _) => Verdict::Equal.to_string(),
        (verdict, lines) => format!("<details><summary>{verdict}</summary>\n<pre>{}</pre></details>", html(&lines.join("\n"))),
    };
    format!(
        "<tr class=\"{}\"><td class=\"number\">{number}</td> <td>{}</td> <td>{}</td> <td>{verdict}</td> <td>{}</td> <td class=\"number\">{:.2}</td></tr>\n",
        class(compared.verdict),
        html(&compared.old),
        html(&compared.new),
        html(&rests_on(compared)),
        compared.seconds
    )
}

pub fn page(all: &[Compared], version: &str) -> String {
    let rows: String = all.iter().enumerate().map(|(k, compared)| row(k + 1, compared)).collect();
    format!(
        "<!DOCTYPE html>\n<html lang=\"en\">\n<head>\n<meta charset=\"utf-8\">\n<title>{PROGRAM}: {count}</title>\n<style>\n{STYLE}</style>\n</head>\n<body>\n\
         <h1>{PROGRAM}</h1>\n<p>{count}.</p>\n<p>{version}</p>\n\
         <table>\n<thead>\n<tr><th>No.</th> <th>Old</th> <th>New</th> <th>Answer</th> <th>Rests on</th> <th>Seconds</th></tr>\n</thead>\n\
         <tbody>\n{rows}</tbody>\n</table>\n\
         <p>A click on an answer shows the difference by lanes, what is left, or why a pair was refused.</p>\n</body>\n</html>\n",
        count = Count::of(all),
        version = html(version),
    )
}

#[cfg(test)]
mod tests {
    use super::*;

    #[test]
    fn text_stays_text() {
        assert_eq!(html("a<b>&\"c\"\u{1}\n"), "a&lt;b&gt;&amp;&quot;c&quot;\u{fffd}\n");
    }

    #[test]
    fn nothing_is_loaded() {
        let compared = Compared {
            old: "<script src=x>".to_string(),
            new: "b".to_string(),
            counted: None,
            told: Vec::new(),
            refusals: Vec::new(),
            verdict: Verdict::Refused,
            seconds: 0.5,
        };
        let page = page(&[compared], "v");
        assert!(["<script", "src=", "href=", "url(", "@import", "<link"].iter().all(|load| !page.replace("&lt;script src=x&gt;", "").contains(load)), "{page}");
    }
}
