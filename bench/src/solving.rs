//! Whole solves and checks of answers: the program, an earlier build of it where `BSSS_BEFORE` names one, and ordinary Rust. All
//! answer the same.

use crate::exclusion::{Polygon, polygon_lines};
use crate::largest;
use crate::numbers::Numbers;
use crate::program::{PROGRAM, SLANT, numbers_of, run, run_at};
use crate::reference::{self, Outcome};
use crate::root_estimate::{EstimatedRoots, Roots, StdRoots};
use std::fmt::Write;
use std::time::Instant;

/// How often each is timed, in turn. The best time counts.
const ROUNDS: usize = 3;

/// An instance, and the words of its solve.
struct Case {
    name: &'static str,
    words: &'static [&'static str],
    text: String,
    /// Whether ordinary Rust solves it too.
    has_reference: bool,
}

impl Case {
    /// The number that the words give this name.
    fn setting(&self, name: &str) -> Option<i64> {
        let value = |word: &&str| word.strip_prefix(name)?.strip_prefix('=')?.parse().ok();
        self.words.iter().find_map(value)
    }

    /// The solve in ordinary Rust, and its time in milliseconds.
    fn reference<R: Roots>(&self) -> (Outcome, f64) {
        let budget = self.setting("budget").unwrap_or(100_000);
        let start = Instant::now();
        let outcome = reference::solve::<R>(&self.text, self.setting("gap"), budget as usize);
        (outcome, start.elapsed().as_secs_f64() * 1000.0)
    }
}

/// A made instance text with each point line changed by its number.
fn changed(made: &str, change: impl Fn(usize, &str) -> String) -> String {
    let mut count = 0;
    let mut text = String::new();
    for line in made.lines() {
        if line.starts_with("point ") {
            text += &change(count, line);
            count += 1;
        } else {
            text += line;
        }
        text.push('\n');
    }
    text
}

/// Every second point repels.
fn with_signs(made: &str) -> String {
    changed(made, |k, line| {
        let (place, weight) = line.rsplit_once(' ').unwrap();
        format!("{place} {}{weight}", if k % 2 == 1 { "-" } else { "" })
    })
}

/// The points have cutoffs of 10,000 to 71,425 lengths, in an extent of 100,000.
fn with_cutoffs(made: &str) -> String {
    changed(made, |k, line| format!("{line} {}", 10_000 + 15 * k)).replacen("siting 1", "siting 2", 1)
}

/// An instance with as many points, polygons and vertices as may be. All 8,192 vertices are permitted.
fn fullest() -> String {
    let mut numbers = Numbers::new();
    let mut coordinate = || (numbers.next() % 2_000_001) as i64 - 1_000_000;
    let mut text = String::from("siting 1\nkind sum\n");
    for k in 0..4096 {
        writeln!(text, "point {} {} {}", coordinate(), coordinate(), 1 + k % 3906).unwrap();
    }
    let rings = |radius: i64| -> Vec<Polygon> {
        let middle = |k: i64| 240_000 * k - 840_000;
        (0..64).map(|k| Polygon::round(middle(k % 8), middle(k / 8), radius)).collect()
    };
    text + &polygon_lines("permit", &rings(110_000)) + &polygon_lines("forbid", &rings(60_000)) + "end\n"
}

fn cases() -> Vec<Case> {
    let (made, _) = run(&["make", "seed=7", "points=4096"], b"");
    let case = |name, words, text| Case { name, words, text, has_reference: true };
    let without = |name, words, text| Case { has_reference: false, ..case(name, words, text) };
    vec![
        case("4,096 made points", &[], made.clone()),
        case("gap=0 budget=20000", &["gap=0", "budget=20000"], made.clone()),
        case("kind max", &[], made.replacen("kind sum", "kind max", 1)),
        case("half repel, budget=10000", &["budget=10000"], with_signs(&made)),
        case("cutoffs", &[], with_cutoffs(&made)),
        without("every limit, budget=2000", &["budget=2000"], fullest()),
        without("one town", &["gap=0", "budget=1000000", "pool=1000000"], SLANT.to_string()),
    ]
}

/// What an answer says of its solve.
fn outcome_of(answer: &str) -> Outcome {
    let head = |word: &str| numbers_of(answer, word);
    let nodes = answer.lines().skip_while(|line| !line.starts_with("root ")).count() - 2;
    let cost = head("cost");
    Outcome { cost: (cost[0], cost[1]), bound: head("bound")[0], leases: head("leases")[0] as usize, squares: nodes }
}

/// The best time of each column, in milliseconds.
fn best(rounds: &[Vec<f64>]) -> Vec<f64> {
    (0..rounds[0].len()).map(|k| rounds.iter().map(|round| round[k]).fold(f64::MAX, f64::min)).collect()
}

/// The times of the programs at these paths, in milliseconds. All write the same, which is returned.
fn run_all(programs: &[String], words: &[&str], input: &str) -> (String, Vec<f64>) {
    let mut runs: Vec<_> = programs.iter().map(|path| run_at(path, words, input.as_bytes())).collect();
    assert!(runs.iter().all(|it| it.0 == runs[0].0), "both programs write the same for {words:?}");
    let times = runs.iter().map(|it| it.1).collect();
    (runs.swap_remove(0).0, times)
}

/// The best times of the programs' checks of an answer, in milliseconds. All accept it.
fn checks(programs: &[String], answer: &str) -> Vec<f64> {
    let round = |_| {
        let (said, times) = run_all(programs, &["check"], answer);
        assert_eq!(said, "accepted\n");
        times
    };
    best(&(0..ROUNDS).map(round).collect::<Vec<_>>())
}

/// The best times of the programs' solves, and then of those in ordinary Rust, in milliseconds, and the answer.
fn solves(programs: &[String], case: &Case) -> (String, Vec<f64>) {
    let words = [&["solve"], case.words].concat();
    let mut answer = String::new();
    let round = |_| {
        let (said, mut times) = run_all(programs, &words, &case.text);
        if case.has_reference {
            for (outcome, time) in [case.reference::<StdRoots>(), case.reference::<EstimatedRoots>()] {
                assert_eq!(outcome, outcome_of(&said), "{}", case.name);
                times.push(time);
            }
        }
        answer = said;
        times
    };
    let times = best(&(0..ROUNDS).map(round).collect::<Vec<_>>());
    (answer, times)
}

/// The times of programs, and where there are two of them how many times the first one's the second takes.
fn columns(times: &[f64]) -> Vec<String> {
    let mut columns: Vec<_> = times.iter().map(|time| format!("{time:.0}")).collect();
    if let [before, after] = times {
        columns.push(format!("{:.2}", after / before));
    }
    columns
}

fn print_row(name: &str, columns: &[String]) {
    println!("| {name} | {} |", columns.join(" | "));
}

/// Prints the times.
pub fn measure() {
    let programs: Vec<_> = std::env::var("BSSS_BEFORE").into_iter().chain([PROGRAM.to_string()]).collect();
    let count = programs.len();
    let titles = |what: &str| match count {
        1 => vec![what.to_string()],
        _ => vec![format!("{what} before"), format!("{what} after"), "after / before".to_string()],
    };
    println!("whole solves and checks, ms: the program, and ordinary Rust by u128::isqrt and by the same estimate of roots");
    let references = ["by isqrt", "program / isqrt", "by estimate", "program / estimate"].map(String::from);
    let head = [titles("solve"), references.to_vec(), titles("check")].concat();
    print_row("", &head);
    print_row("---", &vec!["---".to_string(); head.len()]);
    for case in cases() {
        let (answer, times) = solves(&programs, &case);
        let ours = times[count - 1];
        let beside = |time: &f64| [format!("{time:.0}"), format!("{:.2}", ours / time)];
        let references: Vec<_> = times[count..].iter().flat_map(beside).chain(vec![String::new(); 4]).take(4).collect();
        let Outcome { leases, squares, .. } = outcome_of(&answer);
        let name = format!("{} ({leases} leases, {squares} squares)", case.name);
        print_row(&name, &[columns(&times[..count]), references, columns(&checks(&programs, &answer))].concat());
    }
    let answer = largest::answer();
    let blank = vec![String::new(); head.len() - titles("check").len()];
    let name = format!("the largest answer, of {} bytes ({} squares)", answer.len(), outcome_of(&answer).squares);
    print_row(&name, &[blank, columns(&checks(&programs, &answer))].concat());
}
