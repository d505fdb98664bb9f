//! One scene by all of them: what they give is compared first, then they are timed.

use std::fmt::Display;
use std::hint::black_box;
use std::process::exit;
use std::time::{Duration, Instant};

use plain_program::scan::{BY_QUALITY, PLAIN};
use plain_program::sine::Tables;
use uldrevin::{place, publish_into, tally_into, Cells, Refusal, Sums, Weighting, OUTSIDE};

use crate::pipeline::{self, Pipeline};
use crate::plain;
use crate::scene::{lists_of, Lists, Scene};
use crate::sweep::swept;
use crate::FULL_SIZE;

const LEAST_ROUNDS: u32 = 20;
/// How long one scene or call is worked, once it has had the least rounds.
const PATIENCE: Duration = Duration::from_secs(10);
/// Single calls take many times as long as a whole scan, and come once in so many rounds.
const ROUNDS_A_SINGLE: u32 = 10;

/// Rays that a sweep takes at a time.
pub const GROUPS: [usize; 2] = [1, 30];

/// The calls of a scan that are timed. The last is two of them, one after the other: the whole scan.
pub const CALLS: [&str; 4] = [
    "tally",
    "publish plain",
    "publish by quality",
    "tally and publish by quality",
];

pub struct Times {
    /// Nanoseconds of each of CALLS, by the library and by the plain program.
    pub calls: [f64; CALLS.len()],
    pub plain_calls: [f64; CALLS.len()],
    /// Nanoseconds a gate, as all that follow.
    pub whole: f64,
    pub single: f64,
    pub plain: f64,
    /// For each of GROUPS, where the scene has the full size.
    pub sweeps: Option<[f64; GROUPS.len()]>,
    pub pipeline: Option<pipeline::Measured>,
    pub rounds: u32,
}

fn number(answer: Result<(), Refusal>) -> u32 {
    answer.map_or_else(|refusal| refusal.number, |()| 0)
}

fn tally(scene: &Scene, lists: &mut Lists) -> u32 {
    let (entries, sums, _) = &mut lists.lent();
    number(tally_into(scene.head, scene.gate_lists(), entries, sums))
}

fn publish(weighting: Weighting, lists: &mut Lists) -> u32 {
    let (_, sums, cells) = lists.lent();
    let (means, cell_qualities) = (&mut cells.means, &mut cells.cell_qualities);
    number(publish_into(weighting, &sums, means, cell_qualities))
}

fn plain_tally(tables: &Tables, scene: &Scene, lists: &mut Lists) -> u32 {
    plain::tally(tables, scene, lists).err().unwrap_or(0)
}

fn plain_publish(weighting: i64, lists: &mut Lists) -> u32 {
    plain::publish(weighting, lists).err().unwrap_or(0)
}

/// Ledger and marks alone, gate by gate.
fn single_calls(scene: &Scene, lists: &mut Lists) -> u32 {
    let head = &scene.head;
    let ledger = lists.tally.ledger.chunks_exact_mut(head.gates as usize);
    let marks = lists.tally.marks.chunks_exact_mut(head.gates as usize);
    for ((&azimuth, ledger), marks) in scene.azimuths.iter().zip(ledger).zip(marks) {
        for ((gate, entry), mark) in (0..).zip(ledger).zip(marks) {
            match place(
                head.site,
                head.grid,
                azimuth,
                head.first + gate * head.spacing,
            ) {
                Ok(placement) => {
                    *entry = placement.cell.unwrap_or(OUTSIDE);
                    *mark = placement.mark.into();
                }
                Err(refusal) => return refusal.number,
            }
        }
    }
    0
}

/// The scenes that are fed to a sweep too.
fn is_swept(scene: &Scene) -> bool {
    (scene.head.rays, scene.head.gates) == FULL_SIZE
}

/// Ends the run where two lists differ.
fn same<T: PartialEq + Display>(name: &str, one: &[T], other: &[T], who: &str) {
    if let Some(place) = one.iter().zip(other).position(|(a, b)| a != b) {
        println!(
            "different: {name} {place} is {} by the whole scan and {} by {who}",
            one[place], other[place]
        );
        exit(1);
    }
}

fn same_sums(whole: &Sums, other: &Sums, who: &str) {
    same("count", &whole.counts, &other.counts, who);
    same("quality sum", &whole.quality_sums, &other.quality_sums, who);
    same("value sum", &whole.value_sums, &other.value_sums, who);
    let (weighted, others) = (&whole.weighted_sums, &other.weighted_sums);
    same("weighted sum", weighted, others, who);
}

fn same_cells(whole: &Cells, other: &Cells, who: &str) {
    same("mean", &whole.means, &other.means, who);
    same("quality", &whole.cell_qualities, &other.cell_qualities, who);
}

fn same_entries(whole: &Lists, other: &Lists, who: &str) {
    same("ledger", &whole.tally.ledger, &other.tally.ledger, who);
    same("mark", &whole.tally.marks, &other.tally.marks, who);
}

/// Ends the run where any of the lists differ.
fn same_lists(whole: &Lists, other: &Lists, who: &str) {
    same_entries(whole, other, who);
    same_sums(&whole.tally.sums, &other.tally.sums, who);
    same_cells(&whole.cells, &other.cells, who);
}

/// Works the sweeps once and compares what they give with the whole scan.
fn check_sweeps(scene: &Scene, whole: &Lists) {
    for group in GROUPS {
        let mut lists = lists_of(scene);
        let answer = swept(scene, group, &mut lists);
        if answer != 0 {
            println!("refused: a sweep of {group} rays at a time, by {answer}");
            exit(1);
        }
        same_lists(whole, &lists, &format!("a sweep of {group} rays at a time"));
    }
}

fn check_answers(answers: &[u32]) {
    if answers.iter().any(|&answer| answer != 0) {
        println!("refused: the answers are {answers:?}");
        exit(1);
    }
}

/// Works all of them once and compares what they give, both sheets too; answers the lists with the sheet by quality.
fn checked(tables: &Tables, scene: &Scene) -> Lists {
    let [mut whole, mut single, mut plain] = [(); 3].map(|()| lists_of(scene));
    check_answers(&[
        tally(scene, &mut whole),
        single_calls(scene, &mut single),
        plain_tally(tables, scene, &mut plain),
    ]);
    same_entries(&whole, &single, "single calls");
    for (weighting, number) in [
        (Weighting::Plain, PLAIN),
        (Weighting::ByQuality, BY_QUALITY),
    ] {
        check_answers(&[
            publish(weighting, &mut whole),
            plain_publish(number, &mut plain),
        ]);
        same_lists(&whole, &plain, "the plain program");
    }
    if is_swept(scene) {
        check_sweeps(scene, &whole);
    }
    whole
}

/// Nanoseconds of the work.
pub fn timed<T>(work: impl FnOnce() -> T) -> f64 {
    let start = Instant::now();
    black_box(work());
    start.elapsed().as_nanos() as f64
}

/// Nanoseconds of each of CALLS, by the library.
fn library_calls(scene: &Scene, lists: &mut Lists) -> [f64; 4] {
    let tallied = timed(|| tally(scene, lists));
    let by_quality = timed(|| publish(Weighting::ByQuality, lists));
    let plain = timed(|| publish(Weighting::Plain, lists));
    [tallied, plain, by_quality, tallied + by_quality]
}

/// The same by the plain program.
fn plain_calls(tables: &Tables, scene: &Scene, lists: &mut Lists) -> [f64; 4] {
    let tallied = timed(|| plain_tally(tables, scene, lists));
    let by_quality = timed(|| plain_publish(BY_QUALITY, lists));
    let plain = timed(|| plain_publish(PLAIN, lists));
    [tallied, plain, by_quality, tallied + by_quality]
}

/// Nanoseconds of the calls by the library and by the plain program, of single calls and of the sweeps, in one round.
fn round(tables: &Tables, scene: &Scene, lists: &mut [Lists; 2], with_single: bool) -> [f64; 11] {
    let [first, second] = black_box(lists);
    let [tally, plain, by_quality, whole] = library_calls(scene, first);
    let [ray_by_ray, in_groups] = match is_swept(scene) {
        true => GROUPS.map(|group| timed(|| swept(scene, group, first))),
        false => [f64::INFINITY; 2],
    };
    let [their_tally, their_plain, their_by_quality, their_whole] =
        plain_calls(tables, scene, second);
    let single = match with_single {
        true => timed(|| single_calls(scene, second)),
        false => f64::INFINITY,
    };
    [
        tally,
        plain,
        by_quality,
        whole,
        their_tally,
        their_plain,
        their_by_quality,
        their_whole,
        single,
        ray_by_ray,
        in_groups,
    ]
}

/// The least of each time over all rounds, which are given their numbers, and how many rounds there were.
pub fn best_round<const N: usize>(mut round: impl FnMut(u32) -> [f64; N]) -> ([f64; N], u32) {
    let (mut best, mut rounds, start) = ([f64::INFINITY; N], 0, Instant::now());
    while rounds < LEAST_ROUNDS || start.elapsed() < PATIENCE {
        for (least, now) in best.iter_mut().zip(round(rounds)) {
            *least = least.min(now);
        }
        rounds += 1;
    }
    (best, rounds)
}

pub fn measure(tables: &Tables, scene: &Scene, pipeline: Option<&Pipeline>) -> Times {
    let mut lists = [checked(tables, scene), lists_of(scene)];
    let ledger = &lists[0].tally.ledger;
    let pipeline = pipeline.and_then(|found| found.measure(scene, ledger));
    let (best, rounds) = best_round(|number| {
        let with_single = number % ROUNDS_A_SINGLE == 0;
        round(tables, black_box(scene), &mut lists, with_single)
    });
    let [calls @ .., _, _, _, _, _, _, _] = best;
    let [_, _, _, _, plain_calls @ .., single, ray_by_ray, in_groups] = best;
    let a_gate = |time: f64| time / scene.values.len() as f64;
    let ([.., whole], [.., plain]) = (calls, plain_calls);
    Times {
        calls,
        plain_calls,
        whole: a_gate(whole),
        single: a_gate(single),
        plain: a_gate(plain),
        sweeps: is_swept(scene).then_some([ray_by_ray, in_groups].map(a_gate)),
        pipeline,
        rounds,
    }
}
