// Times a plain, unproved judge of the campaign in crates/worst, and the proved program that judges it, by turns.
use std::hint::black_box;
use std::process::Command;
use std::time::{Duration, Instant};

type Number = i64;

include!("sums.rs");

struct Head {
    emission: i64,
    span: i64,
}

const STUDENT: [i64; 13] = [0, 0, 0, 4303, 3182, 2776, 2571, 2447, 2365, 2306, 2262, 2228, 2201];
const CRITICAL: [i64; 13] = [0, 0, 0, 0, 0, 0, 0, 0, 0, 3438, 3197, 2978, 2817];

// PS-16 for compliance use, in ppm.
fn accurate(head: &Head, s: &Sums) -> bool {
    if s.n < 3 {
        return false;
    }
    let d = (s.r - s.p).abs();
    if s.p < 100 * s.n {
        return d <= 20 * s.n;
    }
    let limit = if s.p > 1000 * s.n { 10 } else { 20 };
    let reference = if 2 * s.r < s.n * head.emission { s.n * head.emission } else { s.r };
    let left = limit * reference - 100 * d;
    let w = s.n * (s.rr - 2 * s.rp + s.pp) - d * d;
    let t = STUDENT[s.n as usize];
    left >= 0 && (t * t) as i128 * w as i128 <= 100 * (s.n - 1) as i128 * left as i128 * left as i128
}

fn steady(head: &Head, s: &Sums) -> bool {
    if s.n < 9 {
        return false;
    }
    let x = s.n * s.rr - s.r * s.r;
    let y = s.n * s.pp - s.p * s.p;
    let f = CRITICAL[s.n as usize];
    let g = (3 * head.span).min(5000);
    1000 * y <= f * x || 10_000_000 * y as i128 <= (f * s.n * (s.n - 1)) as i128 * (g * g) as i128
}

fn waived(head: &Head, s: &Sums) -> bool {
    s.r < 100 * s.n || 20 * s.r < s.n * head.emission
}

fn together(head: &Head, low: &Sums, mid: &Sums, high: &Sums) -> bool {
    let all = [low, mid, high];
    if all.iter().all(|s| waived(head, s)) {
        return true;
    }
    let s = all
        .iter()
        .filter(|s| !waived(head, s))
        .fold(Sums::default(), |a, s| a.plus(s));
    let x = s.n * s.rr - s.r * s.r;
    let y = s.n * s.pp - s.p * s.p;
    let z = s.n * s.rp - s.r * s.p;
    x > 0 && y > 0 && z > 0 && 25 * z as i128 * z as i128 >= 16 * x as i128 * y as i128
}

struct Entry {
    struck: u32,
    kept: Sums,
}

// The sets that fit and get both yeses.
fn entries(head: &Head, runs: &[Sums]) -> Vec<Entry> {
    (0u32..1 << runs.len())
        .filter(|set| set.count_ones() <= 3 && runs.len() as u32 - set.count_ones() >= 9)
        .map(|set| Entry {
            struck: set.count_ones(),
            kept: (0..runs.len())
                .filter(|k| set >> k & 1 == 0)
                .fold(Sums::default(), |a, k| a.plus(&runs[k])),
        })
        .filter(|e| accurate(head, &e.kept) && steady(head, &e.kept))
        .collect()
}

// How many runs the best selection strikes, and how many selections were asked.
fn judge(head: &Head, levels: &[Vec<Sums>; 3]) -> (Option<u32>, u64) {
    let [low, mid, high] = [0, 1, 2].map(|k| entries(head, &levels[k]));
    let mut asked = 0;
    for total in 0..=9 {
        for h in &high {
            for m in &mid {
                if h.struck + m.struck > total || total - h.struck - m.struck > 3 {
                    continue;
                }
                for l in &low {
                    if l.struck != total - h.struck - m.struck {
                        continue;
                    }
                    asked += 1;
                    if together(head, &l.kept, &m.kept, &h.kept) {
                        return (Some(total), asked);
                    }
                }
            }
        }
    }
    (None, asked)
}

fn main() {
    let proved = std::env::args().nth(1).expect("the proved program");
    let runs: Vec<Sums> = (0..12)
        .map(|k| Sums::of(if k % 2 == 0 { 1960 } else { 2040 }, if k % 4 < 2 { 1960 } else { 2040 }))
        .collect();
    let head = Head { emission: 2000, span: 5000 };
    let levels = [runs.clone(), runs.clone(), runs];
    let (mut plain, mut ours) = (Duration::MAX, Duration::MAX);
    for _ in 0..7 {
        let start = Instant::now();
        let answer = judge(black_box(&head), black_box(&levels));
        plain = plain.min(start.elapsed());
        assert_eq!(answer, (None, 26_730_899));
        let start = Instant::now();
        let output = Command::new(&proved).output().expect("the proved program runs");
        ours = ours.min(start.elapsed());
        assert_eq!(output.stdout, b"not certified 43\n");
    }
    println!(
        "26730899 selections, best of 7: proved {:.3} s, plain {:.3} s, {:.2} of it",
        ours.as_secs_f64(),
        plain.as_secs_f64(),
        ours.as_secs_f64() / plain.as_secs_f64()
    );
}
