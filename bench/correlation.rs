// Times the correlation question on the sums of every selection of a full compliance campaign: the proved comparison of
// fractions beside the same question by products of 128 bits.
use std::hint::black_box;
use std::time::Instant;

unsafe extern "C" {
    fn curatsef_correlated(x: u64, y: u64, z: u64) -> bool;
}

#[inline(never)]
fn by_products(x: u64, y: u64, z: u64) -> bool {
    x > 0 && y > 0 && z > 0 && 16 * (x as u128) * (y as u128) <= 25 * (z as u128) * (z as u128)
}

type Number = u64;

include!("sums.rs");

// The sums of the runs that each set of at most three struck positions leaves: 299 sets.
fn level(mean: u64, seed: &mut u64) -> Vec<Sums> {
    let mut next = |spread: u64| {
        *seed = seed.wrapping_mul(6364136223846793005).wrapping_add(1442695040888963407);
        (*seed >> 33) % (2 * spread + 1)
    };
    let runs: Vec<Sums> = (0..12)
        .map(|_| Sums::of(mean + next(mean / 8) - mean / 8, mean + next(mean / 8) - mean / 8))
        .collect();
    (0u32..4096)
        .filter(|set| set.count_ones() <= 3)
        .map(|set| {
            (0..12)
                .filter(|k| set >> k & 1 == 0)
                .fold(Sums::default(), |a, k| a.plus(&runs[k]))
        })
        .collect()
}

fn time(name: &str, levels: &[Vec<Sums>; 3], question: impl Fn(u64, u64, u64) -> bool) -> f64 {
    let mut best = f64::MAX;
    let (mut asked, mut yes) = (0u64, 0u64);
    for _ in 0..5 {
        (asked, yes) = (0, 0);
        let start = Instant::now();
        for high in &levels[2] {
            for mid in &levels[1] {
                let above = mid.plus(high);
                for low in &levels[0] {
                    let s = low.plus(&above);
                    let x = s.n * s.rr - s.r * s.r;
                    let y = s.n * s.pp - s.p * s.p;
                    let z = (s.n * s.rp).saturating_sub(s.r * s.p);
                    asked += 1;
                    yes += question(x, y, z) as u64;
                }
            }
        }
        best = best.min(start.elapsed().as_secs_f64());
    }
    println!("{name:<22} {asked} asked, {yes} yes, {:.3} s", best);
    best
}

fn main() {
    let mut seed = 16;
    for (name, means) in [("apart", [2000, 2300, 2600]), ("close", [2000, 2050, 2100])] {
        println!("levels {name}");
        let levels = means.map(|mean| level(mean, &mut seed));
        let none = time("  sums alone", &levels, |x, y, z| black_box(x ^ y ^ z) == 1);
        let products = time("  128-bit products", &levels, by_products);
        let fractions = time("  proved fractions", &levels, |x, y, z| unsafe { curatsef_correlated(x, y, z) });
        println!(
            "  a question: products {:.1} ns, fractions {:.1} ns",
            (products - none) / 26.730899e6 * 1e9,
            (fractions - none) / 26.730899e6 * 1e9
        );
    }
}
