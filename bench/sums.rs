// The sums of a list of pairs, in the including file's `Number`.
#[derive(Clone, Copy, Default)]
struct Sums {
    n: Number,
    r: Number,
    p: Number,
    rr: Number,
    pp: Number,
    rp: Number,
}

impl Sums {
    fn of(r: Number, p: Number) -> Sums {
        Sums { n: 1, r, p, rr: r * r, pp: p * p, rp: r * p }
    }

    fn plus(&self, o: &Sums) -> Sums {
        Sums {
            n: self.n + o.n,
            r: self.r + o.r,
            p: self.p + o.p,
            rr: self.rr + o.rr,
            pp: self.pp + o.pp,
            rp: self.rp + o.rp,
        }
    }
}
