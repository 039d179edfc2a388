// The peer of the fractions: the same tasks in plain Rust, with `i128`, Knuth's sums and Euclid's greatest common divisor.
use std::io::BufRead;

#[derive(Clone, Copy)]
struct Frac {
    numer: i128,
    denom: i128,
}

fn gcd(a: u128, b: u128) -> u128 {
    let (mut x, mut y) = (a, b);
    while y != 0 {
        (x, y) = (y, x % y);
    }
    x
}

fn within(size: Option<i128>) -> Option<i128> {
    size.filter(|n| *n != i128::MIN)
}

impl Frac {
    fn of(n: i128, d: i128) -> Option<Frac> {
        let g = gcd(n.unsigned_abs(), d.unsigned_abs());
        let numer = i128::try_from(n.unsigned_abs() / g).ok()?;
        let denom = i128::try_from(d.unsigned_abs() / g).ok()?;
        Some(Frac { numer: if (n < 0) != (d < 0) { -numer } else { numer }, denom })
    }

    fn add(self, other: Frac) -> Option<Frac> {
        let g = gcd(self.denom as u128, other.denom as u128) as i128;
        let left = within(self.numer.checked_mul(other.denom / g))?;
        let right = within(other.numer.checked_mul(self.denom / g))?;
        let total = within(left.checked_add(right))?;
        let h = gcd(total.unsigned_abs(), g as u128) as i128;
        let denom = (self.denom / g).checked_mul(other.denom / h)?;
        Some(Frac { numer: total / h, denom })
    }

    fn mul(self, other: Frac) -> Option<Frac> {
        let g = gcd(self.numer.unsigned_abs(), other.denom as u128) as i128;
        let h = gcd(other.numer.unsigned_abs(), self.denom as u128) as i128;
        let numer = within((self.numer / g).checked_mul(other.numer / h))?;
        let denom = (self.denom / h).checked_mul(other.denom / g)?;
        Some(Frac { numer, denom })
    }
}

struct Numbers(u64);

impl Numbers {
    fn next(&mut self) -> u64 {
        self.0 = self.0.wrapping_mul(6364136223846793005).wrapping_add(1442695040888963407);
        self.0 >> 16
    }

    fn of(&mut self, digits: &str) -> i128 {
        match digits {
            "small" => (self.next() % 999) as i128 + 1,
            "middle" => (self.next() % 999_999_999_999_999) as i128 + 1,
            "mixed" => (self.next() % 99) as i128 + 1,
            _ => {
                let high = (self.next() % 0x8000) as i128;
                let middle = (self.next() % 0x1_0000_0000) as i128;
                let low = (self.next() % 0x1_0000_0000) as i128;
                (1 << 119) + (high << 64) + (middle << 32) + low
            }
        }
    }

    fn with_sign(&mut self, size: i128) -> i128 {
        if self.next() % 2 == 0 { size } else { -size }
    }

    /// A numerator and a denominator, which at `large` is the shared one.
    fn parts(&mut self, digits: &str, shared: i128) -> (i128, i128) {
        if digits == "mixed" {
            return self.mixed();
        }
        let size = self.of(digits);
        let n = self.with_sign(size);
        (n, if digits == "large" { shared } else { self.of(digits) })
    }

    /// A whole number, a half or a third of 2 digits, and one time in ten both parts of 10 digits at most.
    fn mixed(&mut self) -> (i128, i128) {
        let kind = self.next() % 10;
        let most = if kind == 9 { 9_999_999_999 } else { 99 };
        let size = (self.next() % most) as i128 + 1;
        let n = self.with_sign(size);
        let d = match kind {
            0..=3 => 1,
            4..=6 => 2,
            7..=8 => 3,
            _ => (self.next() % most) as i128 + 1,
        };
        (n, d)
    }
}

fn operands(digits: &str, seed: u64, count: u32, is_turned: bool) -> Vec<Frac> {
    let mut shared = Numbers(1);
    let both = [shared.of(digits), shared.of(digits)];
    let mut numbers = Numbers(seed);
    (0..count)
        .map(|place| {
            let (n, d) = numbers.parts(digits, both[place as usize % 2]);
            if is_turned { Frac::of(d, n) } else { Frac::of(n, d) }.expect("both parts are small")
        })
        .collect()
}

fn with((sum, wide): (u64, u64), result: Option<Frac>) -> (u64, u64) {
    match result {
        Some(x) => {
            let parts = (x.numer.unsigned_abs() as u64).wrapping_add(x.denom as u64).wrapping_add((x.numer < 0) as u64);
            (sum.wrapping_mul(31).wrapping_add(parts), wide)
        }
        None => (sum, wide + 1),
    }
}

fn run(digits: &str, operation: &str, count: u32, rounds: u32) -> (u64, u64) {
    let left = operands(digits, 2, count, false);
    let right = operands(digits, 3, count, operation == "product");
    let mut total = (0, 0);
    for _ in 0..rounds {
        if operation == "sum" {
            for x in &left {
                for y in &right {
                    total = with(total, x.add(*y));
                }
            }
        } else {
            for x in &left {
                for y in &right {
                    total = with(total, x.mul(*y));
                }
            }
        }
    }
    total
}

fn main() {
    for line in std::io::stdin().lock().lines() {
        let line = line.expect("a line");
        let words: Vec<&str> = line.split(' ').collect();
        match words[..] {
            [digits @ ("small" | "middle" | "mixed" | "large"), operation @ ("sum" | "product"), count, rounds] => {
                let (sum, wide) = run(digits, operation, count.parse().expect("a count"), rounds.parse().expect("a count"));
                println!("{line}: {sum} wide {wide}");
            }
            _ => println!("not a task: {line}"),
        }
    }
}
