//! The exchange run in plain Rust, over i128 fractions in lowest terms and rows of nonzero cells: what `simplex` is measured against.
//! It reads programs in the form of programs.txt from the file that it is given, and writes for each its value or `wide`, its
//! exchanges and its nanoseconds.
use std::time::Instant;

const MOST: i128 = i64::MAX as i128;

#[derive(Clone, Copy, PartialEq)]
struct Fraction {
    num: i64,
    den: i64,
}

const ZERO: Fraction = Fraction { num: 0, den: 1 };

fn gcd(mut x: u128, mut y: u128) -> u128 {
    while y > u64::MAX as u128 {
        (x, y) = (y, x % y);
    }
    if y == 0 {
        return x;
    }
    gcd_small(y as u64, (x % y) as u64) as u128
}

fn gcd_small(a: u64, b: u64) -> u64 {
    if a == 0 || b == 0 {
        return a | b;
    }
    let (mut x, mut y) = (a >> a.trailing_zeros(), b >> b.trailing_zeros());
    while x != y {
        let (least, most) = (x.min(y), x.max(y));
        x = least;
        y = (most - least) >> (most - least).trailing_zeros();
    }
    x << a.trailing_zeros().min(b.trailing_zeros())
}

impl Fraction {
    fn whole(n: u64) -> Fraction {
        Fraction { num: n as i64, den: 1 }
    }
    fn ratio(num: i128, den: i128) -> Option<Fraction> {
        let common = gcd(num.unsigned_abs(), den.unsigned_abs()) as i128;
        let (num, den) = if common == 1 { (num, den) } else { (num / common, den / common) };
        (num.abs() <= MOST && den <= MOST).then_some(Fraction { num: num as i64, den: den as i64 })
    }
    fn parts(self) -> (i128, i128) {
        (self.num as i128, self.den as i128)
    }
    fn sub(self, other: Fraction) -> Option<Fraction> {
        let ((a, b), (c, d)) = (self.parts(), other.parts());
        Fraction::ratio(a * d - c * b, b * d)
    }
    fn mul(self, other: Fraction) -> Option<Fraction> {
        let ((a, b), (c, d)) = (self.parts(), other.parts());
        Fraction::ratio(a * c, b * d)
    }
    fn div(self, other: Fraction) -> Option<Fraction> {
        let ((a, b), (c, d)) = (self.parts(), other.parts());
        if c > 0 { Fraction::ratio(a * d, b * c) } else { Fraction::ratio(-a * d, -b * c) }
    }
    fn is_below(self, other: Fraction) -> bool {
        let ((a, b), (c, d)) = (self.parts(), other.parts());
        a * d < c * b
    }
}

struct Row(Vec<(u32, Fraction)>);

impl Row {
    fn cell(&self, v: usize) -> Fraction {
        self.0.binary_search_by_key(&(v as u32), |entry| entry.0).map_or(ZERO, |at| self.0[at].1)
    }
    fn first_above(&self, end: usize) -> Option<usize> {
        self.0.iter().find(|entry| entry.1.num > 0 && (entry.0 as usize) < end).map(|entry| entry.0 as usize)
    }
    fn divided(&self, by: Fraction) -> Option<Row> {
        self.0.iter().map(|entry| Some((entry.0, entry.1.div(by)?))).collect::<Option<Vec<_>>>().map(Row)
    }
    fn left(&self, f: Fraction, pivot: &Row) -> Option<Row> {
        let (a, b) = (&self.0, &pivot.0);
        let mut left = Vec::with_capacity(a.len() + b.len());
        let (mut i, mut j) = (0, 0);
        while i < a.len() || j < b.len() {
            if j == b.len() || (i < a.len() && a[i].0 < b[j].0) {
                left.push(a[i]);
                i += 1;
            } else if i == a.len() || b[j].0 < a[i].0 {
                let product = f.mul(b[j].1)?;
                left.push((b[j].0, Fraction { num: -product.num, den: product.den }));
                j += 1;
            } else {
                let value = a[i].1.sub(f.mul(b[j].1)?)?;
                if value.num != 0 {
                    left.push((a[i].0, value));
                }
                i += 1;
                j += 1;
            }
        }
        Some(Row(left))
    }
}

fn first_rows(line: &str) -> (usize, Vec<Row>) {
    let mut parts = line.split(';');
    let costs: Vec<u64> = parts.next().unwrap().split_whitespace().map(|word| word.parse().unwrap()).collect();
    let lines: Vec<&str> = parts.collect();
    let (n, m) = (costs.len(), lines.len());
    let mut rows = Vec::new();
    for (i, part) in lines.iter().enumerate() {
        let mut words = part.split_whitespace();
        let limit = words.next().unwrap().parse().unwrap();
        let mut cells = vec![ZERO; n + m + 1];
        for word in words {
            let (column, number) = word.split_once(':').unwrap();
            cells[column.parse::<usize>().unwrap()] = Fraction::whole(number.parse().unwrap());
        }
        cells[n + i] = Fraction::whole(1);
        cells[n + m] = Fraction::whole(limit);
        rows.push(cells);
    }
    let mut cells = vec![ZERO; n + m + 1];
    for (column, cost) in costs.iter().enumerate() {
        cells[column] = Fraction::whole(*cost);
    }
    rows.push(cells);
    let sparse = |cells: Vec<Fraction>| cells.into_iter().enumerate().filter(|cell| cell.1 != ZERO).map(|cell| (cell.0 as u32, cell.1)).collect();
    (n, rows.into_iter().map(|cells| Row(sparse(cells))).collect())
}

fn exchange(rows: &mut [Row], basis: &mut [usize], e: usize, place: usize) -> Option<()> {
    let mut best: Option<(usize, Fraction)> = None;
    for i in 0..basis.len() {
        let cell = rows[i].cell(e);
        if cell.num > 0 {
            let ratio = rows[i].cell(place).div(cell)?;
            match best {
                Some((r, least)) if !(ratio.is_below(least) || (ratio == least && basis[i] < basis[r])) => {}
                _ => best = Some((i, ratio)),
            }
        }
    }
    let r = best?.0;
    let pivot = rows[r].divided(rows[r].cell(e))?;
    for i in 0..rows.len() {
        let f = rows[i].cell(e);
        if i != r && f.num != 0 {
            rows[i] = rows[i].left(f, &pivot)?;
        }
    }
    rows[r] = pivot;
    basis[r] = e;
    Some(())
}

fn main() {
    let path = std::env::args().nth(1).unwrap();
    for line in std::fs::read_to_string(path).unwrap().lines().filter(|line| !line.is_empty() && !line.starts_with('#')) {
        let start = Instant::now();
        let (n, mut rows) = first_rows(line);
        let m = rows.len() - 1;
        let mut basis: Vec<usize> = (n..n + m).collect();
        let mut exchanges = 0;
        let mut wide = false;
        while let Some(e) = rows[m].first_above(n + m) {
            exchanges += 1;
            if exchange(&mut rows, &mut basis, e, n + m).is_none() {
                wide = true;
                break;
            }
        }
        let value = rows[m].cell(n + m);
        let text = if wide { "wide".to_string() } else { format!("{}/{}", -value.num, value.den) };
        println!("{text} {exchanges} {}", start.elapsed().as_nanos());
    }
}
