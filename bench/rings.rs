// Counts the rings of a skin of 1,048,576 darts in plain Rust: by tables, and by a Quad computed from a torus.
use std::time::Instant;

const SIDE: u32 = 256;

trait Skin {
    fn n(&self) -> u32;
    fn next(&self, h: u32) -> u32;
    fn twin(&self, h: u32) -> u32;
}

struct Torus(u32);

impl Torus {
    fn prev(&self, d: u32) -> u32 {
        d / 4 * 4 + (d + 3) % 4
    }
}

impl Skin for Torus {
    fn n(&self) -> u32 {
        4 * self.0 * self.0
    }
    fn next(&self, d: u32) -> u32 {
        d / 4 * 4 + (d + 1) % 4
    }
    fn twin(&self, d: u32) -> u32 {
        let w = self.0;
        let (x, y) = (d / 4 % w, d / 4 / w);
        let dart = |x: u32, y: u32, j: u32| 4 * (y * w + x) + j;
        match d % 4 {
            0 => dart(x, (y + w - 1) % w, 2),
            1 => dart((x + 1) % w, y, 3),
            2 => dart(x, (y + 1) % w, 0),
            _ => dart((x + w - 1) % w, y, 1),
        }
    }
}

struct Quad(Torus);

impl Skin for Quad {
    fn n(&self) -> u32 {
        4 * self.0.n()
    }
    fn next(&self, d: u32) -> u32 {
        d / 4 * 4 + (d + 1) % 4
    }
    fn twin(&self, d: u32) -> u32 {
        let (t, h) = (&self.0, d / 4);
        match d % 4 {
            0 => 4 * t.next(t.twin(h)) + 3,
            1 => 4 * t.next(h) + 2,
            2 => 4 * t.prev(h) + 1,
            _ => 4 * t.twin(t.prev(h)),
        }
    }
}

struct Tables {
    next: Vec<u32>,
    twin: Vec<u32>,
}

impl Skin for Tables {
    fn n(&self) -> u32 {
        self.next.len() as u32
    }
    fn next(&self, h: u32) -> u32 {
        self.next[h as usize]
    }
    fn twin(&self, h: u32) -> u32 {
        self.twin[h as usize]
    }
}

fn leads(h: u32, step: impl Fn(u32) -> u32) -> bool {
    let mut c = step(h);
    while c > h {
        c = step(c);
    }
    c == h
}

fn count<S: Skin>(s: &S) -> (u32, u32, u32) {
    let mut found = (0, s.n() / 2, 0);
    for h in 0..s.n() {
        found.0 += leads(h, |d| s.next(s.twin(d))) as u32;
        found.2 += leads(h, |d| s.next(d)) as u32;
    }
    found
}

fn timed<S: Skin>(name: &str, s: &S) {
    let start = Instant::now();
    let c = count(std::hint::black_box(s));
    let took = start.elapsed().as_micros();
    println!("{name} {took} {} {} {}", c.0, c.1, c.2);
}

fn main() {
    let quad = Quad(Torus(SIDE));
    let tables = Tables {
        next: (0..quad.n()).map(|h| quad.next(h)).collect(),
        twin: (0..quad.n()).map(|h| quad.twin(h)).collect(),
    };
    timed("ladder", &quad);
    timed("tables", &tables);
}
