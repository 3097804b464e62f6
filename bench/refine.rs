// One split and three averages of the torus of 256 by 256 quads in plain Rust, over stored dart tables and a table of points.
use std::time::Instant;

const SIDE: usize = 256;

#[derive(Clone, Copy)]
struct Point {
    x: i32,
    y: i32,
    z: i32,
}

struct Mesh {
    next: Vec<u32>,
    prev: Vec<u32>,
    twin: Vec<u32>,
}

fn torus() -> Mesh {
    let dart = |x: usize, y: usize, j: usize| (4 * ((y % SIDE) * SIDE + x % SIDE) + j) as u32;
    let n = 4 * SIDE * SIDE;
    let twin = |d: usize| {
        let (x, y) = (d / 4 % SIDE, d / 4 / SIDE);
        match d % 4 {
            0 => dart(x, y + SIDE - 1, 2),
            1 => dart(x + 1, y, 3),
            2 => dart(x, y + 1, 0),
            _ => dart(x + SIDE - 1, y, 1),
        }
    };
    Mesh {
        next: (0..n).map(|d| (d / 4 * 4 + (d + 1) % 4) as u32).collect(),
        prev: (0..n).map(|d| (d / 4 * 4 + (d + 3) % 4) as u32).collect(),
        twin: (0..n).map(twin).collect(),
    }
}

fn dual(m: Mesh) -> Mesh {
    let next = m.twin.iter().map(|&t| m.next[t as usize]).collect();
    let prev = m.prev.iter().map(|&p| m.twin[p as usize]).collect();
    Mesh { next, prev, twin: m.twin }
}

fn quad(m: &Mesh) -> Mesh {
    let n = m.next.len();
    let mut twin = Vec::with_capacity(4 * n);
    for h in 0..n {
        let p = m.prev[h];
        twin.push(4 * m.next[m.twin[h] as usize] + 3);
        twin.push(4 * m.next[h] + 2);
        twin.push(4 * p + 1);
        twin.push(4 * m.twin[p as usize]);
    }
    Mesh {
        next: (0..4 * n).map(|d| (d / 4 * 4 + (d + 1) % 4) as u32).collect(),
        prev: (0..4 * n).map(|d| (d / 4 * 4 + (d + 3) % 4) as u32).collect(),
        twin,
    }
}

fn split(m: Mesh, table: &mut Vec<Point>) -> Mesh {
    *table = table[..m.next.len()].iter().flat_map(|p| [*p; 4]).collect();
    dual(quad(&m))
}

fn nearest(total: i64, k: i64) -> i32 {
    (2 * total + k).div_euclid(2 * k) as i32
}

fn average(m: Mesh, table: &mut [Point]) -> (Mesh, u32) {
    let mut rings = 0;
    let mut done = vec![false; table.len()];
    for h in 0..m.next.len() {
        if done[h] {
            continue;
        }
        let (mut x, mut y, mut z, mut k) = (0i64, 0i64, 0i64, 0i64);
        let mut c = h;
        loop {
            let p = table[c];
            x += p.x as i64;
            y += p.y as i64;
            z += p.z as i64;
            k += 1;
            c = m.next[c] as usize;
            if c == h {
                break;
            }
        }
        let mean = Point { x: nearest(x, k), y: nearest(y, k), z: nearest(z, k) };
        loop {
            table[c] = mean;
            done[c] = true;
            c = m.next[c] as usize;
            if c == h {
                break;
            }
        }
        rings += 1;
    }
    (dual(m), rings)
}

fn corner(h: usize) -> Point {
    let j = h % 4;
    let x = (h / 4 % SIDE + (j == 1 || j == 2) as usize) % SIDE;
    let y = (h / 4 / SIDE + (j >= 2) as usize) % SIDE;
    Point { x: 1024 * x as i32, y: 1024 * y as i32, z: ((x * x + 3 * y) % 1000) as i32 }
}

fn main() {
    let m = torus();
    let mut table: Vec<Point> = (0..m.next.len()).map(corner).collect();
    let start = Instant::now();
    let mut m = split(m, &mut table);
    eprintln!("split {}", start.elapsed().as_micros());
    for _ in 0..3 {
        let start = Instant::now();
        let (next, rings) = average(m, &mut table);
        eprintln!("average {}", start.elapsed().as_micros());
        println!("averaged {rings} rings");
        m = next;
    }
    let mut digest = 0u64;
    for p in &table {
        for c in [p.x, p.y, p.z] {
            digest = digest.wrapping_mul(31).wrapping_add(c.unsigned_abs() as u64);
        }
    }
    println!("digest {digest}");
}
