//! A plain reading of request 1 for any state and any kept memory: the answer, and every number afterwards.

use bed::Layers;

pub const NULL: u32 = u32::MAX;
const EDGES: [[usize; 2]; 12] = [
    [0, 1],
    [0, 2],
    [0, 4],
    [1, 3],
    [1, 5],
    [2, 3],
    [2, 6],
    [3, 7],
    [4, 5],
    [4, 6],
    [5, 7],
    [6, 7],
];

/// Every list that an offer may read or write.
#[derive(Clone)]
pub struct World {
    pub state: Layers,
    pub distances: Vec<u32>,
    pub map: Vec<u32>,
    pub kept: Vec<u32>,
    pub positions: Vec<u32>,
    pub normals: Vec<u32>,
    pub cells: Vec<u32>,
    pub strides: Vec<u32>,
    pub crossings: Vec<u8>,
    pub indices: Vec<u32>,
}

pub struct Said {
    pub answer: u32,
    pub vertices: u64,
    pub indices: u64,
}

struct Vertex {
    cell: [u32; 3],
    position: [f32; 3],
    normal: [f32; 3],
    crossings: u8,
}

fn corner(i: usize, axis: usize) -> f32 {
    (i >> axis & 1) as f32
}

/// The vertex of a cell by its eight values, where 1 to 7 are negative.
fn vertex(d: [f32; 8], cell: [u32; 3]) -> Option<Vertex> {
    let negatives = d.iter().filter(|&&v| v < 0.0).count();
    if negatives == 0 || negatives == 8 {
        return None;
    }
    let mut sum = [0.0f32; 3];
    let mut crossings = 0;
    for [a, b] in EDGES {
        if (d[a] < 0.0) != (d[b] < 0.0) {
            let f = d[a] / (d[a] - d[b]);
            let g = 1.0 - f;
            for axis in 0..3 {
                sum[axis] += g * corner(a, axis) + f * corner(b, axis);
            }
            crossings += 1;
        }
    }
    let s = sum.map(|t| t / crossings as f32);
    let n = s.map(|t| 1.0 - t);
    let blend = |u: usize, v: usize, e: [f32; 4]| {
        (n[u] * n[v]) * e[0] + (n[u] * s[v]) * e[1] + (s[u] * n[v]) * e[2] + (s[u] * s[v]) * e[3]
    };
    let normal = [
        blend(1, 2, [d[1] - d[0], d[5] - d[4], d[3] - d[2], d[7] - d[6]]),
        blend(2, 0, [d[2] - d[0], d[3] - d[1], d[6] - d[4], d[7] - d[5]]),
        blend(0, 1, [d[4] - d[0], d[6] - d[2], d[5] - d[1], d[7] - d[3]]),
    ];
    let position = [0, 1, 2].map(|axis| cell[axis] as f32 + s[axis]);
    Some(Vertex {
        cell,
        position,
        normal,
        crossings,
    })
}

fn squared_distance(p: [f32; 3], q: [f32; 3]) -> f32 {
    let d = [0, 1, 2].map(|a| p[a] - q[a]);
    (d[0] * d[0] + d[1] * d[1]) + d[2] * d[2]
}

impl World {
    fn plane(&self) -> usize {
        self.state.dims[0] as usize * self.state.dims[1] as usize
    }

    fn half(&self, t: u32) -> usize {
        self.plane() * (t % 2) as usize
    }

    fn place(&self, x: u32, y: u32) -> usize {
        x as usize + self.state.dims[0] as usize * y as usize
    }

    fn refusal(&self, layer: &[f32]) -> u32 {
        let s = &self.state;
        let product = s.dims.iter().map(|&d| d as u128).product::<u128>();
        if s.dims.iter().any(|&d| d == 0 || d > 16_777_217) || product > 1 << 30 {
            return 1;
        }
        if (0..3).any(|a| s.min[a] > s.max[a] || s.max[a] >= s.dims[a]) {
            return 2;
        }
        if s.taken > s.max[2] - s.min[2] {
            return 8;
        }
        let plane = self.plane();
        if layer.len() != plane {
            return 3;
        }
        if self.distances.len() < 2 * plane
            || self.map.len() < 2 * plane
            || self.kept.len() < 3 * plane
        {
            return 4;
        }
        let cap = 2f32.powi(124);
        for y in s.min[1]..=s.max[1] {
            for x in s.min[0]..=s.max[0] {
                let d = layer[self.place(x, y)];
                if d.is_nan() || d.abs() > cap {
                    return 5;
                }
            }
        }
        0
    }

    /// The vertices between the kept layer and the one offered.
    fn vertices(&self, layer: &[f32]) -> Vec<Vertex> {
        let s = &self.state;
        let mut found = Vec::new();
        if s.taken == 0 {
            return found;
        }
        let low = self.half(s.taken - 1);
        let z = s.min[2] + s.taken - 1;
        for y in s.min[1]..s.max[1] {
            for x in s.min[0]..s.max[0] {
                let mut d = [0.0; 8];
                for (i, value) in d.iter_mut().enumerate() {
                    let at = self.place(x + (i & 1) as u32, y + (i >> 1 & 1) as u32);
                    *value = if i < 4 {
                        f32::from_bits(self.distances[low + at])
                    } else {
                        layer[at]
                    };
                }
                found.extend(vertex(d, [x, y, z]));
            }
        }
        found
    }

    fn below(&self, x: u32, y: u32) -> (u32, [f32; 3]) {
        let number = self.map[self.half(self.state.taken) + self.place(x, y)];
        let nowhere = [f32::NAN; 3];
        let Some(n) = number.checked_sub(self.state.first) else {
            return (number, nowhere);
        };
        let at = 3 * n as usize;
        match self.kept.get(at..at + 3) {
            Some(p) => (number, [p[0], p[1], p[2]].map(f32::from_bits)),
            None => (number, nowhere),
        }
    }

    fn faces(&self, layer: &[f32], found: &[Vertex], first: u32) -> Vec<u32> {
        let s = &self.state;
        let mut indices = Vec::new();
        let known = |c: [u32; 3]| {
            if c[2] == s.min[2] + s.taken - 1 {
                let place = found
                    .iter()
                    .position(|v| v.cell == c)
                    .expect("a surface cell");
                (first + place as u32, found[place].position)
            } else {
                self.below(c[0], c[1])
            }
        };
        for v in found {
            let p1 = v.cell;
            for a in 0..3 {
                let (b, c) = ((a + 1) % 3, (a + 2) % 3);
                let inner = s.max_plane[a] != 0 || p1[a] != s.max[a] - 1;
                if p1[b] <= s.min[b] || p1[c] <= s.min[c] || !inner {
                    continue;
                }
                let low = self.half(s.taken - 1);
                let at = self.place(p1[0], p1[1]);
                let n1 = f32::from_bits(self.distances[low + at]) < 0.0;
                let n2 = match a {
                    0 => f32::from_bits(self.distances[low + at + 1]) < 0.0,
                    1 => f32::from_bits(self.distances[low + at + s.dims[0] as usize]) < 0.0,
                    _ => layer[at] < 0.0,
                };
                if n1 == n2 {
                    continue;
                }
                let down = |axis: usize, mut p: [u32; 3]| {
                    p[axis] -= 1;
                    p
                };
                let (v1, q1) = known(p1);
                let (v2, q2) = known(down(b, p1));
                let (v3, q3) = known(down(c, p1));
                let (v4, q4) = known(down(c, down(b, p1)));
                indices.extend(
                    match (squared_distance(q1, q4) < squared_distance(q2, q3), n1) {
                        (true, true) => [v1, v2, v4, v1, v4, v3],
                        (true, false) => [v1, v4, v2, v1, v3, v4],
                        (false, true) => [v2, v4, v3, v2, v3, v1],
                        (false, false) => [v2, v3, v4, v2, v1, v3],
                    },
                );
            }
        }
        indices
    }

    fn in_box(&self, x: u32, y: u32) -> bool {
        let s = &self.state;
        s.min[0] <= x && x <= s.max[0] && s.min[1] <= y && y <= s.max[1]
    }

    /// Offers a layer.
    pub fn offer(&mut self, layer: &[f32]) -> Said {
        let answer = self.refusal(layer);
        if answer != 0 {
            return Said {
                answer,
                vertices: 0,
                indices: 0,
            };
        }
        let found = self.vertices(layer);
        let count = found.len();
        let first = if self.state.next as usize + count > NULL as usize {
            0
        } else {
            self.state.next
        };
        let indices = if self.state.taken == 0 {
            Vec::new()
        } else {
            self.faces(layer, &found, first)
        };
        let said = |answer| Said {
            answer,
            vertices: count as u64,
            indices: indices.len() as u64,
        };
        let threes = [&self.positions, &self.normals, &self.cells];
        if threes.iter().any(|l| l.len() < 3 * count)
            || self.strides.len() < count
            || self.crossings.len() < count
        {
            return said(6);
        }
        if self.indices.len() < indices.len() {
            return said(7);
        }
        let said = said(0);
        let [width, height] = [self.state.dims[0], self.state.dims[1]];
        let plane = self.plane();
        let (lower, upper) = (
            self.half(self.state.taken.wrapping_sub(1)),
            self.half(self.state.taken),
        );
        for y in 0..height {
            for x in 0..width {
                let at = self.place(x, y);
                if self.state.taken > 0 && self.in_box(x, y) {
                    self.map[lower + at] = NULL;
                }
            }
        }
        for (i, v) in found.iter().enumerate() {
            for a in 0..3 {
                self.positions[3 * i + a] = v.position[a].to_bits();
                self.normals[3 * i + a] = v.normal[a].to_bits();
                self.cells[3 * i + a] = v.cell[a];
                self.kept[3 * i + a] = v.position[a].to_bits();
            }
            self.strides[i] =
                (self.place(v.cell[0], v.cell[1]) + plane * v.cell[2] as usize) as u32;
            self.crossings[i] = v.crossings;
            let at = lower + self.place(v.cell[0], v.cell[1]);
            self.map[at] = first + i as u32;
        }
        self.indices[..indices.len()].copy_from_slice(&indices);
        for y in 0..height {
            for x in 0..width {
                if self.in_box(x, y) {
                    let at = self.place(x, y);
                    self.map[upper + at] = NULL;
                }
            }
        }
        for (i, d) in layer.iter().enumerate() {
            self.distances[upper + i] = d.to_bits();
        }
        self.state.taken += 1;
        self.state.next = first + count as u32;
        self.state.first = first;
        said
    }
}
