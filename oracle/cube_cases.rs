// The published formulas (src/lib.rs of fast-surface-nets 0.2.1), f32, by component.
#[derive(Clone, Copy, PartialEq)]
struct V(f32, f32, f32);
fn add(a: V, b: V) -> V {
    V(a.0 + b.0, a.1 + b.1, a.2 + b.2)
}
fn sub(a: V, b: V) -> V {
    V(a.0 - b.0, a.1 - b.1, a.2 - b.2)
}
fn mul(a: V, b: V) -> V {
    V(a.0 * b.0, a.1 * b.1, a.2 * b.2)
}
fn smul(k: f32, v: V) -> V {
    V(k * v.0, k * v.1, k * v.2)
}
fn div(v: V, k: f32) -> V {
    V(v.0 / k, v.1 / k, v.2 / k)
}
fn yzx(v: V) -> V {
    V(v.1, v.2, v.0)
}
fn zxy(v: V) -> V {
    V(v.2, v.0, v.1)
}
const CUBE_CORNER_VECTORS: [V; 8] = [
    V(0.0, 0.0, 0.0),
    V(1.0, 0.0, 0.0),
    V(0.0, 1.0, 0.0),
    V(1.0, 1.0, 0.0),
    V(0.0, 0.0, 1.0),
    V(1.0, 0.0, 1.0),
    V(0.0, 1.0, 1.0),
    V(1.0, 1.0, 1.0),
];
const CUBE_EDGES: [[u32; 2]; 12] = [
    [0b000, 0b001],
    [0b000, 0b010],
    [0b000, 0b100],
    [0b001, 0b011],
    [0b001, 0b101],
    [0b010, 0b011],
    [0b010, 0b110],
    [0b011, 0b111],
    [0b100, 0b101],
    [0b100, 0b110],
    [0b101, 0b111],
    [0b110, 0b111],
];
fn est(c1: u32, c2: u32, v1: f32, v2: f32) -> V {
    let interp1 = v1 / (v1 - v2);
    let interp2 = 1.0 - interp1;
    add(
        smul(interp2, CUBE_CORNER_VECTORS[c1 as usize]),
        smul(interp1, CUBE_CORNER_VECTORS[c2 as usize]),
    )
}
fn centroid(d: &[f32; 8], edges: &[[u32; 2]], recip: bool) -> (i32, V) {
    let mut count = 0;
    let mut sum = V(0.0, 0.0, 0.0);
    for &[a, b] in edges.iter() {
        let d1 = d[a as usize];
        let d2 = d[b as usize];
        if (d1 < 0.0) != (d2 < 0.0) {
            count += 1;
            sum = add(sum, est(a, b, d1, d2));
        }
    }
    (
        count,
        if recip {
            smul(1.0 / count as f32, sum)
        } else {
            div(sum, count as f32)
        },
    )
}
fn gradient(d: &[f32; 8], s: V, how: u32) -> V {
    let p00 = V(d[0b001], d[0b010], d[0b100]);
    let n00 = V(d[0], d[0], d[0]);
    let p10 = V(d[0b101], d[0b011], d[0b110]);
    let n10 = V(d[0b100], d[0b001], d[0b010]);
    let p01 = V(d[0b011], d[0b110], d[0b101]);
    let n01 = V(d[0b010], d[0b100], d[0b001]);
    let p11 = V(d[7], d[7], d[7]);
    let n11 = V(d[0b110], d[0b101], d[0b011]);
    let (d00, d10, d01, d11) = (sub(p00, n00), sub(p10, n10), sub(p01, n01), sub(p11, n11));
    let neg = sub(V(1.0, 1.0, 1.0), s);
    let (a, b, c, e) = (
        mul(mul(yzx(neg), zxy(neg)), d00),
        mul(mul(yzx(neg), zxy(s)), d10),
        mul(mul(yzx(s), zxy(neg)), d01),
        mul(mul(yzx(s), zxy(s)), d11),
    );
    match how {
        0 => add(add(add(a, b), c), e),
        1 => add(add(a, b), add(c, e)),
        _ => {
            fn fma(a: V, b: V, c: V) -> V {
                V(a.0.mul_add(b.0, c.0), a.1.mul_add(b.1, c.1), a.2.mul_add(b.2, c.2))
            }
            fma(
                mul(yzx(s), zxy(s)),
                d11,
                fma(mul(yzx(s), zxy(neg)), d01, fma(mul(yzx(neg), zxy(s)), d10, a)),
            )
        }
    }
}
fn h(x: f32) -> String {
    if x.is_nan() {
        "nan".into()
    } else {
        format!("{:08x}", x.to_bits())
    }
}
fn p(v: V) -> String {
    format!(" {} {} {}", h(v.0), h(v.1), h(v.2))
}
fn main() {
    println!("# Stored: by the published formulas of source document 000, run in Rust in plain f32, by component (oracle/cube_cases.rs);");
    println!("# no number is copied from this program. Floats by their bits; positions are those in the cell (1, 2, 3).");
    for (l, a, b) in [
        ("1 -1", 1.0f32, -1.0f32),
        ("0 -1", 0.0, -1.0),
        ("-0 -1", -0.0, -1.0),
        ("-1 0", -1.0, 0.0),
        ("1 0", 1.0, 0.0),
        ("-1 -2", -1.0, -2.0),
    ] {
        println!(
            "fraction {}: {}",
            l,
            if (a < 0.0) != (b < 0.0) {
                h(a / (a - b))
            } else {
                "none".into()
            }
        );
    }
    let cases: &[(&str, [f32; 8])] = &[
        ("-1 0 0 -1 0 0 0 -1", [-1., 0., 0., -1., 0., 0., 0., -1.]),
        ("0 -1 0 0 -2 1 0 0", [0., -1., 0., 0., -2., 1., 0., 0.]),
        ("0 0 1 0 0 0 -1 0", [0., 0., 1., 0., 0., 0., -1., 0.]),
        ("0 0 0 2 -1 0 0 -1", [0., 0., 0., 2., -1., 0., 0., -1.]),
        ("1 1 1 1 1 1 1 -1", [1., 1., 1., 1., 1., 1., 1., -1.]),
        ("1 1 1 1 1 1 1 -0", [1., 1., 1., 1., 1., 1., 1., -0.]),
    ];
    for (l, d) in cases {
        let n = d.iter().filter(|x| **x < 0.0).count();
        let (count, s) = centroid(d, &CUBE_EDGES, false);
        let pos = add(V(1.0, 2.0, 3.0), s);
        let g = gradient(d, s, 0);
        println!(
            "corners {}: {}, crossings {}, s{}, position{}, normal{}",
            l,
            if n == 0 || n == 8 { "no surface" } else { "surface" },
            count,
            p(s),
            p(pos),
            p(g)
        );
        let mut rev = CUBE_EDGES;
        rev.reverse();
        let mut sorted = CUBE_EDGES;
        sorted.sort_by_key(|e| (e[1] - e[0], e[0]));
        eprintln!(
            "{}: slips seen: reciprocal {} reversed {} by-axis {} paired {} fused {}",
            l,
            p(centroid(d, &CUBE_EDGES, true).1) != p(s),
            p(centroid(d, &rev, false).1) != p(s),
            p(centroid(d, &sorted, false).1) != p(s),
            p(gradient(d, s, 1)) != p(g),
            p(gradient(d, s, 2)) != p(g)
        );
    }
}
