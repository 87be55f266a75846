//! The calls of vectors, matrices and quaternions that both sides have under one name: `v`, `m` and `q` make a side's own of words, and
//! `of_v`, `of_m` and `of_q` words of them.

macro_rules! geometry {
    ($code:expr, $a:expr) => {{
        let (code, a): (u32, &[u32]) = ($code, $a);
        match code {
            0x10 => vec![v(a).is_zero() as u32],
            0x11 => vec![bits(v(a).sum())],
            0x12 => of_v(v(a).hadamard(v(&a[3..]))).into(),
            0x13 => vec![bits(v(a).dot(v(&a[3..])))],
            0x14 => of_v(v(a).cross(v(&a[3..]))).into(),
            0x15 => vec![bits(v(a).norm_squared())],
            0x16 => vec![bits(v(a).norm())],
            0x17 => of_v(v(a).normalize()).into(),
            0x18 => of_v(v(a).add(v(&a[3..]))).into(),
            0x19 => of_v(v(a).sub(v(&a[3..]))).into(),
            0x1A => of_v(v(a).neg()).into(),
            0x1B => of_v(v(a).mul(f(a[3]))).into(),
            0x20 => of_m(m(a).transpose()).into(),
            0x21 => of_m(m(a).mul(f(a[9]))).into(),
            0x30 => vec![bits(q(a).sum())],
            0x31 => of_q(q(a).hadamard(q(&a[4..]))).into(),
            0x32 => of_q(q(a).vector_product(v(&a[4..]))).into(),
            0x33 => of_q(q(a).conjugate()).into(),
            0x34 => vec![bits(q(a).norm_squared())],
            0x35 => vec![bits(q(a).norm())],
            0x36 => of_q(q(a).normalize()).into(),
            0x37 => of_m(q(a).to_matrix()).into(),
            0x38 => of_v(q(a).rotate(v(&a[4..]))).into(),
            0x39 => of_q(q(a).add(q(&a[4..]))).into(),
            0x3A => of_q(q(a).mul(f(a[4]))).into(),
            _ => panic!("the script has a call {code:02X}"),
        }
    }};
}
pub(crate) use geometry;
