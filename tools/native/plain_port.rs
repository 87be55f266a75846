//! The exported text's calls that have no state: arithmetic and mountings.

use crate::geometry::geometry;
use crate::machine::Answer;
use crate::port::{choice, of_quaternion as of_q, of_vector as of_v, quaternion as q, said, told, vector as v};
use crate::words::{bits, f, length, packed, unpacked};
use gateweave::answer::{Refusal, number_in};
use gateweave::math::{Components, Matrix};
use gateweave::{alignment, number, remap, root, turning};

fn m(w: &[u32]) -> Matrix {
    Matrix::from([[f(w[0]), f(w[1]), f(w[2])], [f(w[3]), f(w[4]), f(w[5])], [f(w[6]), f(w[7]), f(w[8])]])
}

fn of_m(m: Matrix) -> [u32; 9] {
    let rows = <[[f32; 3]; 3]>::from(m);
    std::array::from_fn(|i| bits(rows[i / 3][i % 3]))
}

pub fn arithmetic(code: u32, a: &[u32]) -> Vec<u32> {
    match code {
        0x22 => of_v(m(a).mul_vector(v(&a[9..]))).into(),
        0x3B => of_q(q(a).product(q(&a[4..]))).into(),
        0x40 => vec![bits(root::sqrtf(f(a[0])))],
        0x41 => vec![bits(number::fabsf(f(a[0])))],
        0x42 => vec![number::to_i32(f(a[0])) as u32],
        0x43 => vec![number::to_u32(f(a[0]))],
        0x44 => vec![bits(number::from_i32(a[0] as i32))],
        0x45 => vec![number::saturating_add(a[0] as i32, a[1] as i32) as u32],
        0x46 => vec![number::saturating_sub(a[0] as i32, a[1] as i32) as u32],
        _ => geometry!(code, a),
    }
}

fn mounting(result: Result<u8, Refusal>) -> Answer {
    told(result, |number| [u32::from(number)])
}

pub fn mountings(code: u32, a: &[u32]) -> Answer {
    match code {
        0x50 => said(remap::remap(v(&a[1..]), choice(a[0]))),
        0x51 => mounting(remap::compose(choice(a[0]), choice(a[1]))),
        0x52 => mounting(remap::inverse(choice(a[0]))),
        0x53 => {
            let mut buffer = vec![0x2A; length(a[1], 256)];
            let result = remap::write_name(choice(a[0]), &mut buffer);
            Answer { number: number_in(result).into(), words: packed(&buffer) }
        }
        0x54 => mounting(remap::read_name(&unpacked(&a[1..], a[0]))),
        0x55 => {
            let given: Vec<f32> = a[3..3 + length(a[1], 12)].iter().map(|w| f(*w)).collect();
            let mut turned = vec![1.0; length(a[2], 64)];
            let result = turning::turn_run(choice(a[0]), &given, &mut turned);
            Answer { number: number_in(result).into(), words: turned.into_iter().map(bits).collect() }
        }
        0x56 => told(alignment::to_matrix(choice(a[0])), of_m),
        0x57 => said(alignment::rotate(v(&a[1..]), choice(a[0]))),
        _ => panic!("the script has a call {code:02X}"),
    }
}
