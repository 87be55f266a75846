//! Makes so many of one call of the mountings, each under the next mounting, and prints a sum of what came back.

#[link(name = "calls", kind = "static")]
unsafe extern "C" {
    fn call_turn(mounting: u8, vector: *mut f32) -> u8;
    fn call_rotate(mounting: u8, vector: *mut f32) -> u8;
    fn call_to_matrix(mounting: u8, matrix: *mut f32) -> u8;
    fn call_compose(first: u8, second: u8) -> u8;
    fn call_inverse(mounting: u8) -> u8;
    fn call_write_name(mounting: u8, name: *mut u8, length: usize) -> u8;
    fn call_read_name(name: *const u8, length: usize) -> u8;
    fn call_turn_run(mounting: u8, source: *const f32, length: usize, turned: *mut f32, room: usize) -> u8;
}

/// So many calls, each with its number and its mounting; the sum of what they answer. A function for each call, so that the loop around one
/// does not change with the others.
#[inline(never)]
fn made(count: u32, mut call: impl FnMut(u32, u8) -> u8) -> u64 {
    (0..count).map(|i| u64::from(call(i, (i % 24) as u8))).sum()
}

fn main() {
    let arguments: Vec<String> = std::env::args().collect();
    let count: u32 = arguments[2].parse().expect("a count");
    let mut vector = [1.5f32, -2.25, 3.0];
    let mut name = *b"+X+Y+Z";
    let source = [1.5f32; 3000];
    let mut turned = [0f32; 3000];
    let mut matrix = [0f32; 9];
    let sum = match arguments[1].as_str() {
        "turn" => made(count, |_, m| unsafe { call_turn(m, vector.as_mut_ptr()) }),
        "compose" => made(count, |i, m| unsafe { call_compose(m, (i / 24 % 24) as u8) }),
        "inverse" => made(count, |_, m| unsafe { call_inverse(m) }),
        "write_name" => made(count, |_, m| unsafe { call_write_name(m, name.as_mut_ptr(), 6) }),
        // The name is written before it is read.
        "read_name" => made(count, |_, m| unsafe { call_write_name(m, name.as_mut_ptr(), 6) + call_read_name(name.as_ptr(), 6) }),
        "turn_run" => made(count, |_, m| unsafe { call_turn_run(m, source.as_ptr(), 3000, turned.as_mut_ptr(), 3000) }),
        "to_matrix" => made(count, |_, m| unsafe { call_to_matrix(m, matrix.as_mut_ptr()) }),
        "rotate" => made(count, |_, m| unsafe { call_rotate(m, vector.as_mut_ptr()) }),
        other => panic!("no call {other}"),
    };
    println!("{sum:020} {:08X}", vector[0].to_bits() ^ turned[2999].to_bits() ^ matrix[0].to_bits());
}
