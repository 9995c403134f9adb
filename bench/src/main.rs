// Times the proved SHA-256 beside others, in turn, in one process: 1 MiB and 64 octets. The figure of each is its best slice of
// the thread's own time, so that what else the machine does counts little. `OPENSSL_ia32cap` picks OpenSSL's instructions.
mod plain;

use std::hint::black_box;

unsafe extern "C" {
    // the proved code: a slice is its address and its length
    fn digest_sha256(message: *const u8, len: usize, out: *mut [u8; 32]);
    fn SHA256_Init(context: *mut [u64; 16]) -> i32;
    fn SHA256_Update(context: *mut [u64; 16], message: *const u8, len: usize) -> i32;
    fn SHA256_Final(out: *mut [u8; 32], context: *mut [u64; 16]) -> i32;
    fn clock_gettime(clock: i32, time: *mut [i64; 2]) -> i32;
}

fn proved(message: &[u8]) -> [u8; 32] {
    let mut out = [0; 32];
    unsafe { digest_sha256(message.as_ptr(), message.len(), &mut out) };
    out
}

// OpenSSL without the search for an algorithm by name, which would be most of the time of a short message
fn openssl(message: &[u8]) -> [u8; 32] {
    let mut out = [0; 32];
    let mut context = [0; 16];
    unsafe {
        SHA256_Init(&mut context);
        SHA256_Update(&mut context, message.as_ptr(), message.len());
        SHA256_Final(&mut out, &mut context);
    }
    out
}

#[cfg(has_sha2)]
fn sha2_soft(message: &[u8]) -> [u8; 32] {
    use sha2::Digest;
    sha2::Sha256::digest(message).into()
}

// The nanoseconds that this thread has run.
fn now() -> i64 {
    let mut time = [0; 2];
    unsafe { clock_gettime(3, &mut time) };
    time[0] * 1_000_000_000 + time[1]
}

type Hash = fn(&[u8]) -> [u8; 32];

// The nanoseconds of one call, in the best of `slices` slices for each, taken in turn.
fn best(all: &[(&str, Hash)], message: &[u8], calls: u32, slices: u32) -> Vec<f64> {
    let mut times = vec![f64::MAX; all.len()];
    for _ in 0..slices {
        for (time, (_, hash)) in times.iter_mut().zip(all) {
            let start = now();
            for _ in 0..calls {
                black_box(hash(black_box(message)));
            }
            *time = time.min((now() - start) as f64 / f64::from(calls));
        }
    }
    times
}

fn main() {
    let all: &[(&str, Hash)] = &[
        ("proved, this repository", proved),
        ("plain Rust", plain::sha256),
        #[cfg(has_sha2)]
        ("sha2 crate, portable code", sha2_soft),
        ("OpenSSL", openssl),
    ];
    let mut message = vec![0u8; 1 << 20];
    for (i, x) in message.iter_mut().enumerate() {
        *x = (i * 7 + i / 251) as u8;
    }
    for n in [0, 1, 55, 56, 63, 64, 65, 119, 120, 128, 1000, 1 << 20] {
        for (name, hash) in all {
            assert_eq!(hash(&message[..n]), proved(&message[..n]), "{name} at {n} octets");
        }
    }
    let long = best(all, &message, 2, 25);
    let short = best(all, &message[..64], 20_000, 25);
    println!("{:28} {:>10} {:>8} {:>12} {:>8}", "", "1 MiB MB/s", "ratio", "64 octets ns", "ratio");
    for (i, (name, _)) in all.iter().enumerate() {
        let rate = message.len() as f64 * 1000.0 / long[i];
        println!("{name:28} {rate:>10.0} {:>8.2} {:>12.0} {:>8.2}", long[i] / long[0], short[i], short[i] / short[0]);
    }
}
