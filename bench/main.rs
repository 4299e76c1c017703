//! Speed of the proved code beside a portable Rust implementation of its own, both at -O3, in one run.
//! Each figure is the best of several; a ratio above 1 says how much slower the proved code is.
use std::hint::black_box;
use std::time::Instant;

mod portable;

const SIGNATURE: usize = 2304;
const ROUNDS: usize = 15;

unsafe extern "C" {
    fn kofnasig_sha256(bytes: *const u8, len: usize, digest: *mut u8, digest_len: usize) -> bool;
    fn kofnasig_onetime_root(secret: *const u8, len: usize, root: *mut u8, root_len: usize) -> bool;
    fn kofnasig_onetime_sign(
        public: *const u8,
        public_len: usize,
        secret: *const u8,
        secret_len: usize,
        turn: u8,
        digest: *const u8,
        digest_len: usize,
        signature: *mut u8,
        signature_len: usize,
    ) -> bool;
    fn kofnasig_onetime_check(
        public: *const u8,
        public_len: usize,
        turn: u8,
        digest: *const u8,
        digest_len: usize,
        signature: *const u8,
        signature_len: usize,
    ) -> bool;
}

fn sha256(bytes: &[u8]) -> [u8; 32] {
    let mut digest = [0; 32];
    // SAFETY: both slices are live and have the lengths that are passed
    assert!(unsafe { kofnasig_sha256(bytes.as_ptr(), bytes.len(), digest.as_mut_ptr(), 32) });
    digest
}

fn root(secret: &[u8; 32]) -> [u8; 32] {
    let mut root = [0; 32];
    // SAFETY: as above
    assert!(unsafe { kofnasig_onetime_root(secret.as_ptr(), 32, root.as_mut_ptr(), 32) });
    root
}

fn sign(public: &[u8; 32], secret: &[u8; 32], turn: u8, digest: &[u8; 32]) -> [u8; SIGNATURE] {
    let mut signature = [0; SIGNATURE];
    // SAFETY: as above
    assert!(unsafe {
        kofnasig_onetime_sign(
            public.as_ptr(),
            32,
            secret.as_ptr(),
            32,
            turn,
            digest.as_ptr(),
            32,
            signature.as_mut_ptr(),
            SIGNATURE,
        )
    });
    signature
}

fn check(public: &[u8; 32], turn: u8, digest: &[u8; 32], signature: &[u8]) -> bool {
    // SAFETY: as above
    unsafe {
        kofnasig_onetime_check(public.as_ptr(), 32, turn, digest.as_ptr(), 32, signature.as_ptr(), signature.len())
    }
}

fn seconds<T>(times: usize, work: &mut impl FnMut() -> T) -> f64 {
    let start = Instant::now();
    for _ in 0..times {
        black_box(work());
    }
    start.elapsed().as_secs_f64() / times as f64
}

/// The best time of each, taken in turn so that both see the same machine.
fn compare<T, U>(what: &str, times: usize, mut ours: impl FnMut() -> T, mut theirs: impl FnMut() -> U) {
    let (mut a, mut b) = (f64::MAX, f64::MAX);
    for _ in 0..ROUNDS {
        a = a.min(seconds(times, &mut ours));
        b = b.min(seconds(times, &mut theirs));
    }
    println!("{what:<24} proved {:>11.3} us   portable {:>11.3} us   ratio {:.3}", a * 1e6, b * 1e6, a / b);
}

fn agree() {
    let bytes: Vec<u8> = (0..1000u32).map(|i| (i * 31 + 7) as u8).collect();
    for n in 0..bytes.len() {
        assert_eq!(sha256(&bytes[..n]), portable::sha256(&bytes[..n]));
    }
    for k in 0..3u8 {
        let secret = [k * 17 + 5; 32];
        let public = root(&secret);
        assert_eq!(public, portable::root(&secret));
        for turn in [0, 13, 31] {
            let digest = portable::sha256(&[k, turn]);
            let mut signature = sign(&public, &secret, turn, &digest);
            assert_eq!(Some(signature), portable::sign(&public, &secret, turn, &digest));
            assert!(check(&public, turn, &digest, &signature));
            assert!(portable::check(&public, turn, &digest, &signature));
            signature[turn as usize * 70] ^= 1;
            assert!(!check(&public, turn, &digest, &signature));
            assert!(!portable::check(&public, turn, &digest, &signature));
        }
    }
    println!("both agree on digests of 0 to 999 bytes, 3 roots, 9 signatures and 9 damaged ones");
}

fn main() {
    agree();
    let long = vec![0x5au8; 16 * 1024];
    let short = [0x5au8; 36];
    compare(
        "SHA-256, 16 KiB",
        200,
        || sha256(black_box(&long)),
        || portable::sha256(black_box(&long)),
    );
    compare(
        "SHA-256, 36 bytes",
        20_000,
        || sha256(black_box(&short)),
        || portable::sha256(black_box(&short)),
    );
    let secret = [9u8; 32];
    let digest = portable::sha256(b"a state");
    let public = portable::root(&secret);
    let signature = sign(&public, &secret, 13, &digest);
    compare(
        "one-time sign",
        3,
        || sign(&public, black_box(&secret), 13, &digest),
        || portable::sign(&public, black_box(&secret), 13, &digest),
    );
    compare(
        "one-time check",
        100,
        || check(&public, 13, &digest, black_box(&signature)),
        || portable::check(&public, 13, &digest, black_box(&signature)),
    );
}
