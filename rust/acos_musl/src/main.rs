//! Compares the written-out `acosf` with musl's own over every f32 from -1 to 1 and over not-a-numbers.
//!
//! Two not-a-numbers count as equal. Build and run it with the script `run`.

#[cfg(musl)]
fn musl(x: f32) -> f32 {
    extern "C" {
        fn musl_acosf(x: f32) -> f32;
    }
    // SAFETY: a function of one number, without any other effect.
    unsafe { musl_acosf(x) }
}

/// The patterns of one sign from `first` to `last`; how many, how many unlike musl, how many unlike the platform.
#[cfg(musl)]
fn compare(name: &str, first: u32, last: u32) -> u64 {
    let (mut unlike, mut platform) = (0u64, 0u64);
    for bits in first..=last {
        let x = f32::from_bits(bits);
        let ours = oracle::acosf::acosf(x);
        let theirs = musl(x);
        if ours.to_bits() != theirs.to_bits() && !(ours.is_nan() && theirs.is_nan()) {
            if unlike == 0 {
                println!(
                    "{name}: first difference at {bits:08x}: {:08x}, musl {:08x}",
                    ours.to_bits(),
                    theirs.to_bits()
                );
            }
            unlike += 1;
        }
        if !x.is_nan() && ours.to_bits() != x.acos().to_bits() {
            platform += 1;
        }
    }
    let count = u64::from(last - first) + 1;
    println!("{name}: {count} compared, {unlike} different (the platform's acosf: {platform})");
    unlike
}

#[cfg(musl)]
fn main() {
    const ONE: u32 = 0x3f80_0000;
    const SIGN: u32 = 0x8000_0000;
    let mut unlike = compare("0 to 1", 0, ONE);
    unlike += compare("-0 to -1", SIGN, SIGN | ONE);
    unlike += compare("positive not-a-numbers", 0x7f80_0001, 0x7fff_ffff);
    unlike += compare("negative not-a-numbers", 0xff80_0001, 0xffff_ffff);
    std::process::exit(i32::from(unlike != 0));
}

#[cfg(not(musl))]
fn main() {
    eprintln!("built without musl's acosf: use acos_musl/run");
    std::process::exit(2);
}
