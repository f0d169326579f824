//! Prints every table that the Rust computes or holds, one to a line: name, size, values. Floats are printed as bits.
//! `crate::common` and `crate::tables` are lc3-codec's own files; `crate::taken` holds what stands inside longer functions of the two
//! modified_dct.rs: `encoder_gain`, `decoder_gain`, `first_upper`. Windows are printed whatever their source: the caller knows it.

use crate::common::complex::Complex;
use crate::common::config::{FrameDuration, Lc3Config, SamplingFrequency};
use crate::common::dct_iv::DiscreteCosTransformIv;
use crate::common::kissfft::KissFastFourierTransform;
use crate::taken;
use crate::tables::band_index_tables::*;
use crate::tables::mdct_windows::*;

const SIZES: [usize; 11] = [10, 20, 30, 40, 60, 80, 90, 120, 160, 180, 240];

fn print_bits(name: &str, size: usize, values: impl Iterator<Item = f32>) {
    let bits: Vec<String> = values.map(|v| format!("{:08x}", v.to_bits())).collect();
    println!("{} {} {}", name, size, bits.join(" "));
}

fn print_complex(name: &str, values: &[Complex]) {
    print_bits(&format!("{}_re", name), values.len(), values.iter().map(|v| v.r));
    print_bits(&format!("{}_im", name), values.len(), values.iter().map(|v| v.i));
}

/// The constructors write the twiddles to the buffer that they are lent.
fn print_fft(name: &str, size: usize, inverse: bool) {
    let mut buffer = vec![Complex::default(); size];
    KissFastFourierTransform::new(size, inverse, &mut buffer);
    print_complex(name, &buffer);
}

/// After the FFT's twiddles, the input and the output.
fn print_dct(size: usize) {
    let mut buffer = vec![Complex::default(); 4 * size];
    DiscreteCosTransformIv::new(2 * size, &mut buffer);
    print_complex("dct", &buffer[3 * size..]);
}

fn print_config(number: usize, config: &Lc3Config) {
    let duration = match config.n_ms {
        FrameDuration::SevenPointFiveMs => 7500,
        FrameDuration::TenMs => 10000,
    };
    let upper = config.nb - taken::first_upper(config);
    println!("config {} {} {} {} {} {} {} {}", number, duration, config.fs, config.nf, config.z, config.ne, config.nb, upper);
}

fn print_edges(name: &str, edges: &[usize]) {
    let edges: Vec<String> = edges.iter().map(|e| e.to_string()).collect();
    println!("edges {} {}", name, edges.join(" "));
}

fn print_configs() {
    let mut number = 0;
    for duration in [FrameDuration::SevenPointFiveMs, FrameDuration::TenMs] {
        for rate in [
            SamplingFrequency::Hz8000,
            SamplingFrequency::Hz16000,
            SamplingFrequency::Hz24000,
            SamplingFrequency::Hz32000,
            SamplingFrequency::Hz48000,
        ] {
            print_config(number, &Lc3Config::new(rate, duration));
            number += 1;
        }
    }
}

fn print_bands() {
    print_edges("I_8000_7P5MS", &I_8000_7P5MS);
    print_edges("I_16000_7P5MS", &I_16000_7P5MS);
    print_edges("I_24000_7P5MS", &I_24000_7P5MS);
    print_edges("I_32000_7P5MS", &I_32000_7P5MS);
    print_edges("I_48000_7P5MS", &I_48000_7P5MS);
    print_edges("I_8000_10MS", &I_8000_10MS);
    print_edges("I_16000_10MS", &I_16000_10MS);
    print_edges("I_24000_10MS", &I_24000_10MS);
    print_edges("I_32000_10MS", &I_32000_10MS);
    print_edges("I_48000_10MS", &I_48000_10MS);
}

fn print_windows() {
    let print = |name: &str, w: &[f32]| print_bits(&format!("window {}", name), w.len() / 2, w.iter().copied());
    print("W_N60_7P5MS", &W_N60_7P5MS);
    print("W_N120_7P5MS", &W_N120_7P5MS);
    print("W_N180_7P5MS", &W_N180_7P5MS);
    print("W_N240_7P5MS", &W_N240_7P5MS);
    print("W_N360_7P5MS", &W_N360_7P5MS);
    print("W_N80_10MS", &W_N80_10MS);
    print("W_N160_10MS", &W_N160_10MS);
    print("W_N240_10MS", &W_N240_10MS);
    print("W_N320_10MS", &W_N320_10MS);
    print("W_N480_10MS", &W_N480_10MS);
}

pub fn main() -> std::io::Result<()> {
    for size in SIZES {
        print_fft("fft", size, false);
        print_fft("inverse", size, true);
        print_dct(size);
        print_bits("gain", 2 * size, std::iter::once(taken::encoder_gain(2 * size)));
        print_bits("decoder_gain", 2 * size, std::iter::once(taken::decoder_gain(2 * size)));
    }
    print_configs();
    print_bands();
    print_windows();
    Ok(())
}
