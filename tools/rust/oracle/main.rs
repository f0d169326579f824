//! The Rust's side of the bench: reads a log of calls on standard input, runs lc3-codec on each, and prints what it answers.
//! Refusals, peaks, the loudest band, how many bands are read for a flag and channels that came from no clear are decided here, from the paper's text.
//! `crate::common`, `encoder`, `decoder` and `tables` are lc3-codec's own files, unchanged; the crate `short_frames` is their copy, which runs the
//! configurations that lc3-codec does not have, and nothing else. A frame, measured or not, is lc3-codec's `run`, which does both at once; a measurement
//! alone is the two functions that `run` measures with, and the flag of energies is the second of these. lc3-codec has neither peaks nor a loudest band: both
//! are searched for here, in bands of lc3-codec's own edges. Nor does it stop at a band: how many are read for a flag is searched for with its own flag, of the
//! first bands' energies and zeros for the others.

mod log;

use crate::common::complex::Complex;
use crate::common::dct_iv::DiscreteCosTransformIv;
use crate::common::kissfft::KissFastFourierTransform;
use log::{Call, Log, ROOM};
use std::io::{self, Read, Write};

const LIMIT: f32 = (1u64 << 60) as f32;

/// A refusal's number and index; 0 is acceptance.
type Verdict = (u8, usize);
const ACCEPTED: Verdict = (0, 0);

mod own {
    use crate as side;
    include!("transforms.rs");
}

mod short {
    use short_frames as side;
    include!("transforms.rs");
}

/// What lc3-codec's code does with a configuration. A channel's memory is in the buffer that it is lent.
trait Transforms {
    fn analyse(&self, time: &mut [i16], input: &[i16], lines: &mut [f32], energies: &mut [f32]) -> bool;
    fn measure(&self, lines: &[f32], energies: &mut [f32]) -> bool;
    fn flag(&self, energies: &[f32]) -> bool;
    fn edges(&self) -> &'static [usize];
    fn buffer_length(&self) -> usize;
    fn synthesise(&self, buffer: &mut [f32], lines: &[f32], samples: &mut [f32]);
}

struct Config {
    fs: usize,
    nf: usize,
    z: usize,
    ne: usize,
    nb: usize,
    transforms: Box<dyn Transforms>,
}

fn config(number: u8) -> Option<Config> {
    own::config(number).or_else(|| short::config(number))
}

fn all_configs() -> impl Iterator<Item = Config> {
    (0..=u8::MAX).filter_map(config)
}

/// The first place that does not pass a test.
fn first_failing(values: &[f32], passes: impl Fn(f32) -> bool) -> Option<usize> {
    values.iter().position(|&x| !passes(x))
}

fn passes_6(x: f32) -> bool {
    x.is_finite() && x.abs() <= LIMIT
}

fn passes_7(x: f32) -> bool {
    x.is_finite() && !(x < 0.0)
}

/// What an output area holds before a call.
fn area(length: usize) -> Vec<f32> {
    (0..length).map(|i| i as f32 + 0.5).collect()
}

/// What a peaks' area holds before a call.
fn peak_area(length: usize) -> Vec<usize> {
    (0..length).map(|i| i + 7).collect()
}

/// The analysis channel: the time buffer that lc3-codec keeps, and the array as the port shows it.
struct Analysis {
    config: u8,
    samples: [i16; ROOM],
    time: Vec<i16>,
}

impl Analysis {
    fn set(number: u8, samples: [i16; ROOM]) -> Self {
        let mut time = Vec::new();
        if let Some(c) = config(number) {
            time.resize(2 * c.nf, 0);
            time[c.nf..2 * c.nf - c.z].copy_from_slice(&samples[..c.nf - c.z]);
        }
        Analysis { config: number, samples, time }
    }

    /// A frame to lines; and what lc3-codec measures of them.
    fn frame(&mut self, input: &[i16], lines: &mut [f32]) -> Result<(Vec<f32>, bool), Verdict> {
        let c = config(self.config).ok_or((1, 0))?;
        if input.len() != c.nf {
            return Err((3, 0));
        }
        if lines.len() != c.nf {
            return Err((4, 0));
        }
        let mut energies = vec![0.0; c.nb];
        let flag = c.transforms.analyse(&mut self.time, input, lines, &mut energies);
        self.samples = [0; ROOM];
        self.samples[..c.nf - c.z].copy_from_slice(&self.time[c.nf..2 * c.nf - c.z]);
        Ok((energies, flag))
    }

    /// A frame to lines, and where that is accepted the measurement of them.
    fn pair(&mut self, input: &[i16], lines: &mut [f32], energies: &mut [f32], peaks: &mut [usize]) -> Result<bool, Verdict> {
        let (own, flag) = self.frame(input, lines)?;
        let c = measurable(self.config, lines, energies, peaks)?;
        energies.copy_from_slice(&own);
        find_peaks(&c, lines, peaks);
        Ok(flag)
    }
}

/// The configuration of a measurement that is not refused.
fn measurable(number: u8, lines: &[f32], energies: &[f32], peaks: &[usize]) -> Result<Config, Verdict> {
    let c = config(number).ok_or((1, 0))?;
    if lines.len() != c.nf {
        return Err((3, 0));
    }
    if energies.len() != c.nb {
        return Err((5, 0));
    }
    if peaks.len() != c.nb {
        return Err((5, 0));
    }
    match first_failing(lines, passes_6) {
        Some(place) => Err((6, place)),
        None => Ok(c),
    }
}

/// The first of the places `from..to` with the greatest product.
fn first_greatest(from: usize, to: usize, product: impl Fn(usize) -> f32) -> usize {
    let mut best = from;
    for k in from + 1..to {
        if product(k) > product(best) {
            best = k;
        }
    }
    best
}

fn find_peaks(c: &Config, lines: &[f32], peaks: &mut [usize]) {
    let edges = c.transforms.edges();
    for (b, place) in peaks.iter_mut().enumerate() {
        *place = first_greatest(edges[b], edges[b + 1], |k| lines[k] * lines[k]);
    }
}

fn measure(number: u8, lines: &[f32], energies: &mut [f32], peaks: &mut [usize]) -> Result<bool, Verdict> {
    let c = measurable(number, lines, energies, peaks)?;
    find_peaks(&c, lines, peaks);
    Ok(c.transforms.measure(lines, energies))
}

/// The synthesis channel: lc3-codec's own buffer, whose first places are the memory, and the array as the port shows it.
struct Synthesis {
    config: u8,
    memory: [f32; ROOM],
    buffer: Vec<f32>,
}

impl Synthesis {
    fn set(number: u8, memory: [f32; ROOM]) -> Self {
        let mut buffer = Vec::new();
        if let Some(c) = config(number) {
            buffer.resize(c.transforms.buffer_length(), 0.0);
            buffer[..c.nf - c.z].copy_from_slice(&memory[..c.nf - c.z]);
        }
        Synthesis { config: number, memory, buffer }
    }

    fn frame(&mut self, lines: &[f32], samples: &mut [f32]) -> Verdict {
        let Some(c) = config(self.config) else {
            return (1, 0);
        };
        if lines.len() != c.ne {
            return (3, 0);
        }
        if samples.len() != c.nf {
            return (4, 0);
        }
        if let Some(place) = first_failing(lines, passes_6) {
            return (6, place);
        }
        c.transforms.synthesise(&mut self.buffer, lines, samples);
        self.memory = [0.0; ROOM];
        self.memory[..c.nf - c.z].copy_from_slice(&self.buffer[..c.nf - c.z]);
        ACCEPTED
    }
}

fn fft(size: usize, inverse: bool, re: &[f32], im: &[f32], re_out: &mut [f32], im_out: &mut [f32]) -> Verdict {
    if !all_configs().any(|c| c.nf / 2 == size) {
        return (2, 0);
    }
    if re.len() != size || im.len() != size {
        return (3, 0);
    }
    if re_out.len() != size || im_out.len() != size {
        return (4, 0);
    }
    if let Some(place) = (0..size).find(|&k| !passes_6(re[k]) || !passes_6(im[k])) {
        return (6, place);
    }
    let mut twiddles = vec![Complex::default(); size];
    let (transform, _) = KissFastFourierTransform::new(size, inverse, &mut twiddles);
    let input: Vec<Complex> = re.iter().zip(im).map(|(&r, &i)| Complex::new(r, i)).collect();
    let mut output = vec![Complex::default(); size];
    transform.transform(&input, &mut output);
    for (k, c) in output.iter().enumerate() {
        re_out[k] = c.r;
        im_out[k] = c.i;
    }
    ACCEPTED
}

fn dct(length: usize, buffer: &mut [f32]) -> Verdict {
    if !all_configs().any(|c| c.nf == length) {
        return (2, 0);
    }
    if buffer.len() != length {
        return (3, 0);
    }
    if let Some(place) = first_failing(buffer, passes_6) {
        return (6, place);
    }
    let mut work = vec![Complex::default(); length * 2];
    let (mut transform, _) = DiscreteCosTransformIv::new(length, &mut work);
    transform.run(buffer);
    ACCEPTED
}

/// The configuration of a question over energies that is not refused.
fn answerable(number: u8, energies: &[f32]) -> Result<Config, Verdict> {
    let c = config(number).ok_or((1, 0))?;
    if energies.len() != c.nb {
        return Err((5, 0));
    }
    match first_failing(energies, passes_7) {
        Some(place) => Err((7, place)),
        None => Ok(c),
    }
}

/// The first band whose energy times its number of lines is greatest, and that product; none where all energies are zero.
fn loudest(number: u8, energies: &[f32]) -> Result<Option<(usize, f32)>, Verdict> {
    let c = answerable(number, energies)?;
    let edges = c.transforms.edges();
    let product = |b: usize| energies[b] * (edges[b + 1] - edges[b]) as f32;
    let band = first_greatest(0, c.nb, product);
    Ok(energies.iter().any(|&e| e > 0.0).then(|| (band, product(band))))
}

/// lc3-codec's flag, and how many bands are read for it: the least number of first bands that set it, with zeros for the others, or all; above 32 kHz none.
/// A zero added leaves a sum of energies as it is, so that such a flag is that of the running sum.
fn near_nyquist(number: u8, energies: &[f32]) -> Result<(bool, usize), Verdict> {
    let c = answerable(number, energies)?;
    let set_by = |n: usize| c.transforms.flag(&[&energies[..n], &vec![0.0; c.nb - n]].concat());
    let read = if c.fs > 32000 { 0 } else { (1..=c.nb).find(|&n| set_by(n)).unwrap_or(c.nb) };
    Ok((c.transforms.flag(energies), read))
}

fn spelled(x: f32) -> String {
    if x.is_nan() {
        "nan".to_string()
    } else {
        format!("{:08x}", x.to_bits())
    }
}

/// An area's line: its name and its places.
fn line(name: &str, places: impl Iterator<Item = String>) -> String {
    places.fold(name.to_string(), |text, place| text + " " + &place)
}

fn floats(name: &str, places: &[f32]) -> String {
    line(name, places.iter().map(|&x| spelled(x)))
}

fn decimals(name: &str, places: &[usize]) -> String {
    line(name, places.iter().map(|k| k.to_string()))
}

fn padded<T: Copy>(values: &[T], zero: T) -> [T; ROOM] {
    let mut array = [zero; ROOM];
    array[..values.len()].copy_from_slice(values);
    array
}

/// What a call answers: number and index, the last word of its first line, and the lines of its areas.
struct Answer {
    verdict: Verdict,
    extra: String,
    areas: Vec<String>,
}

impl Answer {
    fn new(verdict: Verdict, areas: Vec<String>) -> Self {
        Answer { verdict, extra: "-".to_string(), areas }
    }

    /// Of a call that has a flag, which is not set beside a refusal.
    fn flagged(told: Result<bool, Verdict>, areas: Vec<String>) -> Self {
        Answer { verdict: told.err().unwrap_or(ACCEPTED), extra: u8::from(told == Ok(true)).to_string(), areas }
    }
}

fn answer_fft(size: usize, inverse: bool, re: &[f32], im: &[f32], re_out: usize, im_out: usize) -> Answer {
    let (mut real, mut imag) = (area(re_out), area(im_out));
    let verdict = fft(size, inverse, re, im, &mut real, &mut imag);
    Answer::new(verdict, vec![floats("real", &real), floats("imag", &imag)])
}

fn answer_dct(length: usize, mut values: Vec<f32>) -> Answer {
    let verdict = dct(length, &mut values);
    Answer::new(verdict, vec![floats("buffer", &values)])
}

fn answer_loudest(config: u8, energies: &[f32]) -> Answer {
    match loudest(config, energies) {
        Ok(Some((band, product))) => Answer { verdict: ACCEPTED, extra: band.to_string(), areas: vec![floats("energy", &[product])] },
        told => Answer::new(told.err().unwrap_or(ACCEPTED), vec![]),
    }
}

fn answer_near_nyquist(config: u8, energies: &[f32]) -> Answer {
    let told = near_nyquist(config, energies);
    let read = told.map_or(0, |(_, read)| read);
    Answer::flagged(told.map(|(flag, _)| flag), vec![decimals("read", &[read])])
}

fn answer_measure(config: u8, lines: &[f32], energies: usize, peaks: usize) -> Answer {
    let (mut energies, mut peaks) = (area(energies), peak_area(peaks));
    let told = measure(config, lines, &mut energies, &mut peaks);
    Answer::flagged(told, vec![floats("energies", &energies), decimals("peaks", &peaks)])
}

/// Both channels.
struct Bench {
    analysis: Analysis,
    synthesis: Synthesis,
}

impl Bench {
    fn analyse(&mut self, input: &[i16], lines: usize, energies: usize, peaks: usize) -> Answer {
        let (mut lines, mut energies, mut peaks) = (area(lines), area(energies), peak_area(peaks));
        let told = self.analysis.pair(input, &mut lines, &mut energies, &mut peaks);
        Answer::flagged(told, vec![floats("lines", &lines), floats("energies", &energies), decimals("peaks", &peaks)])
    }

    fn transform(&mut self, input: &[i16], lines: usize) -> Answer {
        let mut lines = area(lines);
        let told = self.analysis.frame(input, &mut lines);
        Answer::new(told.err().unwrap_or(ACCEPTED), vec![floats("lines", &lines)])
    }

    fn synthesise(&mut self, lines: &[f32], samples: usize) -> Answer {
        let mut samples = area(samples);
        let verdict = self.synthesis.frame(lines, &mut samples);
        Answer::new(verdict, vec![floats("samples", &samples)])
    }

    fn show(&self) -> Answer {
        let (a, s) = (&self.analysis, &self.synthesis);
        let samples = line(&format!("analysis {}", a.config), a.samples.iter().map(|x| x.to_string()));
        Answer::new(ACCEPTED, vec![samples, floats(&format!("synthesis {}", s.config), &s.memory)])
    }

    /// A clear or a set channel, where the number is known or need not be.
    fn changed(&mut self, known: bool, change: impl FnOnce(&mut Self)) -> Answer {
        if known {
            change(self);
        }
        Answer::new((!known as u8, 0), vec![])
    }

    fn answer(&mut self, call: Call) -> Answer {
        match call {
            Call::ClearAnalysis(number) => self.changed(config(number).is_some(), |b| b.analysis = Analysis::set(number, [0; ROOM])),
            Call::Analyse { input, lines, energies, peaks } => self.analyse(&input, lines, energies, peaks),
            Call::ClearSynthesis(number) => self.changed(config(number).is_some(), |b| b.synthesis = Synthesis::set(number, [0.0; ROOM])),
            Call::Synthesise { lines, samples } => self.synthesise(&lines, samples),
            Call::Fft { size, inverse, re, im, re_out, im_out } => answer_fft(size, inverse, &re, &im, re_out, im_out),
            Call::Dct { length, values } => answer_dct(length, values),
            Call::Loudest { config, energies } => answer_loudest(config, &energies),
            Call::Show => self.show(),
            Call::SetAnalysis(number, samples) => self.changed(true, |b| b.analysis = Analysis::set(number, padded(&samples, 0))),
            Call::SetSynthesis(number, memory) => self.changed(true, |b| b.synthesis = Synthesis::set(number, padded(&memory, 0.0))),
            Call::Transform { input, lines } => self.transform(&input, lines),
            Call::Measure { config, lines, energies, peaks } => answer_measure(config, &lines, energies, peaks),
            Call::NearNyquist { config, energies } => answer_near_nyquist(config, &energies),
        }
    }
}

pub fn main() -> io::Result<()> {
    let mut bytes = Vec::new();
    io::stdin().read_to_end(&mut bytes)?;
    let mut out = io::BufWriter::new(io::stdout().lock());
    let mut bench = Bench { analysis: Analysis::set(255, [0; ROOM]), synthesis: Synthesis::set(255, [0.0; ROOM]) };
    let mut log = match Log::open(&bytes) {
        Ok(log) => log,
        Err(number) => return writeln!(out, "refused {number}"),
    };
    let mut count = 0;
    while !log.is_done() {
        let Some((kind, call)) = log.call() else {
            return writeln!(out, "stopped {count}");
        };
        let told = bench.answer(call);
        writeln!(out, "{count} {kind} {} {} {}", told.verdict.0, told.verdict.1, told.extra)?;
        told.areas.iter().try_for_each(|area| writeln!(out, "{area}"))?;
        count += 1;
    }
    writeln!(out, "end {count}")
}
