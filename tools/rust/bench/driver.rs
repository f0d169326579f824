//! The bench's driver: calls of lc3-codec's code and of the port's static library, beside one another. It is built twice, on lc3-codec's own files and
//! on their copy with the short frames, and knows the configurations of those that it is built on.
//!   check                     compares the bits of ours, both ways, with lc3-codec's, and our peaks with a plain search, and prints how many calls agree
//!   count SIDE CALL CONFIG N  makes N calls and prints nothing: its instructions are what is counted
//!   time CALL CONFIG          times all sides alternately, and prints the shortest time of a call of each, in nanoseconds, in the order below
//!   stack SIDE CALL CONFIG    prints how many bytes of stack a call touches, a channel handed in by value included
//! SIDE is port (the channel handed in and back by value), place (the channel where it is; a DCT or a measurement, which has none, is the same call) or rust.
//! CALL is dct, analysis, synthesis or measure. Analysis is of ours two calls in turn, a frame to lines and the measurement of these, and of lc3-codec its `run`;
//! measure is the second alone, of lc3-codec the two functions that `run` ends with. lc3-codec has no peaks: they are searched where bits are compared, and not
//! where a call is counted or timed. Buffers are made once and never cleared between calls.

mod port;

use crate::common::complex::Complex;
use crate::common::config::Lc3Config;
use crate::common::dct_iv::DiscreteCosTransformIv;
use crate::{configs, decoder, encoder};
use std::io;
use std::time::Instant;

const ROUNDS: usize = 50;
const NONE: u8 = 255;
const SIDES: [&str; 3] = ["port", "place", "rust"];

fn numbers() -> impl Iterator<Item = u8> {
    (0..=u8::MAX).filter(|&number| configs::config(number).is_some())
}

/// A configuration; for a number that is none, the sizes of the first, which the port does not come to look at.
fn config(number: u8) -> Lc3Config {
    configs::config(number).or_else(|| numbers().find_map(configs::config)).expect("a configuration")
}

/// Memory that lives as long as the program, as lc3-codec wants its buffers lent.
fn lent<T: Clone>(value: T, count: usize) -> &'static mut [T] {
    Vec::leak(vec![value; count])
}

fn work(c: &Lc3Config) -> &'static mut [Complex] {
    lent(Complex::default(), DiscreteCosTransformIv::calc_working_buffer_length(c))
}

/// Numbers that look random: the same for both sides.
struct Random(u64);

impl Random {
    fn next(&mut self) -> u32 {
        self.0 = self.0.wrapping_mul(6364136223846793005).wrapping_add(1442695040888963407);
        (self.0 >> 33) as u32
    }

    /// Noise of any loudness; one time in sixteen the highest tone that there is, which sets the flag.
    fn samples(&mut self, into: &mut [i16]) {
        let shift = self.next() % 16;
        if shift == 15 {
            into.iter_mut().enumerate().for_each(|(k, x)| *x = if k % 2 == 0 { 9000 } else { -9000 });
        } else {
            into.iter_mut().for_each(|x| *x = self.next() as i16 >> shift);
        }
    }

    fn floats(&mut self, into: &mut [f32]) {
        let size = f32::powi(2.0, self.next() as i32 % 59 - 30);
        into.iter_mut().for_each(|x| *x = (self.next() as i32 - (1 << 30)) as f32 * size / (1 << 30) as f32);
    }
}

/// A call that is made again and again: what goes in, the call, and the bits that come out.
trait Call {
    fn give(&mut self, pick: &mut Random);
    fn make(&mut self);
    fn bits(&self) -> Vec<u32>;
}

fn bits(values: &[f32]) -> impl Iterator<Item = u32> + '_ {
    values.iter().map(|x| x.to_bits())
}

/// Of each band the first line with the greatest square, by a plain search.
fn searched(edges: &[usize], lines: &[f32]) -> Vec<usize> {
    let first = |band: &[usize]| (band[0]..band[1]).fold(band[0], |best, k| if lines[k] * lines[k] > lines[best] * lines[best] { k } else { best });
    edges.windows(2).map(first).collect()
}

struct RustDct(DiscreteCosTransformIv<'static>, Vec<f32>);

impl Call for RustDct {
    fn give(&mut self, pick: &mut Random) {
        pick.floats(&mut self.1)
    }
    fn make(&mut self) {
        self.0.run(&mut self.1);
    }
    fn bits(&self) -> Vec<u32> {
        bits(&self.1).collect()
    }
}

struct PortDct(Vec<f32>, u8);

impl Call for PortDct {
    fn give(&mut self, pick: &mut Random) {
        pick.floats(&mut self.0)
    }
    fn make(&mut self) {
        self.1 = unsafe { port::loamscarf_dct_iv(self.0.len(), self.0.as_mut_ptr(), self.0.len()) }.number;
    }
    fn bits(&self) -> Vec<u32> {
        assert_eq!(self.1, 0, "the port refuses a DCT");
        bits(&self.0).collect()
    }
}

/// What an analysis frame and its measurement are lent, and what the measurement tells.
struct Frame {
    input: Vec<i16>,
    lines: Vec<f32>,
    energies: Vec<f32>,
    peaks: Vec<usize>,
    told: port::Measured,
}

impl Frame {
    fn new(c: &Lc3Config) -> Self {
        Frame { input: vec![0; c.nf], lines: vec![0.0; c.nf], energies: vec![0.0; c.nb], peaks: vec![0; c.nb], told: Default::default() }
    }
    fn measure(&mut self, config: u8) {
        let (l, e, p) = (&self.lines, &mut self.energies, &mut self.peaks);
        self.told = unsafe { port::loamscarf_measure(config, l.as_ptr(), l.len(), e.as_mut_ptr(), e.len(), p.as_mut_ptr(), p.len()) };
    }
    /// The peaks are the port's own, or those that were searched in its stead.
    fn bits(&self, peaks: &[usize]) -> Vec<u32> {
        assert_eq!((self.told.number, self.told.index), (0, 0), "the port refuses a measurement");
        let places = peaks.iter().map(|&k| u32::try_from(k).expect("a peak that is a line"));
        bits(&self.lines).chain(bits(&self.energies)).chain(places).chain([self.told.flag as u32]).collect()
    }
}

struct RustAnalysis(encoder::modified_dct::ModDiscreteCosTrans<'static>, Frame);

impl Call for RustAnalysis {
    fn give(&mut self, pick: &mut Random) {
        pick.samples(&mut self.1.input)
    }
    fn make(&mut self) {
        let f = &mut self.1;
        f.told.flag = self.0.run(&f.input, &mut f.lines, &mut f.energies);
    }
    fn bits(&self) -> Vec<u32> {
        self.1.bits(&searched(self.0.get_i_fs(), &self.1.lines))
    }
}

struct PortAnalysis(port::AnalysisFramed, Frame);

impl Call for PortAnalysis {
    fn give(&mut self, pick: &mut Random) {
        pick.samples(&mut self.1.input)
    }
    fn make(&mut self) {
        let (x, l) = (&self.1.input, &mut self.1.lines);
        self.0 = unsafe { port::loamscarf_analysis_frame(self.0.channel, x.as_ptr(), x.len(), l.as_mut_ptr(), l.len()) };
        if self.0.number == 0 {
            self.1.measure(self.0.channel.config);
        }
    }
    fn bits(&self) -> Vec<u32> {
        assert_eq!(self.0.number, 0, "the port refuses a frame");
        self.1.bits(&self.1.peaks)
    }
}

struct PlaceAnalysis(port::AnalysisFramed, Frame);

impl Call for PlaceAnalysis {
    fn give(&mut self, pick: &mut Random) {
        pick.samples(&mut self.1.input)
    }
    fn make(&mut self) {
        let (x, l) = (&self.1.input, &mut self.1.lines);
        let c = &mut self.0.channel;
        self.0.number = unsafe { port::loamscarf_analysis_frame_at(c.config, &mut c.samples, x.as_ptr(), x.len(), l.as_mut_ptr(), l.len()) };
        if self.0.number == 0 {
            self.1.measure(self.0.channel.config);
        }
    }
    fn bits(&self) -> Vec<u32> {
        assert_eq!(self.0.number, 0, "the port refuses a frame in place");
        self.1.bits(&self.1.peaks)
    }
}

struct RustMeasure(encoder::modified_dct::ModDiscreteCosTrans<'static>, Frame);

impl Call for RustMeasure {
    fn give(&mut self, pick: &mut Random) {
        pick.floats(&mut self.1.lines)
    }
    fn make(&mut self) {
        let f = &mut self.1;
        f.told.flag = self.0.measure(&f.lines, &mut f.energies);
    }
    fn bits(&self) -> Vec<u32> {
        self.1.bits(&searched(self.0.get_i_fs(), &self.1.lines))
    }
}

struct PortMeasure(u8, Frame);

impl Call for PortMeasure {
    fn give(&mut self, pick: &mut Random) {
        pick.floats(&mut self.1.lines)
    }
    fn make(&mut self) {
        self.1.measure(self.0);
    }
    fn bits(&self) -> Vec<u32> {
        self.1.bits(&self.1.peaks)
    }
}

struct RustSynthesis(decoder::modified_dct::ModDiscreteCosTrans<'static>, Vec<f32>, Vec<f32>);

impl Call for RustSynthesis {
    fn give(&mut self, pick: &mut Random) {
        pick.floats(&mut self.1)
    }
    fn make(&mut self) {
        self.0.run(&self.1, &mut self.2);
    }
    fn bits(&self) -> Vec<u32> {
        bits(&self.2).collect()
    }
}

struct PortSynthesis(port::SynthesisFramed, Vec<f32>, Vec<f32>);

impl Call for PortSynthesis {
    fn give(&mut self, pick: &mut Random) {
        pick.floats(&mut self.1)
    }
    fn make(&mut self) {
        let (x, s) = (&self.1, &mut self.2);
        self.0 = unsafe { port::loamscarf_synthesis_frame(self.0.channel, x.as_ptr(), x.len(), s.as_mut_ptr(), s.len()) };
    }
    fn bits(&self) -> Vec<u32> {
        assert_eq!(self.0.number, 0, "the port refuses lines");
        bits(&self.2).collect()
    }
}

struct PlaceSynthesis(port::SynthesisFramed, Vec<f32>, Vec<f32>);

impl Call for PlaceSynthesis {
    fn give(&mut self, pick: &mut Random) {
        pick.floats(&mut self.1)
    }
    fn make(&mut self) {
        let (x, s) = (&self.1, &mut self.2);
        let c = &mut self.0.channel;
        let told = unsafe { port::loamscarf_synthesis_frame_at(c.config, &mut c.memory, x.as_ptr(), x.len(), s.as_mut_ptr(), s.len()) };
        (self.0.number, self.0.index) = (told.number, told.index);
    }
    fn bits(&self) -> Vec<u32> {
        assert_eq!(self.0.number, 0, "the port refuses lines in place");
        bits(&self.2).collect()
    }
}

fn encoder_of(number: u8) -> encoder::modified_dct::ModDiscreteCosTrans<'static> {
    let c = config(number);
    let (length, _) = encoder::modified_dct::ModDiscreteCosTrans::calc_working_buffer_lengths(&c);
    encoder::modified_dct::ModDiscreteCosTrans::new(c, lent(0, length), work(&config(number))).0
}

/// lc3-codec's call.
fn rust(call: &str, number: u8) -> Box<dyn Call> {
    let c = config(number);
    match call {
        "dct" => Box::new(RustDct(DiscreteCosTransformIv::new(c.nf, work(&c)).0, vec![0.0; c.nf])),
        "analysis" => Box::new(RustAnalysis(encoder_of(number), Frame::new(&c))),
        "measure" => Box::new(RustMeasure(encoder_of(number), Frame::new(&c))),
        _ => {
            let (length, _) = decoder::modified_dct::ModDiscreteCosTrans::calc_working_buffer_length(&c);
            let (lines, samples) = (vec![0.0; c.ne], vec![0.0; c.nf]);
            Box::new(RustSynthesis(decoder::modified_dct::ModDiscreteCosTrans::new(c, lent(0.0, length), work(&config(number))).0, lines, samples))
        }
    }
}

/// The port's call, the channel by value or in its place.
fn ours(call: &str, number: u8, in_place: bool) -> Box<dyn Call> {
    let c = config(number);
    let (analysis, synthesis) = (port::AnalysisFramed::silent(number), port::SynthesisFramed::silent(number));
    match (call, in_place) {
        ("dct", _) => Box::new(PortDct(vec![0.0; c.nf], 0)),
        ("measure", _) => Box::new(PortMeasure(number, Frame::new(&c))),
        ("analysis", false) => Box::new(PortAnalysis(analysis, Frame::new(&c))),
        ("analysis", true) => Box::new(PlaceAnalysis(analysis, Frame::new(&c))),
        (_, false) => Box::new(PortSynthesis(synthesis, vec![0.0; c.ne], vec![0.0; c.nf])),
        (_, true) => Box::new(PlaceSynthesis(synthesis, vec![0.0; c.ne], vec![0.0; c.nf])),
    }
}

/// A side of ours and lc3-codec's on the same input, call after call on one channel.
fn agree(side: &str, call: &str, number: u8) -> bool {
    let (mut left, mut right) = (chosen(side, call, number), rust(call, number));
    let (mut one, mut two) = (Random(number as u64), Random(number as u64));
    (0..ROUNDS).all(|_| {
        left.give(&mut one);
        right.give(&mut two);
        left.make();
        right.make();
        left.bits() == right.bits()
    })
}

/// Whether of lines of a few sizes, many of them alike but for their signs, each band's first one of the greatest is found.
fn finds_peaks(number: u8) -> bool {
    let (mut frame, mut pick, edges) = (Frame::new(&config(number)), Random(number as u64), encoder_of(number).get_i_fs());
    (0..ROUNDS).all(|_| {
        frame.lines.iter_mut().for_each(|x| *x = (pick.next() % 5) as f32 - 2.0);
        frame.measure(number);
        frame.told.number == 0 && frame.peaks == searched(edges, &frame.lines)
    })
}

/// Whether a measurement of no configuration, of too few lines, energies or peaks, or of a line out of range is refused by number and index, and changes nothing.
fn refuses_to_measure() -> bool {
    let known = numbers().next().expect("a configuration");
    let (nf, nb) = (config(known).nf, config(known).nb);
    let mut lines = vec![3f32; nf];
    lines[7] = f32::INFINITY;
    let refused = [(NONE, nf, nb, nb, 1, 0), (known, nf - 1, nb, nb, 3, 0), (known, nf, nb - 1, nb, 5, 0), (known, nf, nb, nb - 1, 5, 0), (known, nf, nb, nb, 6, 7)];
    refused.iter().all(|&(config, count, room, peak_room, number, index)| {
        let (mut e, mut p) = (vec![5f32; room], vec![9usize; peak_room]);
        let told = unsafe { port::loamscarf_measure(config, lines.as_ptr(), count, e.as_mut_ptr(), room, p.as_mut_ptr(), peak_room) };
        told == port::Measured { number, index, flag: false } && e.iter().all(|&x| x == 5.0) && p.iter().all(|&k| k == 9)
    })
}

/// Whether a frame in place on a channel of no configuration is refused by number, and changes nothing that it is lent.
fn refuses() -> bool {
    let (x, mut samples, mut lines) = ([1i16; 20], [7i16; port::ROOM], [3f32; 20]);
    let number = unsafe { port::loamscarf_analysis_frame_at(NONE, &mut samples, x.as_ptr(), 20, lines.as_mut_ptr(), 20) };
    let analysis = number == 1 && samples == [7; port::ROOM] && lines == [3.0; 20];
    let (mut memory, mut out) = ([7f32; port::ROOM], [3f32; 20]);
    let told = unsafe { port::loamscarf_synthesis_frame_at(NONE, &mut memory, lines.as_ptr(), 20, out.as_mut_ptr(), 20) };
    analysis && (told.number, told.index) == (1, 0) && memory == [7.0; port::ROOM] && out == [3.0; 20]
}

/// A DCT and a measurement have no channel, and are the same call on both of our sides.
fn check() {
    let compared = [("port", "dct"), ("port", "analysis"), ("port", "synthesis"), ("port", "measure"), ("place", "analysis"), ("place", "synthesis")];
    for (side, call) in compared {
        for number in numbers() {
            if !agree(side, call, number) {
                println!("the bits differ: {side}, {call}, configuration {number}");
                std::process::exit(1);
            }
        }
    }
    if let Some(number) = numbers().find(|&number| !finds_peaks(number)) {
        println!("a peak is not the first of equals: configuration {number}");
        std::process::exit(1);
    }
    if !refuses() || !refuses_to_measure() {
        println!("a frame in place or a measurement that is refused changes something, or tells another number");
        std::process::exit(1);
    }
    println!("{}", ROUNDS * compared.len() * numbers().count());
}

/// A DCT is in place: its buffer stays zero here, since other values would grow from call to call. No count depends on values.
fn count(call: &str, mut made: Box<dyn Call>, n: usize) {
    if call != "dct" {
        made.give(&mut Random(1));
    }
    for _ in 0..n {
        made.make();
    }
}

/// Runs of each side, and calls in a run.
const TURNS: usize = 60;
const CALLS_A_TURN: usize = 200;

/// Nanoseconds of a call, over one run of calls.
fn a_turn(made: &mut dyn Call) -> f64 {
    let start = Instant::now();
    for _ in 0..CALLS_A_TURN {
        made.make();
    }
    start.elapsed().as_nanos() as f64 / CALLS_A_TURN as f64
}

/// The shortest of each side's turns: what else the machine does only lengthens them.
fn time(call: &str, number: u8) {
    let mut sides = SIDES.map(|side| chosen(side, call, number));
    if call != "dct" {
        sides.iter_mut().for_each(|side| side.give(&mut Random(1)));
    }
    let mut best = [f64::INFINITY; SIDES.len()];
    for _ in 0..TURNS {
        for (side, shortest) in sides.iter_mut().zip(&mut best) {
            *shortest = shortest.min(a_turn(&mut **side));
        }
    }
    println!("{}", best.map(|shortest| format!("{shortest:.1}")).join(" "));
}

const PAINT: u64 = 0xA5C3_5A3C_96E1_1E69;
const DEPTH: usize = 1 << 20;
/// What a function may use below its stack pointer.
const RED_ZONE: usize = 128;

/// Paints the stack below, makes the call, and looks for the lowest place whose paint is gone.
#[inline(never)]
fn touched(made: &mut dyn Call) -> usize {
    let top: usize;
    unsafe { std::arch::asm!("mov {}, rsp", out(reg) top) };
    let places = (top - DEPTH..top - RED_ZONE).step_by(8);
    for at in places.clone() {
        unsafe { std::ptr::write_volatile(at as *mut u64, PAINT) };
    }
    made.make();
    let lowest = places.into_iter().find(|&at| unsafe { std::ptr::read_volatile(at as *const u64) } != PAINT);
    top - lowest.unwrap_or(top)
}

fn stack(side: String, call: String, number: u8) {
    let room = std::thread::Builder::new().stack_size(4 * DEPTH);
    let bytes = room.spawn(move || touched(&mut *chosen(&side, &call, number))).expect("a thread").join().expect("a call");
    println!("{bytes}");
}

fn chosen(side: &str, call: &str, number: u8) -> Box<dyn Call> {
    if side == "rust" { rust(call, number) } else { ours(call, number, side == "place") }
}

pub fn main() -> io::Result<()> {
    let words: Vec<String> = std::env::args().skip(1).collect();
    let number = |k: usize| words[k].parse::<usize>().expect("a number");
    match words[0].as_str() {
        "check" => check(),
        "count" => count(&words[2], chosen(&words[1], &words[2], number(3) as u8), number(4)),
        "time" => time(&words[1], number(2) as u8),
        _ => stack(words[1].clone(), words[2].clone(), number(3) as u8),
    }
    Ok(())
}
