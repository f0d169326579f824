//! The port's entries for C, as its static library has them. Nothing checks these lines against crates/c_api: keep them beside it.

/// How many places a channel's array has.
pub const ROOM: usize = 300;

#[repr(C)]
pub struct Verdict {
    pub number: u8,
    pub index: usize,
}

#[repr(C)]
#[derive(Clone, Copy)]
pub struct AnalysisChannel {
    pub config: u8,
    pub samples: [i16; ROOM],
}

#[repr(C)]
pub struct AnalysisFramed {
    pub number: u8,
    pub channel: AnalysisChannel,
}

#[repr(C)]
#[derive(Clone, Copy, Debug, Default, PartialEq)]
pub struct Measured {
    pub number: u8,
    pub index: usize,
    pub flag: bool,
}

#[repr(C)]
#[derive(Clone, Copy)]
pub struct SynthesisChannel {
    pub config: u8,
    pub memory: [f32; ROOM],
}

#[repr(C)]
pub struct SynthesisFramed {
    pub number: u8,
    pub index: usize,
    pub channel: SynthesisChannel,
}

impl AnalysisFramed {
    pub fn silent(config: u8) -> Self {
        AnalysisFramed { number: 0, channel: AnalysisChannel { config, samples: [0; ROOM] } }
    }
}

impl SynthesisFramed {
    pub fn silent(config: u8) -> Self {
        SynthesisFramed { number: 0, index: 0, channel: SynthesisChannel { config, memory: [0.0; ROOM] } }
    }
}

// A slice crosses as a pointer and a length, and a channel's own array as a pointer.
extern "C" {
    pub fn loamscarf_dct_iv(length: usize, buf: *mut f32, buf_length: usize) -> Verdict;
    pub fn loamscarf_analysis_frame(
        channel: AnalysisChannel,
        input: *const i16,
        input_length: usize,
        lines: *mut f32,
        lines_length: usize,
    ) -> AnalysisFramed;
    pub fn loamscarf_analysis_frame_at(
        config: u8,
        channel_samples: *mut [i16; ROOM],
        input: *const i16,
        input_length: usize,
        lines: *mut f32,
        lines_length: usize,
    ) -> u8;
    pub fn loamscarf_measure(
        config: u8,
        lines: *const f32,
        lines_length: usize,
        energies: *mut f32,
        energies_length: usize,
        peaks: *mut usize,
        peaks_length: usize,
    ) -> Measured;
    pub fn loamscarf_synthesis_frame(
        channel: SynthesisChannel,
        lines: *const f32,
        lines_length: usize,
        samples: *mut f32,
        samples_length: usize,
    ) -> SynthesisFramed;
    pub fn loamscarf_synthesis_frame_at(
        config: u8,
        memory: *mut [f32; ROOM],
        lines: *const f32,
        lines_length: usize,
        samples: *mut f32,
        samples_length: usize,
    ) -> Verdict;
}
