// The configurations of `side`, which is lc3-codec or its copy with the short frames, and their transforms. Included once for each.

use super::{Config, Transforms};
use side::common::complex::Complex;
use side::common::config::Lc3Config;
use side::common::dct_iv::DiscreteCosTransformIv;
use side::{decoder, encoder};

pub fn config(number: u8) -> Option<Config> {
    let c = side::configs::config(number)?;
    Some(Config { fs: c.fs, nf: c.nf, z: c.z, ne: c.ne, nb: c.nb, transforms: Box::new(c) })
}

fn work(c: &Lc3Config) -> Vec<Complex> {
    vec![Complex::default(); DiscreteCosTransformIv::calc_working_buffer_length(c)]
}

impl Transforms for Lc3Config {
    fn analyse(&self, time: &mut [i16], input: &[i16], lines: &mut [f32], energies: &mut [f32]) -> bool {
        let mut work = work(self);
        let (mut mdct, _, _) = encoder::modified_dct::ModDiscreteCosTrans::new(*self, time, &mut work);
        mdct.run(input, lines, energies)
    }

    fn measure(&self, lines: &[f32], energies: &mut [f32]) -> bool {
        let (mut time, mut work) = (vec![0; 2 * self.nf], work(self));
        let (mdct, _, _) = encoder::modified_dct::ModDiscreteCosTrans::new(*self, &mut time, &mut work);
        mdct.measure(lines, energies)
    }

    fn flag(&self, energies: &[f32]) -> bool {
        let (mut time, mut work) = (vec![0; 2 * self.nf], work(self));
        let (mdct, _, _) = encoder::modified_dct::ModDiscreteCosTrans::new(*self, &mut time, &mut work);
        mdct.flag(energies)
    }

    fn edges(&self) -> &'static [usize] {
        let (mut time, mut work) = (vec![0; 2 * self.nf], work(self));
        let (mdct, _, _) = encoder::modified_dct::ModDiscreteCosTrans::new(*self, &mut time, &mut work);
        mdct.get_i_fs()
    }

    fn buffer_length(&self) -> usize {
        decoder::modified_dct::ModDiscreteCosTrans::calc_working_buffer_length(self).0
    }

    fn synthesise(&self, buffer: &mut [f32], lines: &[f32], samples: &mut [f32]) {
        let mut work = work(self);
        let (mut mdct, _, _) = decoder::modified_dct::ModDiscreteCosTrans::new(*self, buffer, &mut work);
        mdct.run(lines, samples);
    }
}
