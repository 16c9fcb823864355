//! The time of a call of the watch by itself: a spectrum, and a limit.

use super::{LISTS, measure};
use crate::{
    codec::mr74::gain::quantization::GainLimit,
    inputs::Random,
    project::{LimitAnswer, SpectrumAnswer, observe_spectrum, watch_limit},
    stability::{RESONANT, Spectrum, Watch, Watched, speech_spectrum},
};

pub fn report() {
    let random = &mut Random::at(0);
    let spectra: Vec<_> = (0..LISTS).map(|_| speech_spectrum(random)).collect();
    let spectra: Vec<_> = spectra.iter().collect();
    measure(
        "observe_spectrum",
        &spectra,
        library_observe,
        published_observe,
    );
    let watches: Vec<_> = (0..LISTS)
        .map(|_| {
            let watched = Watched::of_rows(random);
            (watched, watched.watch())
        })
        .collect();
    let watches: Vec<_> = watches.iter().collect();
    measure("watch_limit", &watches, library_limit, published_limit);
}

#[inline(never)]
fn library_observe(lsp: &Spectrum) -> SpectrumAnswer {
    observe_spectrum(lsp, RESONANT)
}

/// Whether the spectrum is resonant, and the watch after it.
#[inline(never)]
fn published_observe(lsp: &Spectrum) -> (bool, Watch) {
    let mut watch = Watch::resonant();
    (watch.observe(lsp), watch)
}

#[inline(never)]
fn library_limit((watched, _): &(Watched, Watch)) -> LimitAnswer {
    watch_limit(watched.pitch_gain, watched.count, &watched.gains)
}

#[inline(never)]
fn published_limit((watched, watch): &(Watched, Watch)) -> GainLimit {
    watch.limit(watched.pitch_gain)
}
