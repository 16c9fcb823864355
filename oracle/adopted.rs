//! The changes by which the published encoder calls the Rust bindings, as bindings/rust/README.md
//! tells them. The build script makes them in a second copy of the published files.

/// In a file below `codec/mr74/`, the text from the one place where `from` stands up to the next
/// `to` becomes `new`. Empty texts are the file's start and its end.
struct Change {
    file: &'static str,
    from: &'static str,
    to: &'static str,
    new: &'static str,
}

#[rustfmt::skip]
const CHANGES: &[Change] = &[
    Change { file: "pitch/open_loop.rs", from: "", to: "",
        new: "pub use ::mr74::pitch::open_loop::*;\n" },
    Change { file: "pitch/search.rs", from: "", to: "",
        new: "pub use ::mr74::pitch::search::*;\n" },
    Change { file: "codebook/search.rs", from: "", to: "",
        new: "pub use ::mr74::codebook::search::*;\n" },
    Change { file: "codebook.rs", from: "", to: "",
        new: "pub mod search;\npub use ::mr74::codebook::{Codebook, Error};\n" },
    Change { file: "logarithm.rs",
        from: "#[derive(Debug, Clone, Copy, PartialEq, Eq)]\npub struct Logarithm {",
        to: "#[derive(Debug, Clone, Copy, PartialEq, Eq)]\npub struct SignedPowerDomainError {",
        new: "pub use ::mr74::logarithm::{Logarithm, PowerDomainError, log2, pow2};\n" },
    Change { file: "encoder_filtering.rs",
        from: "#[derive(Debug, Clone, PartialEq, Eq)]\npub struct PreparedSubframe {",
        to: "#[derive(Debug, Clone, Default, PartialEq, Eq)]\npub struct WeightedSpeechFilter {",
        new: "pub use ::mr74::encoder_filtering::{PreparedSubframe, prepare, residual};\n" },
    Change { file: "encoder_stability.rs", from: "", to: "",
        new: "pub(super) use ::mr74::encoder_stability::Stability;\n" },
    Change { file: "pitch.rs",
        from: "#[derive(Debug, Clone, Copy, PartialEq, Eq)]\npub enum Fraction {",
        to: "pub fn decode_frame(",
        new: "pub use ::mr74::pitch::{DeltaIndexError, Fraction, LagReader, PitchLag};\n" },
    Change { file: "pitch.rs",
        from: "    let second = PitchLag::relative(",
        to: "    let third",
        new: "    let second = PitchLag::from_relative(subframes[1].pitch_index as u8, first)
        .expect(\"a relative index has five bits\");\n" },
    Change { file: "pitch.rs",
        from: "    let fourth = PitchLag::relative(",
        to: "    [first",
        new: "    let fourth = PitchLag::from_relative(subframes[3].pitch_index as u8, third)
        .expect(\"a relative index has five bits\");\n" },
    Change { file: "gain.rs",
        from: "#[derive(Debug, Clone, Copy)]\nstruct Prediction {",
        to: "#[derive(Debug, Clone, PartialEq, Eq)]\npub struct GainDecoder {",
        new: "use ::mr74::gain::quantization::Prediction;\n" },
    Change { file: "gain/quantization.rs",
        from: "const WORD_SHIFT: ",
        to: "#[derive(Debug, Clone, Copy, PartialEq, Eq)]\npub struct QuantizedGain {",
        new: "use ::mr74::encoder_stability::Stability;
pub use ::mr74::gain::quantization::{GainLimit, PitchGain, pitch_gain};\n" },
    Change { file: "gain/quantization.rs",
        from: "        limit: GainLimit,\n",
        to: "    ) -> QuantizedGain {",
        new: "        stability: &mut Stability,\n        pitch_gain_q14: i16,\n" },
    Change { file: "gain/quantization.rs",
        from: "        let correlations = pitch_gain(",
        to: "        let gains = self",
        new: "        let prediction = self.decoder.predict(innovation_q13);
        let index = stability
            .quantize(target, adaptive, filtered_innovation_q12, prediction, pitch_gain_q14)
            .expect(\"a prediction is in its range\")
            .row
            .index;\n" },
    Change { file: "gain/quantization.rs", from: "fn energy_coefficients(", to: "", new: "" },
    Change { file: "encoder.rs",
        from: "    codebook::search,\n",
        to: "    decoder::",
        new: "    codebook::search::{self, SharpeningGain},\n" },
    Change { file: "encoder.rs",
        from: "    sharpening_q14: i16,",
        to: "\n",
        new: "    sharpening_q14: SharpeningGain," },
    Change { file: "encoder.rs",
        from: "            sharpening_q14: 0,",
        to: "\n",
        new: "            sharpening_q14: SharpeningGain(0)," },
    Change { file: "encoder.rs",
        from: "                self.sharpening_q14,\n            )",
        to: ";",
        new: "                self.sharpening_q14,\n            )
            .map_err(EncodeError::Pitch)?" },
    Change { file: "encoder.rs",
        from: "        let resonant = ",
        to: "self.stability",
        new: "        " },
    Change { file: "encoder.rs",
        from: "self.stability.limit(",
        to: "gain.gain_q14",
        new: "self.stability.limit(" },
    Change { file: "encoder.rs",
        from: "                limit,\n",
        to: "            );",
        new: "                &mut self.stability,\n                gain.gain_q14,\n" },
    Change { file: "encoder.rs",
        from: "            self.stability.commit_gain(",
        to: "            self.sharpening_q14 = gains",
        new: "" },
    Change { file: "encoder.rs",
        from: "            self.sharpening_q14 = gains",
        to: "\n",
        new: "            let sharpening_q14 = gains.pitch_q14.min(SHARPENING_MAX_Q14);
            self.sharpening_q14 = SharpeningGain(sharpening_q14);" },
];

/// The file's text with its changes.
pub fn changed(file: &str, mut text: String) -> String {
    for change in CHANGES.iter().filter(|change| change.file == file) {
        let Change { from, to, new, .. } = change;
        let once = from.is_empty() || text.matches(from).count() == 1;
        let start = text.find(from).filter(|_| once);
        let end = start.and_then(|start| match *to {
            "" => Some(text.len()),
            to => Some(start + from.len() + text[start + from.len()..].find(to)?),
        });
        let (Some(start), Some(end)) = (start, end) else {
            panic!(
                "the published mr74/{file} does not have the text `{from}` once, and then `{to}`: \
                 see CHANGES in oracle/adopted.rs"
            );
        };
        text.replace_range(start..end, new);
    }
    text
}
