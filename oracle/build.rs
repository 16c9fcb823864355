//! Compiles the published Rust into the oracle and links the operators' library. The stages' is
//! linked by the Rust bindings.
//!
//! The published files are copied to the output folder as they stand, with the texts of
//! `REPLACED` replaced so that private functions can be called and private fields read, and so that
//! the encoder tells what its resonance limit does. A second copy is changed to call the Rust
//! bindings, and a third has the player's upper lag. Nothing of them is kept in this repository but
//! the few lines that `REPLACED`, `PLAYER`, `EXPRESSIONS` and adopted.rs name.

mod adopted;

use std::{
    env, fs,
    path::{Path, PathBuf},
};

/// The published files that are compiled, below `codec/mr74/`.
const TAKEN: &[&str] = &[
    "adaptive.rs",
    "codebook.rs",
    "codebook/search.rs",
    "encoder.rs",
    "encoder_filtering.rs",
    "encoder_stability.rs",
    "energy.rs",
    "gain.rs",
    "gain/quantization.rs",
    "logarithm.rs",
    "lpc.rs",
    "pitch.rs",
    "pitch/open_loop.rs",
    "pitch/search.rs",
    "postfilter.rs",
    "spectral.rs",
    "synthesis.rs",
];

/// Stand-ins for modules that are not published, or that need such modules: (file, text).
/// Every other module that is declared and not taken is left empty.
const STAND_INS: &[(&str, &str)] = &[
    // The other stages need only its frame length.
    ("decoder.rs", "pub const FRAME_SAMPLES: usize = 160;\n"),
    // `spectral.rs` names the type. It has no values, so nothing can be decoded from it.
    (
        "sid.rs",
        "pub enum SidParameters {}
impl SidParameters {
    pub fn lsf_indices(&self) -> [u16; 3] {
        match *self {}
    }
    pub fn residual_index(&self) -> u8 {
        match *self {}
    }
}
",
    ),
    // Tables of the oracle's own. Spectra decoded from them are not the codec's; the encoder before
    // and after it calls the bindings is compared on the same ones.
    (
        "spectral/tables.rs",
        "pub const FIRST: [[i16; 3]; 256] = drawn();
pub const SECOND: [[i16; 3]; 512] = drawn();
pub const THIRD: [[i16; 4]; 512] = drawn();
pub const MEAN: [i16; 10] = [1384, 2077, 3420, 5108, 6742, 8122, 9863, 11092, 12714, 13701];
pub const PREDICTOR: [i16; 10] = [9556, 10769, 12571, 13292, 14381, 11651, 10588, 9767, 8593, 6484];
pub const SID_RESIDUAL: [[i16; 10]; 0] = [];
const fn drawn<const N: usize, const M: usize>() -> [[i16; N]; M] {
    let mut rows = [[0; N]; M];
    let mut place = 0;
    while place < N * M {
        rows[place / N][place % N] = (place * 7919 % 1201) as i16 - 600;
        place += 1;
    }
    rows
}
",
    ),
    // The analysis is not published: here the spectrum is drawn, and the samples are not delayed.
    // In every other sixteen frames two values of the spectrum lie closely, so that it is resonant
    // in the last five of them.
    (
        "encoder_analysis.rs",
        "use super::{lpc, spectral::{self, ConversionError, LPC_ORDER}};
#[derive(Debug, Clone, Default, PartialEq, Eq)]
pub struct Analyzer {
    drawn: u64,
    frames: u32,
}
pub struct Analyzed {
    pub quantized: Quantized,
    pub lsp_q15: [i16; LPC_ORDER],
    pub coefficients_q12: [i16; LPC_ORDER + 1],
    pub samples_q0: [i16; 160],
}
pub struct Quantized {
    pub indices: [u16; 3],
}
impl Analyzer {
    pub fn push(&mut self, samples: &[i16; 160]) -> Result<Analyzed, ConversionError> {
        let mut drawn = |below: u64| {
            let next = self.drawn.wrapping_mul(6364136223846793005);
            self.drawn = next.wrapping_add(1442695040888963407);
            (self.drawn >> 33) % below
        };
        let indices = [256, 512, 512].map(|below| drawn(below) as u16);
        let mut frequencies = spectral::INITIAL_LSF_Q15.map(|lsf| lsf + drawn(600) as i16);
        self.frames += 1;
        if self.frames / 16 % 2 == 1 {
            frequencies[5] = frequencies[4] + 205;
        }
        let lsp_q15 = spectral::lsf_to_lsp(&frequencies)?;
        Ok(Analyzed {
            quantized: Quantized { indices },
            lsp_q15,
            coefficients_q12: lpc::convert(&lsp_q15),
            samples_q0: *samples,
        })
    }
}
",
    ),
];

/// A text that is replaced: (file, old text, new text, expected number of occurrences).
type Replaced = (&'static str, &'static str, &'static str, usize);

/// What is replaced in each copy but the one that calls the bindings.
#[rustfmt::skip]
const REPLACED: &[Replaced] = &[
    ("adaptive.rs", "fn mac(", "pub fn mac(", 1),
    ("codebook/search.rs", "fn fix_signs(", "pub fn fix_signs(", 1),
    ("codebook/search.rs", "fn fractional(", "pub fn fractional(", 1),
    ("codebook/search.rs", "fn impulse_correlation(", "pub fn impulse_correlation(", 1),
    ("codebook/search.rs", "fn normalize(", "pub fn normalize(", 1),
    ("codebook/search.rs", "fn product(", "pub fn product(", 1),
    ("codebook/search.rs", "fn rounded(", "pub fn rounded(", 1),
    ("codebook/search.rs", "fn scaled(", "pub fn scaled(", 1),
    ("codebook/search.rs", "fn select(", "pub fn select(", 1),
    ("codebook/search.rs", "fn sharpen(", "pub fn sharpen(", 1),
    ("codebook/search.rs", "fn target_correlation(", "pub fn target_correlation(", 1),
    ("encoder.rs", "            let quantized_gain =", RESONANT, 1),
    ("encoder_filtering.rs", "const GAMMA_ONE_Q15:", "pub const GAMMA_ONE_Q15:", 1),
    ("encoder_filtering.rs", "const GAMMA_TWO_Q15:", "pub const GAMMA_TWO_Q15:", 1),
    ("energy.rs", "fn doubled_product(", "pub fn doubled_product(", 1),
    ("energy.rs", "fn multiply_q15(", "pub fn multiply_q15(", 1),
    ("energy.rs", "fn normalization(", "pub fn normalization(", 1),
    ("energy.rs", "fn rounded(", "pub fn rounded(", 1),
    ("energy.rs", "fn shift(", "pub fn shift(", 1),
    ("energy.rs", "pub(super) fn inverse_sqrt(", "pub fn inverse_sqrt(", 1),
    ("gain.rs", "    exponent: i16,", "    pub exponent: i16,", 1),
    ("gain.rs", "    fraction: u16,", "    pub fraction: u16,", 1),
    ("gain.rs", "const TABLE:", "pub const TABLE:", 1),
    ("gain.rs", "fn mac(", "pub fn mac(", 1),
    ("gain.rs", "fn mult(", "pub fn mult(", 1),
    ("gain.rs", "fn shift_left(", "pub fn shift_left(", 1),
    ("gain.rs", "struct Prediction {", "pub struct Prediction {", 1),
    ("gain/quantization.rs", "    correlations: [i16; 4],\n}", "    pub correlations: [i16; 4],\n}", 1),
    ("gain/quantization.rs", "const CODE_EXPONENT_BIAS:", "pub const CODE_EXPONENT_BIAS:", 1),
    ("gain/quantization.rs", "const GAIN_TERMS:", "pub const GAIN_TERMS:", 1),
    ("gain/quantization.rs", "const Q15_SHIFT:", "pub const Q15_SHIFT:", 1),
    ("gain/quantization.rs", "const WORD_SHIFT:", "pub const WORD_SHIFT:", 1),
    ("gain/quantization.rs", "fn dot(", "pub fn dot(", 1),
    ("gain/quantization.rs", "fn energy_coefficients(", "pub fn energy_coefficients(", 1),
    ("gain/quantization.rs", "fn fractional(", "pub fn fractional(", 1),
    ("gain/quantization.rs", "fn multiply_word(", "pub fn multiply_word(", 1),
    ("gain/quantization.rs", "fn normalize(", "pub fn normalize(", 1),
    ("gain/quantization.rs", "fn product(", "pub fn product(", 1),
    ("gain/quantization.rs", "fn rounded(", "pub fn rounded(", 1),
    ("gain/quantization.rs", "fn shift(", "pub fn shift(", 1),
    ("gain/quantization.rs", "fn shift_word(", "pub fn shift_word(", 1),
    ("lpc.rs", "fn doubled_product(", "pub fn doubled_product(", 1),
    ("pitch.rs", "    fraction: Fraction,", "    pub fraction: Fraction,", 1),
    ("pitch.rs", "    samples: u16,", "    pub samples: u16,", 1),
    ("pitch/open_loop.rs", "    history_q0: [i16;", "    pub history_q0: [i16;", 1),
    ("pitch/open_loop.rs", "const HALF_FRAME_SAMPLES:", "pub const HALF_FRAME_SAMPLES:", 1),
    ("pitch/open_loop.rs", "const HISTORY_SAMPLES:", "pub const HISTORY_SAMPLES:", 1),
    ("pitch/open_loop.rs", "const LOW_ENERGY_LIMIT:", "pub const LOW_ENERGY_LIMIT:", 1),
    ("pitch/open_loop.rs", "const MINIMUM_LAG:", "pub const MINIMUM_LAG:", 1),
    ("pitch/open_loop.rs", "const SCALE_SHIFT:", "pub const SCALE_SHIFT:", 1),
    ("pitch/open_loop.rs", "fn candidate(", "pub fn candidate(", 1),
    ("pitch/open_loop.rs", "fn fractional(", "pub fn fractional(", 1),
    ("pitch/open_loop.rs", "fn multiply(", "pub fn multiply(", 1),
    ("pitch/open_loop.rs", "fn product(", "pub fn product(", 1),
    ("pitch/open_loop.rs", "fn shift_word(", "pub fn shift_word(", 1),
    ("pitch/open_loop.rs", "fn split(", "pub fn split(", 1),
    ("pitch/search.rs", "    next: Subframe,", "    pub next: Subframe,", 1),
    ("pitch/search.rs", "    previous: PitchLag,", "    pub previous: PitchLag,", 1),
    ("pitch/search.rs", "const INTERPOLATOR:", "pub const INTERPOLATOR:", 1),
    ("pitch/search.rs", "fn absolute(", "pub fn absolute(", 1),
    ("pitch/search.rs", "fn fractional(", "pub fn fractional(", 1),
    ("pitch/search.rs", "fn half(", "pub fn half(", 1),
    ("pitch/search.rs", "fn interpolate(", "pub fn interpolate(", 1),
    ("pitch/search.rs", "fn multiply(", "pub fn multiply(", 1),
    ("pitch/search.rs", "fn normalized_correlation(", "pub fn normalized_correlation(", 1),
    ("pitch/search.rs", "fn product(", "pub fn product(", 1),
    ("pitch/search.rs", "fn shift(", "pub fn shift(", 1),
    ("pitch/search.rs", "fn split(", "pub fn split(", 1),
    ("postfilter.rs", "fn multiply(", "pub fn multiply(", 1),
    ("postfilter.rs", "fn product(", "pub fn product(", 1),
    ("postfilter.rs", "fn rounded(", "pub fn rounded(", 1),
    ("postfilter.rs", "pub(super) fn weight(", "pub fn weight(", 1),
    ("spectral.rs", "fn multiply_q15(", "pub fn multiply_q15(", 1),
    ("synthesis.rs", "fn saturated(", "pub fn saturated(", 1),
];

/// Before the row of a subframe with a resonant spectrum is chosen, tells whether it is limited,
/// and whether it is another one without the limit.
const RESONANT: &str = "            if resonant {
                let row = |limit| {
                    self.gains.clone().quantize(
                        &prepared.target_q0,
                        &filtered,
                        &code.filtered_q12,
                        &code.innovation_q13,
                        limit,
                    )
                };
                let unrestricted = quantization::GainLimit::Unrestricted;
                crate::adopted::count_resonant(
                    limit != unrestricted,
                    row(limit) != row(unrestricted),
                );
            }
            let quantized_gain =";

/// What is replaced besides in the player's copy: the upper lag. The detector of this copy, whose
/// history has the same length, isn't the codec's.
#[rustfmt::skip]
const PLAYER: &[Replaced] = &[
    ("pitch.rs", "const MAX_SEARCH_LAG_SAMPLES: u16 = 143;", "const MAX_SEARCH_LAG_SAMPLES: u16 = 120;", 1),
];

/// A published expression, or some statements, that are no function of their own. The text is cut
/// out between two others and becomes one.
struct Expression {
    file: &'static str,
    start: &'static str,
    end: &'static str,
    /// How often the expression is expected, always the same.
    occurrences: usize,
    /// The function, with `EXPRESSION` where the text goes.
    function: &'static str,
}

const EXPRESSIONS: &[Expression] = &[
    // The division inside `pitch_gain`.
    Expression {
        file: "gain/quantization.rs",
        start: "let ratio = ",
        end: ";",
        occurrences: 1,
        function: "pub fn pitch_gain_ratio(xy: i16, yy: i16) -> i16 {
    use codec::mr74::gain::quantization::Q15_SHIFT;
    EXPRESSION
}
",
    },
    // All of `quantize` before it decodes: the row and its distance. Its `self.decoder` is one that
    // predicts the pair which it is given, so the text stays as it is.
    Expression {
        file: "gain/quantization.rs",
        start: ") -> QuantizedGain {",
        end: "let gains = self",
        occurrences: 1,
        function: "pub struct PairQuantizer {
    pub decoder: PairDecoder,
}
pub struct PairDecoder(pub codec::mr74::gain::Prediction);
impl PairDecoder {
    fn predict(&self, (): ()) -> codec::mr74::gain::Prediction {
        self.0
    }
}
impl PairQuantizer {
    pub fn quantize(
        &self,
        target: &[i16; 40],
        adaptive: &[i16; 40],
        filtered_innovation_q12: &[i16; 40],
        limit: codec::mr74::gain::quantization::GainLimit,
    ) -> (u16, i32) {
        use codec::mr74::{gain::{TABLE, quantization::*}, logarithm};
        let innovation_q13 = ();
        EXPRESSION
        (index, minimum)
    }
}
",
    },
    // The two sums inside `normalized_correlation`.
    Expression {
        file: "pitch/search.rs",
        start: "let energy = ",
        end: ";",
        occurrences: 2,
        function: "pub fn energy40(filtered: &[i16; 40]) -> i32 {
    use codec::mr74::pitch::search::product;
    EXPRESSION
}
",
    },
    Expression {
        file: "pitch/search.rs",
        start: "let sum = filtered",
        end: ";",
        occurrences: 1,
        function: "pub fn dot40(filtered: &[i16; 40], target: &[i16; 40]) -> i32 {
    use codec::mr74::pitch::search::product;
    filtered EXPRESSION
}
",
    },
    // The two steps of `push` before its choice.
    Expression {
        file: "pitch/open_loop.rs",
        start: ".copy_from_slice(&input[HALF_FRAME_SAMPLES..]);",
        end: "let correlation = ",
        occurrences: 1,
        function: "pub fn open_loop_scaled(mut input: [i16; 223]) -> [i16; 223] {
    use codec::mr74::pitch::open_loop::{LOW_ENERGY_LIMIT, SCALE_SHIFT, product, shift_word};
    EXPRESSION
    input
}
",
    },
    Expression {
        file: "pitch/open_loop.rs",
        start: "let correlation = ",
        end: "});",
        occurrences: 1,
        function: "pub fn open_loop_correlation(input: &[i16; 223]) -> [i32; 144] {
    use codec::mr74::pitch::open_loop::{HISTORY_SAMPLES, MINIMUM_LAG, product};
    EXPRESSION})
}
",
    },
    // All of `candidate` but the cut to 16 bits.
    Expression {
        file: "pitch/open_loop.rs",
        start: ") -> (usize, i16) {",
        end: " as i16)",
        occurrences: 1,
        function: "pub fn open_loop_candidate(
    input: &[i16; 223],
    correlation: &[i32; 144],
    minimum: usize,
    maximum: usize,
) -> (usize, i32) {
    use codec::mr74::{
        energy::inverse_sqrt,
        pitch::open_loop::{HALF_FRAME_SAMPLES, HISTORY_SAMPLES, multiply, product},
    };
    EXPRESSION)
}
",
    },
];

fn main() {
    let oracle = PathBuf::from(variable("CARGO_MANIFEST_DIR").expect("set by cargo"));
    let output = PathBuf::from(variable("OUT_DIR").expect("set by cargo"));
    compile_published(&oracle, &output);
    link_leaves(&oracle);
}

fn compile_published(oracle: &Path, output: &Path) {
    println!("cargo:rerun-if-env-changed=MR74_RUST");
    let checkout = match variable("MR74_RUST") {
        Some(folder) => PathBuf::from(folder),
        None => oracle.join("../../shared/docs/src"),
    };
    let from = checkout.join("crates/bts136/src/codec");
    if !from.join("mr74.rs").is_file() {
        panic!(
            "the published Rust is not at {}: set MR74_RUST to a checkout of it, a folder that \
             has crates/bts136/src/codec/mr74.rs",
            checkout.display()
        );
    }

    let mut published = copied(&from, &output.join("codec"), |file, text| {
        replace(REPLACED, file, text)
    });
    for expression in EXPRESSIONS {
        let text = read(&from.join("mr74").join(expression.file));
        published.push_str(&function(expression, &text));
    }
    write(&output.join("published.rs"), &published);

    let adopted = copied(&from, &output.join("adopted"), |file, text| {
        adopted::changed(file, text).replace("crate::codec", "crate::adopted::codec")
    });
    write(&output.join("adopted.rs"), &adopted);

    let player = copied(&from, &output.join("player"), |file, text| {
        let text = replace(REPLACED, file, text);
        replace(PLAYER, file, text).replace("crate::codec", "crate::player::codec")
    });
    write(&output.join("player.rs"), &player);
}

/// Copies the published files, each edited, and gives the declaration of the module that they are.
fn copied(from: &Path, to: &Path, edited: impl Fn(&str, String) -> String) -> String {
    write(&to.join("mod.rs"), "pub mod mr74;\n");
    let root = read(&from.join("mr74.rs"));
    write(&to.join("mr74.rs"), &root);

    // Follows the module declarations from the root file.
    let mut found = Vec::new();
    let mut waiting = declared_modules(&root, "");
    while let Some(file) = waiting.pop() {
        let text = if TAKEN.contains(&file.as_str()) {
            let text = read(&from.join("mr74").join(&file));
            waiting.extend(declared_modules(&text, file.trim_end_matches(".rs")));
            found.push(file.clone());
            edited(&file, text)
        } else {
            STAND_INS
                .iter()
                .find(|(stand_in, _)| *stand_in == file)
                .map_or(String::new(), |(_, text)| text.to_string())
        };
        write(&to.join("mr74").join(&file), &text);
    }
    for file in TAKEN {
        if !found.iter().any(|name| name == file) {
            panic!("the published Rust declares no module for mr74/{file}");
        }
    }

    // The path attribute needs the full path, which only this script knows.
    format!(
        "#[allow(warnings, clippy::all)]\n\
         #[path = {:?}]\n\
         pub mod codec;\n",
        to.join("mod.rs")
    )
}

/// The files of the modules that a file declares, except its tests. `folder` is where the file's
/// own modules are.
fn declared_modules(text: &str, folder: &str) -> Vec<String> {
    let mut modules = Vec::new();
    let mut before = "";
    for line in text.lines().map(str::trim) {
        let declaration = line.strip_prefix("pub ").unwrap_or(line);
        let name = declaration
            .strip_prefix("mod ")
            .and_then(|rest| rest.strip_suffix(';'));
        if let Some(name) = name
            && before != "#[cfg(test)]"
        {
            let separator = if folder.is_empty() { "" } else { "/" };
            modules.push(format!("{folder}{separator}{name}.rs"));
        }
        before = line;
    }
    modules
}

fn replace(list: &[Replaced], file: &str, mut text: String) -> String {
    for (_, old, new, expected) in list.iter().filter(|entry| entry.0 == file) {
        let occurrences = text.matches(old).count();
        if occurrences != *expected {
            panic!(
                "the published mr74/{file} has the text `{old}` {occurrences} times, not \
                 {expected}: see REPLACED and PLAYER in oracle/build.rs"
            );
        }
        text = text.replace(old, new);
    }
    text
}

/// The function that an expression of this file becomes.
fn function(expression: &Expression, text: &str) -> String {
    let Expression {
        file, start, end, ..
    } = expression;
    let cuts: Vec<&str> = text
        .split(start)
        .skip(1)
        .filter_map(|part| part.split_once(end))
        .map(|(cut, _)| cut)
        .collect();
    let alike = cuts.windows(2).all(|pair| same_words(pair[0], pair[1]));
    if cuts.len() != expression.occurrences || !alike {
        panic!(
            "the published mr74/{file} does not have the text `{start}` .. `{end}` exactly {} \
             times, always the same: see EXPRESSIONS in oracle/build.rs",
            expression.occurrences
        );
    }
    expression.function.replace("EXPRESSION", cuts[0])
}

/// Whether two texts differ at most in their spaces and line ends.
fn same_words(left: &str, right: &str) -> bool {
    left.split_whitespace().eq(right.split_whitespace())
}

fn link_leaves(oracle: &Path) {
    println!("cargo:rerun-if-env-changed=MR74_LIB");
    let folder = match variable("MR74_LIB") {
        Some(folder) => PathBuf::from(folder),
        None => oracle.join("../target/staticlib"),
    };
    let archive = folder.join("libmr74_leaves.a");
    if !archive.is_file() {
        panic!(
            "{} is missing: `./build mr74_leaves` builds it (oracle/run does), or set \
             MR74_LIB to a folder that has it",
            archive.display()
        );
    }
    println!("cargo:rerun-if-changed={}", archive.display());
    println!("cargo:rustc-link-search=native={}", folder.display());
    println!("cargo:rustc-link-lib=static=mr74_leaves");
}

/// An environment variable that is set to no text counts as not set.
fn variable(name: &str) -> Option<String> {
    env::var(name).ok().filter(|value| !value.is_empty())
}

fn read(path: &Path) -> String {
    println!("cargo:rerun-if-changed={}", path.display());
    fs::read_to_string(path).unwrap_or_else(|error| panic!("{}: {error}", path.display()))
}

fn write(path: &Path, text: &str) {
    let folder = path.parent().expect("a file in a folder");
    fs::create_dir_all(folder)
        .and_then(|()| fs::write(path, text))
        .unwrap_or_else(|error| panic!("{}: {error}", path.display()));
}
