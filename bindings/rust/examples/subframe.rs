//! The stages of one subframe, on silence and on a voiced sound, and both readers on what they
//! send; a tuning screen, which shows an index before it is sent; a level meter of the gain row, on
//! a sound that fits and on a loud one; the resonance watch on a test tone; the pitch of an
//! announcement player beside that of a handset; and a tuning bench, which searches whole logged
//! frames: the same lines as examples/c/main.c prints.

mod sound;

use mr74::{
    Refusal, SUBFRAME_SAMPLES,
    codebook::{
        Codebook,
        search::{SharpeningGain, search},
    },
    encoder_filtering::{COEFFICIENTS, INPUT_SAMPLES, LPC_ORDER, prepare, residual},
    encoder_stability::{Stability, WatchedRow},
    entries,
    gain::quantization::{GainLimit, PitchClips, Prediction, pitch_gain, quantize},
    logarithm::{log2, pow2},
    pitch::{
        LagReader, PitchLag, UpperLag,
        frame::{FRAME_SAMPLES, SubframeInputs, frame},
        open_loop::Detector,
        search::{EXCITATION_SAMPLES, OpenLoopLag, Search, SearchedPitch, Subframe, convolve},
    },
};
use sound::{PAST, Sound, words_from};

const HALF_FRAME: usize = 80;
const SUBFRAMES: [Subframe; 4] = [
    Subframe::One,
    Subframe::Two,
    Subframe::Three,
    Subframe::Four,
];

type Words = [i16; SUBFRAME_SAMPLES];

/// What is kept from one subframe to the next.
#[derive(Default)]
struct State {
    detector: Detector,
    searcher: Search,
    reader: LagReader,
}

impl State {
    /// Searcher and reader are made alike: only then does the reader recover what the searcher
    /// sends. The default is a handset's.
    fn player() -> Self {
        Self {
            detector: Detector::default(),
            searcher: Search::player(),
            reader: LagReader::player(),
        }
    }

    fn open_loop(&mut self, samples: &[i16; HALF_FRAME]) -> OpenLoopLag {
        let lag = self.detector.push(samples);
        println!("open {}", lag.samples());
        lag
    }

    /// For a tuning screen: the index and the lag that the subframe would get. The searcher stays
    /// as it is, and its start is that of its last window.
    fn preview(
        &self,
        excitation: &[i16; EXCITATION_SAMPLES],
        target: &Words,
        impulse: &Words,
        lag: OpenLoopLag,
        subframe: Subframe,
    ) {
        let open_loop = [lag; 2];
        match self
            .searcher
            .preview(excitation, target, impulse, open_loop, subframe)
        {
            Ok(SearchedPitch { lag, index }) => {
                let thirds = lag.fraction().thirds();
                println!("preview {index} {} {thirds}", lag.samples());
            }
            Err(Refusal { number, detail }) => println!("preview refused {number} {detail}"),
        }
        self.print_searcher();
    }

    fn print_searcher(&self) {
        println!(
            "searcher {} {} {} {} {}",
            self.searcher.previous.samples(),
            self.searcher.previous.fraction().thirds(),
            self.searcher.next.number(),
            self.searcher.upper.samples(),
            self.searcher.start
        );
    }

    /// The pitch of a subframe, sent and read back, each with the start of its window.
    fn pitch(
        &mut self,
        excitation: &[i16; EXCITATION_SAMPLES],
        target: &Words,
        impulse: &Words,
        lag: OpenLoopLag,
        subframe: Subframe,
    ) -> Result<PitchLag, Refusal> {
        let open_loop = [lag; 2];
        let sent = self
            .searcher
            .search(excitation, target, impulse, open_loop, subframe)?;
        let thirds = sent.lag.fraction().thirds();
        println!("pitch {} {} {thirds}", sent.index, sent.lag.samples());
        println!("start {}", self.searcher.start);
        let read = self.reader.read(subframe, sent.index)?;
        println!("lag {} {}", read.samples(), read.fraction().thirds());
        println!("start {}", self.reader.start);
        Ok(sent.lag)
    }

    /// For a tuning bench: a logged frame in one call. Prints both open-loop lags, what is sent for
    /// each subframe and what the reader makes of it. A refused frame has nothing to send.
    fn frame(
        &mut self,
        samples: &[i16; FRAME_SAMPLES],
        had: [SubframeInputs<'_>; 4],
    ) -> Result<(), Refusal> {
        let before = self.detector.clone();
        match frame(&mut self.detector, &mut self.searcher, samples, had) {
            Ok(sent) => {
                let [first, second] = sent.open_loop.map(OpenLoopLag::samples);
                println!("frame {first} {second}");
                for (SearchedPitch { lag, index }, subframe) in
                    sent.pitches.into_iter().zip(SUBFRAMES)
                {
                    let thirds = lag.fraction().thirds();
                    println!("pitch {index} {} {thirds}", lag.samples());
                    let read = self.reader.read(subframe, index)?;
                    println!("lag {} {}", read.samples(), read.fraction().thirds());
                }
            }
            Err(Refusal { number, detail }) => println!("frame refused {number} {detail}"),
        }
        let same = self.detector == before;
        println!("history {}", if same { "as before" } else { "updated" });
        self.print_searcher();
        Ok(())
    }

    /// A logged frame of a sound with a pulse every so many samples.
    fn logged(&mut self, period: usize) -> Result<(), Refusal> {
        let heard = Sound::of(period);
        let had = SUBFRAMES.map(|subframe| heard.inputs(subframe));
        self.frame(words_from(&heard.samples, PAST), had)
    }
}

/// The pulses of a subframe, sent and read back; the filtered ones are for the gain row.
fn pulses(
    target: &Words,
    impulse: &Words,
    lag: PitchLag,
    gain: SharpeningGain,
) -> Result<Words, Refusal> {
    let sent = search(target, impulse, lag, gain)?;
    println!("pulses {} {}", sent.pulse_positions, sent.pulse_signs);
    let read = Codebook::try_new(sent.pulse_positions, sent.pulse_signs)?;
    let [first, second, third, last] = read.positions();
    println!("places {first} {second} {third} {last}");
    Ok(sent.filtered_q12)
}

fn gain_row(
    target: &Words,
    adaptive: &Words,
    filtered: &Words,
    prediction: Prediction,
    limit: GainLimit,
) -> Result<(), Refusal> {
    let row = quantize(target, adaptive, filtered, prediction, limit)?;
    println!(
        "gain {} {} {}",
        row.index, row.pitch_q14, row.correction_q12
    );
    Ok(())
}

fn silence() -> Result<(), Refusal> {
    let zeros = [0; SUBFRAME_SAMPLES];
    let excitation = [0; EXCITATION_SAMPLES];
    let mut state = State::default();
    let lag = state.open_loop(&[0; HALF_FRAME]);
    for subframe in [Subframe::One, Subframe::Two, Subframe::Two] {
        // At the last subframe three is expected, and the searcher stays as it is.
        match state.pitch(&excitation, &zeros, &zeros, lag, subframe) {
            Ok(_) => {}
            Err(Refusal { number, detail }) => println!("refused {number} {detail}"),
        }
    }
    let lag = PitchLag::from_absolute(62);
    pulses(&zeros, &zeros, lag, SharpeningGain(0))?;
    let gain = |exponent, fraction, limit| {
        let prediction = Prediction { exponent, fraction };
        gain_row(&zeros, &zeros, &zeros, prediction, limit)
    };
    gain(0, 0, GainLimit::Unrestricted)?;
    gain(0, 0, GainLimit::Resonance)?;
    // The type has no third limit, so the library's own function is asked.
    let refused = entries::quantize(&zeros, &zeros, &zeros, 0, 0, 2);
    println!("refused {} {}", refused.number, refused.magnitude);
    // The exponent is looked at first.
    for exponent in [-129, -128] {
        match gain(exponent, 32768, GainLimit::Unrestricted) {
            Err(Refusal { number: 7, detail }) => println!("exponent refused 7 {detail}"),
            Err(Refusal { number: 14, detail }) => println!("fraction refused 14 {detail}"),
            answer => answer?,
        }
    }
    if let Err(Refusal { number, detail }) = OpenLoopLag::try_new(144) {
        println!("refused {number} {detail}");
    }
    Ok(())
}

/// A pulse every 57 samples, and a filter with one pole.
fn voiced() -> Result<(), Refusal> {
    const PERIOD: usize = 57;
    let pulse = |at_pulse: bool| if at_pulse { 8000 } else { 0 };
    let mut state = State::default();
    let [_, lag] = [0, HALF_FRAME].map(|from| {
        let samples = std::array::from_fn(|i| pulse((from + i).is_multiple_of(PERIOD)));
        state.open_loop(&samples)
    });

    let mut filter = [0; COEFFICIENTS];
    filter[..2].copy_from_slice(&[4096, -3200]);
    let past = [0; LPC_ORDER];
    let mut sample = 0;
    let speech: [i16; INPUT_SAMPLES] = std::array::from_fn(|i| {
        sample = sample * 3 / 4 + pulse(i % PERIOD == 20);
        sample
    });
    let prepared = prepare(&speech, &filter, &filter, &past, &past);
    let (target, impulse) = (prepared.target_q0, prepared.impulse_q12);
    println!(
        "filter {} {} {} {}",
        prepared.residual_q0[10], impulse[1], target[10], prepared.error_q0[10]
    );

    let residual = residual(&filter, &speech);
    println!("residual {} {}", residual[10], residual[11]);

    let excitation = std::array::from_fn(|i| match i.checked_sub(PAST) {
        Some(i) => residual[i],
        None => pulse((PAST - i + 10).is_multiple_of(PERIOD)),
    });
    state.preview(&excitation, &target, &impulse, lag, Subframe::One);
    let found = state.pitch(&excitation, &target, &impulse, lag, Subframe::One)?;

    // The excitation one lag ago stands for the adaptive words.
    let ago = PAST - usize::from(found.samples());
    let ago = std::array::from_fn(|i| excitation[ago + i]);
    let adaptive = convolve(&ago, &impulse);
    println!("pitch gain {}", pitch_gain(&target, &adaptive).gain_q14);
    let filtered = pulses(&target, &impulse, found, SharpeningGain(8192))?;
    let prediction = Prediction {
        exponent: 0,
        fraction: 0,
    };
    let limit = GainLimit::Unrestricted;
    gain_row(&target, &adaptive, &filtered, prediction, limit)?;
    let level = log2(8000);
    println!("power {}", pow2(level.exponent, level.fraction_q15)?);

    // Subframe two is expected: one is refused, and two, on the same words, is shown and then sent.
    state.preview(&excitation, &target, &impulse, lag, Subframe::One);
    state.preview(&excitation, &target, &impulse, lag, Subframe::Two);
    state.pitch(&excitation, &target, &impulse, lag, Subframe::Two)?;
    Ok(())
}

/// A sound that grows over the subframe, and its level: too loud for the sums of the gain row where
/// a term of one was clipped. Each number is out of 40 terms.
fn rising(step: i16) -> Result<(), Refusal> {
    let adaptive: Words = std::array::from_fn(|i| {
        let word = step * i as i16;
        if i % 2 == 0 { word } else { -word }
    });
    let target = adaptive.map(|word| word / 2);
    let gain = pitch_gain(&target, &adaptive);
    let PitchClips { energy, target: xy } = gain.clips();
    println!("pitch gain {} clips {energy} {xy}", gain.gain_q14);
    let prediction = Prediction {
        exponent: 0,
        fraction: 0,
    };
    let limit = GainLimit::Unrestricted;
    let clips = quantize(&target, &adaptive, &adaptive, prediction, limit)?.clips();
    let counts = [
        clips.energy,
        clips.target,
        clips.innovation,
        clips.target_innovation,
        clips.adaptive_innovation,
    ];
    let level = if counts == [0; 5] { "fits" } else { "loud" };
    println!(
        "level {level} {}",
        counts.map(|count| count.to_string()).join(" ")
    );
    Ok(())
}

fn name(limit: GainLimit) -> &'static str {
    match limit {
        GainLimit::Unrestricted => "unrestricted",
        GainLimit::Resonance => "resonance",
    }
}

fn print_stored(watch: &Stability) {
    let stored = watch.gains_q11.map(|gain| gain.to_string());
    println!("stored {}", stored.join(" "));
}

/// For a site with test tones: thirteen frames of a tone of 2000 Hz, and the gain rows after them.
/// Two values of its spectrum lie closely about the tone's own cosine, which is 0.
fn test_tone() -> Result<(), Refusal> {
    const TONE: [i16; LPC_ORDER] = [
        31441, 27566, 21458, 13612, 600, -600, -13612, -21458, -27566, -31441,
    ];
    let zeros = [0; SUBFRAME_SAMPLES];
    let adaptive: Words = std::array::from_fn(|i| [0, 8000, 0, -8000][i % 4]);
    let target = adaptive.map(|word| word + word / 8);
    let prediction = Prediction {
        exponent: 0,
        fraction: 0,
    };
    // The rows before them had a pitch gain of 16222.
    let mut watch = Stability {
        gains_q11: [2027; 7],
        ..Stability::default()
    };
    for _ in 0..13 {
        let resonant = watch.observe_spectrum(&TONE);
        let told = if resonant { " resonant" } else { "" };
        println!("spectrum {}{told}", watch.count);
    }

    // An encoder that limits the pitch gain before the pulses asks for the limit there.
    let gain = pitch_gain(&target, &adaptive).gain_q14;
    println!("pitch gain {gain} limit {}", name(watch.limit(gain)));
    // A pitch gain of at most 15565 is not limited; it is the row's that is stored.
    for gain in [gain, 15565, gain] {
        let WatchedRow { row, limit } =
            watch.quantize(&target, &adaptive, &zeros, prediction, gain)?;
        println!(
            "watched {} {} {} {}",
            name(limit),
            row.index,
            row.pitch_q14,
            row.correction_q12
        );
        print_stored(&watch);
    }
    // One gain too few, which the type does not admit: nothing is written.
    let (count, stored) = (watch.count, &mut watch.gains_q11[..6]);
    let refused = entries::watched_gain(&target, &adaptive, &zeros, 0, 0, gain, count, stored).gain;
    println!("watched refused {} {}", refused.number, refused.magnitude);
    print_stored(&watch);
    // The same rows with the limits set by hand.
    gain_row(&target, &adaptive, &zeros, prediction, GainLimit::Resonance)?;
    gain_row(
        &target,
        &adaptive,
        &zeros,
        prediction,
        GainLimit::Unrestricted,
    )
}

/// The largest open-loop lag of a player in subframes one and two, and one more in three.
fn upper_lag(mut state: State) -> Result<(), Refusal> {
    let name = match state.searcher.upper {
        UpperLag::Player => "player",
        UpperLag::Handset => "handset",
    };
    println!("{name}");
    let zeros = [0; SUBFRAME_SAMPLES];
    let excitation = [0; EXCITATION_SAMPLES];
    let largest = UpperLag::Player.samples();
    for (lag, subframe) in [
        (largest, Subframe::One),
        (largest, Subframe::Two),
        (largest + 1, Subframe::Three),
    ] {
        let lag = OpenLoopLag::try_new(lag)?;
        if subframe == Subframe::Three {
            state.preview(&excitation, &zeros, &zeros, lag, subframe);
        }
        // A player's searcher refuses the last, in a preview too, and stays as it is.
        match state.pitch(&excitation, &zeros, &zeros, lag, subframe) {
            Ok(_) => {}
            Err(Refusal { number, detail }) => println!("refused {number} {detail}"),
        }
    }
    Ok(())
}

/// A player's frame, and one whose second half has an open-loop lag that a player refuses.
fn logged_frames() -> Result<(), Refusal> {
    let mut state = State::player();
    state.logged(45)?;
    state.logged(130)
}

fn main() -> Result<(), Refusal> {
    silence()?;
    voiced()?;
    rising(200)?;
    rising(800)?;
    test_tone()?;
    upper_lag(State::player())?;
    upper_lag(State::default())?;
    logged_frames()
}
