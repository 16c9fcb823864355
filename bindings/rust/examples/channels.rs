//! Twenty-four channels on one searcher: sixteen handsets and eight announcement players. All of
//! them wait and are served in turn; then two, one with a subframe out of turn; and one that waits
//! before every step does not keep another waiting: the same lines as examples/c/channels.c prints.

mod sound;

use mr74::{
    Refusal,
    pitch::{
        UpperLag,
        dispatch::{self, CHANNELS, Channel, Dispatcher},
        search::{OpenLoopLag, Search, Subframe},
    },
};
use sound::Sound;

/// The list, and the last served number.
struct State {
    channels: [Channel; CHANNELS],
    dispatcher: Dispatcher,
}

impl State {
    /// Every third channel is a player's.
    fn fresh() -> Self {
        Self {
            channels: std::array::from_fn(|channel| {
                Channel::new(match channel % 3 {
                    2 => Search::player(),
                    _ => Search::default(),
                })
            }),
            dispatcher: Dispatcher::new(),
        }
    }

    fn mark(&mut self, channel: usize) {
        let marked = dispatch::mark(&mut self.channels, channel);
        print("mark", marked.map(|()| channel));
    }

    /// The channel that is next in the first so many of the list.
    fn next(&self, count: usize) -> Result<usize, Refusal> {
        let told = self.dispatcher.next(&self.channels[..count]);
        print("next", told);
        told
    }

    /// A step of the channel that is next.
    fn serve_next(&mut self, subframe: Subframe) -> Result<(), Refusal> {
        let channel = self.next(CHANNELS)?;
        self.serve(channel, subframe)
    }

    /// A step with what is heard on a channel, which has to be the one that is next: a pulse every
    /// so many samples, 32 to 124, its open-loop lag.
    fn serve(&mut self, channel: usize, subframe: Subframe) -> Result<(), Refusal> {
        let period = 32 + 4 * channel;
        let lag = OpenLoopLag::try_new(period as u16)?;
        let sound = Sound::of(period);
        let heard = sound.inputs(subframe);
        let served = self.dispatcher.serve(
            &mut self.channels,
            heard.excitation,
            heard.target,
            heard.impulse_q12,
            [lag; 2],
            subframe,
        );
        match served {
            Ok(served) => {
                let name = match self.channels[served.channel].searcher().upper {
                    UpperLag::Player => "player",
                    UpperLag::Handset => "handset",
                };
                print!("serve {} {name} ", served.channel);
                match served.found {
                    Ok(found) => {
                        let thirds = found.lag.fraction().thirds();
                        println!("pitch {} {} {thirds}", found.index, found.lag.samples());
                    }
                    Err(Refusal { number, detail }) => println!("refused {number} {detail}"),
                }
            }
            Err(Refusal { number, detail }) => println!("serve refused {number} {detail}"),
        }
        Ok(())
    }
}

/// The channel that was marked or told, or the refusal.
fn print(what: &str, answer: Result<usize, Refusal>) {
    match answer {
        Ok(channel) => println!("{what} {channel}"),
        Err(Refusal { number, detail }) => println!("{what} refused {number} {detail}"),
    }
}

fn main() -> Result<(), Refusal> {
    let mut state = State::fresh();
    // None waits yet. No list has 0 channels, and none of 24 has a channel 24.
    assert!(state.next(CHANNELS).is_err());
    state.serve(0, Subframe::One)?;
    assert!(state.next(0).is_err());
    state.mark(CHANNELS);

    // In whichever order they are marked, the list's is that of the steps. A player refuses 124.
    for channel in (0..CHANNELS).rev() {
        state.mark(channel);
    }
    for _ in 0..CHANNELS {
        state.serve_next(Subframe::One)?;
    }

    // Channel 7 expects subframe two: its search is refused, and then 20 is next though 7 waits.
    state.mark(20);
    state.mark(7);
    state.serve_next(Subframe::Four)?;
    state.mark(7);
    state.serve_next(Subframe::Two)?;
    state.serve_next(Subframe::Two)?;

    // Channel 12 is marked before every step, and 5, which is marked once, has its turn.
    state.mark(5);
    for subframe in [Subframe::Two, Subframe::Two, Subframe::Three] {
        state.mark(12);
        state.serve_next(subframe)?;
    }
    Ok(())
}
