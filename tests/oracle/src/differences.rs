//! What the Rust itself does where documents 01 and 02 ask for something else, each with its smallest input: run, and
//! said in a line. tests/differences compares the lines with tests/differences.expected; docs/DIFFERENCES.md says what the
//! documents ask and what the port does there.
use crate::rows::{Rows, WRONG_SIGNS, channels_of, corrected};
use crate::rust::{Command, Convolver, Rule, Speaker, binaural, decode, decode_order, decoder_matrix, gains, pan, pan_planes, weighted};
use bbx_dsp::blocks::effectors::binaural_decoder::hrtf::HrtfConvolver;
use bbx_dsp::blocks::effectors::binaural_decoder::matrix::compute_matrix;
use bbx_dsp::channel::ChannelLayout;
use std::panic::{AssertUnwindSafe, UnwindSafe, catch_unwind};

use Command::{Ambisonic, Stereo};

/// A surround azimuth, by the rule that was published.
fn published(layout: ChannelLayout, azimuth: f64) -> Command {
    Command::Surround(Rule::Published, layout, azimuth)
}

/// What a run gives, or that it panics.
fn tried<T>(what: impl FnOnce() -> T + UnwindSafe, say: impl FnOnce(T) -> String) -> String {
    catch_unwind(what).map_or_else(|_| "panics".to_string(), say)
}

fn values(list: &[f64]) -> String {
    list.iter().map(|x| value(*x)).collect::<Vec<_>>().join(" ")
}

/// A number, to a few places: what is said here holds on every machine.
fn value(x: f64) -> String {
    if x == 0.0 || (1e-3..1e6).contains(&x.abs()) || !x.is_finite() { format!("{:.4}", x + 0.0) } else { format!("{x:.1e}") }
}

fn say(what: &str, then: String) {
    println!("{what}: {then}");
}

fn orders() {
    for order in [0, 4] {
        say(
            &format!("panner, order {order} at (30, 20)"),
            tried(
                move || gains(Ambisonic(order, 30.0, 20.0)),
                |g| format!("{} channels, {}", g.len(), if g == gains(Ambisonic(1, 30.0, 20.0)) { "those of order 1" } else { "others than of order 1" }),
            ),
        );
        say(
            &format!("virtual speaker, order {order} at (30, 20)"),
            tried(move || weighted(order, 30.0, 20.0), |w| format!("accepted, {} coefficients are not 0", w.iter().filter(|x| **x != 0.0).count())),
        );
        say(&format!("decoder matrix, order {order}, stereo"), tried(move || decoder_matrix(order, ChannelLayout::Stereo), |_| "accepted".to_string()));
        say(&format!("binaural rows, order {order}"), tried(move || compute_matrix(order), |_| "accepted".to_string()));
        say(&format!("convolver for order {order}"), tried(move || HrtfConvolver::new_ambisonic(order), |_| "accepted".to_string()));
    }
}

fn layouts() {
    for layout in [
        ChannelLayout::Mono,
        ChannelLayout::Stereo,
        ChannelLayout::AmbisonicFoa,
        ChannelLayout::Custom(0),
        ChannelLayout::Custom(3),
        ChannelLayout::Custom(16),
        ChannelLayout::Custom(17),
    ] {
        say(
            &format!("surround panner, {layout:?} at 30"),
            tried(
                move || pan(published(layout, 30.0), &[1.0f64], vec![vec![9.0]; layout.channel_count()]).concat(),
                |g| format!("plays, {}", if g.is_empty() { "no channel".to_string() } else { values(&g[..g.len().min(4)]) }),
            ),
        );
        say(&format!("decoder matrix, order 1, {layout:?}"), tried(move || decoder_matrix(1, layout), |m| format!("{} rows", m.len())));
    }
    say("channels of Custom(17)", ChannelLayout::Custom(17).channel_count().to_string());
    say("channels of order 0", ChannelLayout::ambisonic_channel_count(0).to_string());
    say("convolver for 5 surround channels", tried(|| HrtfConvolver::new_surround(5), |_| "accepted".to_string()));
}

fn angles() {
    for position in [100.0, 250.0, f64::INFINITY, f64::NEG_INFINITY, f64::NAN] {
        say(&format!("stereo at {position}, f64"), values(&gains(Stereo(position))));
        say(
            &format!("stereo at {position}, f32"),
            values(&pan(Stereo(position), &[1.0f32], vec![vec![0.0]; 2]).concat().iter().map(|x| f64::from(*x)).collect::<Vec<_>>()),
        );
    }
    say("order 1 at (90, 0)", values(&gains(Ambisonic(1, 90.0, 0.0))));
    say("order 1 at (0, 90)", values(&gains(Ambisonic(1, 0.0, 90.0))));
    say("order 1 at (NaN, 0)", values(&gains(Ambisonic(1, f64::NAN, 0.0))));
    say("order 1 at (450, 100)", values(&gains(Ambisonic(1, 450.0, 100.0))));
    say("order 1 at (infinity, 0)", values(&gains(Ambisonic(1, f64::INFINITY, 0.0))));
    for (azimuth, elevation) in [(f64::NAN, 0.0), (450.0, 100.0)] {
        say(&format!("virtual speaker, order 1 at ({azimuth}, {elevation})"), values(&weighted(1, azimuth, elevation)[..4]));
    }
    say("5.1 at 0", values(&gains(published(ChannelLayout::Surround51, 0.0))));
    for (name, layout) in [("5.1", ChannelLayout::Surround51), ("7.1", ChannelLayout::Surround71)] {
        let by = |rule: Rule| values(&gains(Command::Surround(rule, layout, 30.0)));
        say(&format!("{name} at 30"), format!("{}; corrected {}", by(Rule::Published), by(Rule::Corrected)));
    }
    say("5.1 at NaN", values(&gains(published(ChannelLayout::Surround51, f64::NAN))));
    say("5.1 at 400", values(&gains(published(ChannelLayout::Surround51, 400.0))));
    say("5.1 at infinity", values(&gains(published(ChannelLayout::Surround51, f64::INFINITY))));
    // The command is narrowed, and one within the smallest step of 0 is taken for 0.
    let channel_1 = |x: f64| pan(Ambisonic(1, x, 0.0), &[1.0f32], vec![vec![0.0]; 4])[1][0];
    say(
        "order 1 at (0.1, 0), f32, channel 1 as that at the f32 nearest 0.1",
        (channel_1(0.1) == gains(Ambisonic(1, f64::from(0.1f32), 0.0))[1] as f32).to_string(),
    );
    say("order 1 at (1e-7, 0), f32, channel 1", value(f64::from(channel_1(1e-7))));
    say("order 1 at (1e-16, 0), f64, channel 1", value(gains(Ambisonic(1, 1e-16, 0.0))[1]));
}

/// The speakers of a layout, without the LFE.
fn speakers(layout: ChannelLayout) -> Vec<(usize, i32)> {
    let all: &[i32] = if layout == ChannelLayout::Surround51 { &[30, -30, 0, 0, 110, -110] } else { &[30, -30, 0, 0, 90, -90, 150, -150] };
    all.iter().copied().enumerate().filter(|(i, _)| *i != 3).collect()
}

/// Azimuths next to 90 degrees from a speaker, where the Rust rounds radians: which it takes for the wrong side.
fn ninety_from_a_speaker() {
    let (mut wrong, mut farthest, mut first) = (0, 0.0f64, None);
    for layout in [ChannelLayout::Surround51, ChannelLayout::Surround71] {
        for (channel, speaker) in speakers(layout) {
            // Both azimuths that are 90 away, as whole numbers from -180 to 180; a turn more or less is no other place.
            for end in [speaker - 90, speaker + 90].map(|e| (e + 180).rem_euclid(360) - 180) {
                for steps in -40i64..=40 {
                    let azimuth = if end == 0 { steps as f64 * 2f64.powi(-47) } else { f64::from_bits((f64::from(end).to_bits() as i64 + steps) as u64) };
                    if !(-180.0..=180.0).contains(&azimuth) {
                        continue;
                    }
                    // Near the end, the side is told by comparing with the whole number.
                    let is_after = azimuth > f64::from(end);
                    let is_before = azimuth < f64::from(end);
                    let opens_above = (end + 90 - speaker).rem_euclid(360) == 0;
                    let near = if opens_above { is_after } else { is_before };
                    let sounds = gains(published(layout, azimuth))[channel] > 0.0;
                    if near != sounds {
                        wrong += 1;
                        farthest = farthest.max((azimuth - f64::from(end)).abs());
                        first.get_or_insert(format!(
                            "{layout:?}, channel {channel}, azimuth {azimuth:?}: {}",
                            if sounds { "sounds, and is 90 away or more" } else { "is silent, and is less than 90 away" }
                        ));
                    }
                }
            }
        }
    }
    say(
        "azimuths next to 90 from a speaker that are misjudged",
        format!("{wrong}, the farthest {} degrees off, the first {}", value(farthest), first.unwrap_or_default()),
    );
}

/// The two ears of one frame, through rows of an order.
fn ears(rows: &Rows, order: usize, frame: &[f32]) -> String {
    let planes: Vec<Vec<f32>> = frame.iter().map(|x| vec![*x]).collect();
    let heard = binaural(order, rows, &planes, nines(&[1, 1]));
    format!("left {}, right {}", value(f64::from(heard[0][0])), value(f64::from(heard[1][0])))
}

/// The rows as they were published, and with four signs turned: each sign alone, then a source at a place and at its mirror image.
fn right_rows() {
    for (order, channel) in WRONG_SIGNS {
        let only = |sample: f32| -> Vec<f32> { (0..channels_of(order)).map(|c| if c == channel { sample } else { 0.0 }).collect() };
        say(
            &format!("binaural rows, order {order}, channel {channel} alone 1.0"),
            format!("{}; corrected {}", ears(&compute_matrix(order), order, &only(1.0)), ears(&corrected(order), order, &only(1.0))),
        );
    }
    for order in 2..=3 {
        let at = |rows: &Rows, azimuth: f64| {
            let frame: Vec<f32> = gains(Ambisonic(order, azimuth, 20.0)).iter().map(|g| *g as f32).collect();
            ears(rows, order, &frame)
        };
        let both = |rows: &Rows| format!("{}, at (-30, 20) {}", at(rows, 30.0), at(rows, -30.0));
        say(&format!("binaural rows, order {order}, a source at (30, 20)"), format!("{}; corrected {}", both(&compute_matrix(order)), both(&corrected(order))));
    }
}

fn blocks() {
    let long = pan(Stereo(-100.0), &vec![1.0f32; 4097], vec![vec![9.0; 4097]; 2]);
    say("panner, 4,097 frames of 1.0 at -100 over 9.0", format!("frame 4095 is {}, frame 4096 is {}", long[0][4095], long[0][4096]));
    let short = pan(Stereo(-100.0), &[1.0f32; 3], vec![vec![9.0; 2], vec![9.0; 2]]);
    say("panner, 3 frames into planes of 2", format!("plays {}", short[0].iter().filter(|x| **x == 1.0).count()));
    let short = decode(&[&[1.0]], &[vec![1.0; 3]], vec![vec![9.0; 2]]);
    say("decoder, 3 frames into planes of 2", format!("plays {}", short[0].iter().filter(|x| **x == 1.0).count()));
    say("panner, a stereo position and one plane", values(&pan(Stereo(-100.0), &[1.0f64], vec![vec![9.0]]).concat()));
    say("decoder, weights for two channels and one plane", value(f64::from(decode(&[&[1.0, 1.0]], &[vec![1.0]], vec![vec![9.0]])[0][0])));
    for weight in [f64::NAN, f64::INFINITY] {
        say(&format!("decoder, weight {weight}, sample 1.0"), value(f64::from(decode(&[&[weight]], &[vec![1.0]], vec![vec![9.0]])[0][0])));
    }
}

/// One frame of 1.0 on one channel through speakers of weight 1.0 and one tap a place.
fn one_frame(count: usize, length: usize, weight: f64, tap: f32) -> impl FnOnce() -> f32 + UnwindSafe {
    move || {
        let speaker = Speaker { weights: vec![weight], left: vec![tap; length], right: vec![tap; length] };
        Convolver::new(&vec![speaker; count]).process(&[vec![1.0]], [vec![9.0], vec![9.0]])[0][0]
    }
}

fn convolver() {
    let show = |what: &str, count, length, weight, tap| say(what, tried(one_frame(count, length, weight, tap), |x| format!("left {}", value(f64::from(x)))));
    show("convolver, L 0", 1, 0, 1.0, 1.0);
    show("convolver, L 513", 1, 513, 1.0, 1.0);
    show("convolver, 9 speakers", 9, 1, 1.0, 1.0);
    show("convolver, 0 speakers", 0, 1, 1.0, 1.0);
    show("convolver, weight NaN", 1, 1, f64::NAN, 1.0);
    show("convolver, weight infinity", 1, 1, f64::INFINITY, 1.0);
    show("convolver, tap NaN", 1, 1, 1.0, f32::NAN);
    show("convolver, tap infinity", 1, 1, 1.0, f32::INFINITY);
    let one = || Speaker { weights: vec![1.0], left: vec![1.0], right: vec![1.0] };
    say(
        "convolver, 17 channels",
        tried(move || Convolver::new(&[one()]).process(&vec![vec![1.0]; 17], [vec![9.0], vec![9.0]]), |ears| format!("left {:?}", ears[0])),
    );
    say(
        "convolver, weights for two channels and one plane",
        format!("left {:?}", Convolver::new(&[Speaker { weights: vec![1.0, 1.0], ..one() }]).process(&[vec![1.0]], [vec![9.0], vec![9.0]])[0]),
    );
    // L is that of the right ear's filter, whose second tap is heard.
    let ears = Convolver::new(&[Speaker { right: vec![1.0; 2], ..one() }]).process(&[vec![1.0; 2]], [vec![9.0; 2], vec![9.0; 2]]);
    say("convolver, L 2 and a left filter of one tap", format!("left {:?}, right {:?}", ears[0], ears[1]));
    let short = Convolver::new(&[one()]).process(&[vec![1.0; 3]], [vec![9.0; 3], vec![9.0; 2]]);
    say("convolver, 3 frames into a left ear of 3 and a right ear of 2", format!("left {:?}", short[0]));
}

/// Planes of 1.0, one of each length.
fn ones(lengths: &[usize]) -> Vec<Vec<f32>> {
    lengths.iter().map(|n| vec![1.0; *n]).collect()
}

/// Planes to play into, one of each length, that hold 9.0.
fn nines(lengths: &[usize]) -> Vec<Vec<f32>> {
    lengths.iter().map(|n| vec![9.0; *n]).collect()
}

/// A convolver of one speaker, of weight 1.0 on two channels and one tap of 1.0, with a count of channels.
fn convolved(channels: usize, inputs: &[usize], ears: usize) -> Vec<Vec<f32>> {
    let speaker = Speaker { weights: vec![1.0; 2], left: vec![1.0], right: vec![1.0] };
    Convolver::new(&[speaker]).process_channels(channels, &ones(inputs), [vec![9.0; ears], vec![9.0; ears]]).to_vec()
}

/// Which planes are played and which stay, where there are more of them, or fewer, than the block has use for.
fn counts_of_planes() {
    let over = |command: Command, planes: usize| values(&pan(command, &[1.0], vec![vec![9.0]; planes]).concat());
    say("panner, stereo at -100 and three planes over 9.0", over(Stereo(-100.0), 3));
    say("panner, 5.1 at 70 and seven planes over 9.0", over(published(ChannelLayout::Surround51, 70.0), 7));
    say("panner, order 1 at (0, 0) and five planes over 9.0", over(Ambisonic(1, 0.0, 0.0), 5));
    let show = |what: &str, planes: Vec<Vec<f32>>| say(what, format!("{planes:?}"));
    show("panner, stereo at -100 and input planes of 1.0 and of 5.0", pan_planes(Stereo(-100.0), &[vec![1.0], vec![5.0]], nines(&[1, 1])));
    show("panner, no input plane and two planes over 9.0", pan_planes(Stereo(-100.0), &[], nines(&[1, 1])));
    show("panner, one input plane and no plane", pan_planes(Stereo(-100.0), &ones(&[1]), vec![]));
    show("decoder, one row and two planes over 9.0", decode(&[&[1.0]], &ones(&[1]), nines(&[1, 1])));
    show("decoder, rows of 1.0 and of 2.0 and one plane over 9.0", decode(&[&[1.0], &[2.0]], &ones(&[1]), nines(&[1])));
    show("decoder, weights of 1.0 for four channels and five input planes of 1.0", decode_order(1, &[&[1.0; 4]], &ones(&[1; 5]), nines(&[1])));
    show("decoder, no row and one plane over 9.0", decode(&[], &ones(&[1]), nines(&[1])));
    show("decoder, no input plane and one plane over 9.0", decode(&[&[1.0]], &[], nines(&[1])));
    show("decoder, one input plane and no plane", decode(&[&[1.0]], &ones(&[1]), vec![]));
    show("convolver, one channel and two input planes of 1.0", convolved(1, &[1, 1], 1));
    show("convolver, two channels and one input plane of 1.0", convolved(2, &[1], 1));
    show("convolver, no channel and one input plane of 1.0", convolved(0, &[1], 1));
    show("convolver, no input plane and ears over 9.0", convolved(1, &[], 1));
}

/// Planes that are not all as long. The Rust measures the first input and the first output, in the convolver the first
/// input and both ears; a longer plane stays as it was beyond that, and at a shorter one it panics.
fn lengths_of_planes() {
    let show = |what: &str, run: &dyn Fn() -> Vec<Vec<f32>>| say(what, tried(AssertUnwindSafe(run), |planes| format!("{planes:?}")));
    show("panner, stereo at -100, 2 frames into planes of 1 and 2 over 9.0", &|| pan(Stereo(-100.0), &[1.0; 2], nines(&[1, 2])));
    show("panner, stereo at -100, 1 frame into planes of 1 and 0", &|| pan(Stereo(-100.0), &[1.0], nines(&[1, 0])));
    let five_one = published(ChannelLayout::Surround51, 70.0);
    show("panner, 5.1 at 70, 1 frame into planes of 1 and a second of 0", &|| pan(five_one, &[1.0], nines(&[1, 0, 1, 1, 1, 1])));
    let order_1 = Ambisonic(1, 0.0, 0.0);
    show("panner, order 1 at (0, 0), 1 frame into planes of 1 and a second of 0", &|| pan(order_1, &[1.0], nines(&[1, 0, 1, 1])));
    show("decoder, input planes of 1 and 2 into a plane of 2 over 9.0", &|| decode(&[&[1.0, 1.0]], &ones(&[1, 2]), nines(&[2])));
    show("decoder, input planes of 1 and 0 into a plane of 1", &|| decode(&[&[1.0, 1.0]], &ones(&[1, 0]), nines(&[1])));
    show("decoder, 2 frames into planes of 1 and 2 over 9.0", &|| decode(&[&[1.0], &[1.0]], &ones(&[2]), nines(&[1, 2])));
    show("decoder, 1 frame into planes of 1 and 0", &|| decode(&[&[1.0], &[1.0]], &ones(&[1]), nines(&[1, 0])));
    show("convolver, input planes of 1 and 2 into ears of 2 over 9.0", &|| convolved(2, &[1, 2], 2));
    show("convolver, input planes of 1 and 0 into ears of 1", &|| convolved(2, &[1, 0], 1));
}

pub fn print() {
    // A panic is a finding here, and its message is not.
    std::panic::set_hook(Box::new(|_| ()));
    orders();
    layouts();
    angles();
    ninety_from_a_speaker();
    right_rows();
    blocks();
    convolver();
    counts_of_planes();
    lengths_of_planes();
}
