//! Time of the library's image calls against the reference's: bench [--only=WORDS] [--astcenc[=FILE]] [ROUNDS]
//!
//! ASTC images (`image`): 1,024 by 1,024 texels at 4x4, 6x6, 8x8 and 12x12 in kinds 0 and 1, LDR mode blocks of all sorts with random settings
//! and numbers, written by the library's writer, and photographs that Arm's encoder wrote (`make_pictures`); kind 2 over LDR and HDR mode blocks in
//! turn; solid blocks and blocks with a fault. Library and reference show the same texels, tested in the same run. They take turns in one process,
//! both at opt-level 3; thread CPU time, median of the rounds; where the processor changes its pace between rounds, the median of the rounds'
//! own ratios is steadier. Buffers are filled once before the first round and not cleared between calls.
//!
//! Volumes (`volume`): 128 by 128 by 128 texels at 4x4x4 and 6x6x6 in kinds 0 and 1, mode blocks of all sorts, the same way.

mod astcenc;
mod bc7;
mod caption;
mod clip;
mod faults;
mod image;
mod pvrtc;
mod strict;
mod symbolic;
mod view;
mod volume;

use image::mode_blocks as blocks;

const SIDE: usize = 1024;
const SEED: u64 = 1;

#[repr(C)]
struct Timespec {
    seconds: i64,
    nanoseconds: i64,
}

const CLOCK_THREAD_CPUTIME_ID: i32 = 3;

unsafe extern "C" {
    fn clock_gettime(clock: i32, time: *mut Timespec) -> i32;
}

/// CPU time of this thread in milliseconds.
fn thread_time() -> f64 {
    let mut time = Timespec { seconds: 0, nanoseconds: 0 };
    assert_eq!(unsafe { clock_gettime(CLOCK_THREAD_CPUTIME_ID, &mut time) }, 0);
    time.seconds as f64 * 1e3 + time.nanoseconds as f64 / 1e6
}

fn timed(call: impl FnOnce()) -> f64 {
    let start = thread_time();
    call();
    thread_time() - start
}

fn median(times: impl IntoIterator<Item = f64>) -> f64 {
    let mut times: Vec<f64> = times.into_iter().collect();
    times.sort_by(f64::total_cmp);
    times[times.len() / 2]
}

fn largest(a: [f64; 2], b: [f64; 2]) -> [f64; 2] {
    [a[0].max(b[0]), a[1].max(b[1])]
}

/// The times of each call; each goes first in its round.
fn in_turns(rounds: usize, calls: &mut [&mut dyn FnMut()]) -> Vec<Vec<f64>> {
    let mut times = vec![Vec::new(); calls.len()];
    for round in 0..rounds {
        for turn in 0..calls.len() {
            let i = (round + turn) % calls.len();
            times[i].push(timed(&mut *calls[i]));
        }
    }
    times
}

/// Runs both in turns; answers the ratio of the medians and the median of the rounds' ratios.
fn measure(name: &str, rounds: usize, mut ours: impl FnMut(), mut theirs: impl FnMut()) -> [f64; 2] {
    let times = in_turns(rounds, &mut [&mut ours, &mut theirs]);
    let by_round = median(times[0].iter().zip(&times[1]).map(|(ours, theirs)| ours / theirs));
    let [library, reference] = [0, 1].map(|i: usize| median(times[i].iter().copied()));
    let ratio = library / reference;
    println!(
        "{name}: library {library:.2} ms, reference {reference:.2} ms, ratio {ratio:.2} (by rounds {by_round:.2})"
    );
    [ratio, by_round]
}

const HELP: &str = "bench [--only=WORDS] [--astcenc[=FILE]] [ROUNDS]

Times the library's calls against the reference's in one process, and feeding a clip against decoding its blocks; prints the ratios of
thread CPU time. ROUNDS of each measure, 61 unless given. It is no test: it fails only where the two do not show the same.

--only=WORDS      rows of the image calls that have these words in their name, such as \"pictures 4x4\"; \"kind\" stands in all of them
--astcenc[=FILE]  Arm's codec decodes the images too, on one thread: libastcenc of Debian's package libastcenc3d, or the shared library FILE,
                  a path with a slash, of version 4 or 5; kind 0 as half floats, the nearest that it has";

fn usage() -> ! {
    eprintln!("{HELP}");
    std::process::exit(2)
}

fn main() {
    let (mut rounds, mut only, mut arm) = (61, None, None);
    for argument in std::env::args().skip(1) {
        let (name, value) = argument.split_once('=').map_or((&argument[..], None), |(name, value)| (name, Some(value)));
        match (name, value) {
            ("--help" | "-h", None) => {
                println!("{HELP}");
                return;
            }
            ("--only", Some(words)) => only = Some(words.to_string()),
            ("--astcenc", file) => {
                let files = file.map_or(vec!["libastcenc.so.3d", "libastcenc.so"], |file| vec![file]);
                arm = astcenc::Library::open(&files);
                if arm.is_none() {
                    eprintln!("bench: none of {files:?} is found");
                    std::process::exit(1);
                }
            }
            (n, None) => rounds = n.parse().ok().filter(|&n| n > 0).unwrap_or_else(|| usage()),
            _ => usage(),
        }
    }
    println!(
        "{SIDE} by {SIDE}, seed {SEED}, {rounds} rounds, medians of thread CPU time, ratio of the medians and median of the rounds' ratios; \
         buffers not cleared between calls"
    );
    let table = image::Table { rounds, only: only.as_deref().unwrap_or(""), arm };
    let [textures, plain] = table.run();
    if only.is_some() {
        return;
    }
    println!("images: largest ratio {:.2} (by rounds {:.2})", textures[0], textures[1]);
    println!("solid and faulty blocks: largest ratio {:.2} (by rounds {:.2})", plain[0], plain[1]);
    let volumes = volume::run(rounds);
    println!("volumes: largest ratio {:.2} (by rounds {:.2})", volumes[0], volumes[1]);
    let mut worst = largest(volumes, pvrtc::ratios(rounds));
    worst = largest(worst, bc7::run(rounds));
    worst = largest(worst, symbolic::run(rounds));
    worst = largest(worst, view::run(rounds));
    worst = largest(worst, faults::run(rounds));
    worst = largest(worst, strict::run(rounds));
    println!("largest ratio {:.2} (by rounds {:.2})", worst[0], worst[1]);
    clip::measure(rounds.min(7));
    caption::measure(rounds);
}
