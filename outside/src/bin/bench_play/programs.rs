//! The play program, sox and the bare engine: their times, and the most memory that the play program held.

use std::fs::{self, File};
use std::hint::black_box;
use std::io::{Read, Write};
use std::path::Path;
use std::process::{Child, ChildStdin, ChildStdout, Command, Stdio};
use std::sync::mpsc;
use std::thread;
use std::time::{Duration, Instant};

use outside::checks::sheet_makers::sheet_of;
use outside::ffi;
use outside::reference::ACCEPTED;
use outside::system::{self, Used};
use outside::unit::Numbers;

use super::material::Material;

/// The engine is given so many bytes at a time.
const BLOCK: usize = 4 * 16_384;
/// The longest that sound may stay away after all noise was taken.
const LIMIT: Duration = Duration::from_secs(20);

/// Seconds of user time, of user and system time, and elapsed.
pub type Times = [f64; 3];

fn times([user, total]: Used, elapsed: Duration) -> Times {
    [user, total, elapsed].map(|time| time.as_secs_f64())
}

/// Runs a program to its end. A silent one must tell nothing on standard error.
fn timed(mut command: Command, silent: bool) -> Result<Times, String> {
    let begun = Instant::now();
    let started = command.stdout(Stdio::null()).stderr(Stdio::piped()).spawn();
    let mut child = started.map_err(|error| format!("can't be started: {error}"))?;
    let mut errors = String::new();
    if let Some(mut pipe) = child.stderr.take() {
        let read = pipe.read_to_string(&mut errors);
        read.map_err(|error| format!("standard error: {error}"))?;
    }
    let waited = system::wait_for(child.id());
    let (status, used) = waited.map_err(|error| format!("can't be waited for: {error}"))?;
    if status != 0 || (silent && !errors.is_empty()) {
        return Err(format!("it ended with {status} and told {errors:?}"));
    }
    Ok(times(used, begun.elapsed()))
}

/// The play program with these arguments, its input from the file and its sound to nowhere.
fn play_file(material: &Material, arguments: &[&str], path: &Path) -> Result<Times, String> {
    let noise = File::open(path).map_err(|error| format!("the noise: {error}"))?;
    let mut command = Command::new(&material.play);
    command.args(arguments).current_dir(material.folder.path()).stdin(noise);
    timed(command, true).map_err(|fault| format!("play: {fault}"))
}

/// The play program on raw frames.
pub fn play(material: &Material) -> Result<Times, String> {
    play_file(material, &[], &material.noise_path())
}

/// The play program on the wave file.
pub fn play_wave(material: &Material) -> Result<Times, String> {
    play_file(material, &["--wave"], &material.wave_path())
}

/// True where the program sox is there.
pub fn has_sox() -> bool {
    Command::new("sox").arg("--version").stdout(Stdio::null()).status().is_ok_and(|status| status.success())
}

/// The program sox with ten equalisers at the house frequencies. It may tell of limited samples.
pub fn sox(material: &Material) -> Result<Times, String> {
    let mut command = Command::new("sox");
    command.args("-t raw -r 44100 -e signed -b 16 -c 2".split(' ')).arg(material.noise_path());
    command.args(["-t", "raw", "/dev/null"]);
    for frequency in ["31", "62", "125", "250", "500", "1000", "2000", "4000", "8000", "16000"] {
        command.args(["equalizer", frequency, "1.4q", "3"]);
    }
    timed(command, false).map_err(|fault| format!("sox: {fault}"))
}

/// The engine on the noise in memory, block by block; `each` is given the sound.
fn engine_blocks(material: &Material, mut each: impl FnMut(&[u8])) -> Numbers {
    let mut unit = material.unit;
    let mut sound = vec![0; BLOCK];
    for block in material.noise.chunks(BLOCK) {
        let room = &mut sound[..block.len()];
        assert_eq!(ffi::block(&mut unit, block, room), ACCEPTED);
        each(room);
    }
    unit
}

/// The bare engine.
pub fn engine(material: &Material) -> Result<Times, String> {
    let (begun, before) = (Instant::now(), system::used());
    black_box(engine_blocks(material, |sound| {
        black_box(sound);
    }));
    let (elapsed, after) = (begun.elapsed(), system::used());
    Ok(times([0, 1].map(|n| after[n] - before[n]), elapsed))
}

/// The most memory of a process up to now, in bytes.
fn most_memory(process: u32) -> Result<u64, String> {
    let path = format!("/proc/{process}/status");
    let status = fs::read_to_string(&path).map_err(|error| format!("{path}: {error}"))?;
    let line = status.lines().find_map(|line| line.strip_prefix("VmHWM:"));
    let kilobytes = line.and_then(|line| line.trim().strip_suffix(" kB"));
    let kilobytes = kilobytes.and_then(|number| number.parse::<u64>().ok());
    kilobytes.map_or(Err(format!("{path} has no VmHWM")), |count| Ok(1_024 * count))
}

/// Sends all noise, takes as much sound, and looks at the memory; the input stays open meanwhile.
fn all_but_the_end(
    child: &Child,
    input: &mut ChildStdin,
    output: ChildStdout,
    noise: &[u8],
) -> Result<(Vec<u8>, u64), String> {
    let count = noise.len();
    let (tell, told) = mpsc::channel();
    thread::spawn(move || {
        let mut sound = Vec::with_capacity(count);
        let read = output.take(count as u64).read_to_end(&mut sound);
        tell.send(read.map(|_| sound))
    });
    input.write_all(noise).map_err(|error| format!("play no longer reads: {error}"))?;
    let sound = told.recv_timeout(LIMIT).map_err(|_| "play keeps its sound back".to_string())?;
    let sound = sound.map_err(|error| format!("play's sound: {error}"))?;
    Ok((sound, most_memory(child.id())?))
}

/// Plays all noise through pipes; the sound and the sheet must be those of the engine. Gives the most memory, in bytes,
/// looked at while the program still waits for the end of its input.
pub fn memory_of_play(material: &Material) -> Result<u64, String> {
    let mut command = Command::new(&material.play);
    command.current_dir(material.folder.path()).stdin(Stdio::piped()).stdout(Stdio::piped());
    let mut child = command.spawn().map_err(|error| format!("play can't be started: {error}"))?;
    let (Some(mut input), Some(output)) = (child.stdin.take(), child.stdout.take()) else {
        return Err("play has no pipes".to_string());
    };
    let looked = all_but_the_end(&child, &mut input, output, &material.noise);
    if looked.is_err() {
        // It has ended already, or is ended here.
        let _ = child.kill();
    }
    drop(input);
    let ended = child.wait();
    let (sound, memory) = looked?;
    if !ended.is_ok_and(|status| status.success()) {
        return Err("play ended with a fault".to_string());
    }
    let mut expected = Vec::with_capacity(sound.len());
    let unit = engine_blocks(material, |block| expected.extend(block));
    if sound != expected || material.new_sheet() != sheet_of(&unit) {
        return Err("play's sound or sheet is not the engine's".to_string());
    }
    Ok(memory)
}
