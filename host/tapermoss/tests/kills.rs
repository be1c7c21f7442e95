//! The tool is killed again and again, at moments spread over its whole run: the image it was given is the same after each
//! time, and the new one is not there or whole.

mod common;

use common::{set_bytes, tool, Folder};
use reference::sample::{scattered, Rng};
use std::fs;
use std::process::{Child, Stdio};
use std::thread::sleep;
use std::time::{Duration, Instant};

/// How often each command is killed.
const TIMES: u32 = 60;

/// A full Shugart image with an unsound partition.
fn image() -> Vec<u8> {
    let mut image = scattered(0, 24_210, 90, 24_209, &[300, 20], 5);
    set_bytes(&mut image, 90, 4, &[0; 4]);
    image
}

fn start(arguments: &[&str]) -> Child {
    let mut command = tool(arguments);
    command.stdout(Stdio::null()).stderr(Stdio::null()).spawn().expect("the tool runs")
}

/// How long the command takes when nobody stops it.
fn whole_run(arguments: &[&str]) -> Duration {
    let from = Instant::now();
    assert!(start(arguments).wait().expect("it ends").code().is_some());
    from.elapsed()
}

/// Starts the command and kills it after a while; answers whether it had ended by itself.
fn killed_after(arguments: &[&str], delay: Duration) -> bool {
    let mut child = start(arguments);
    sleep(delay);
    let ended = child.try_wait().expect("it was started").is_some();
    // A child that has ended cannot be killed any more, which is as good.
    let _ = child.kill();
    child.wait().expect("it ends");
    ended
}

/// Removes what a killed run may leave behind: the new image, and a hidden temporary file.
fn clear(folder: &Folder, new: &str) {
    for name in folder.names().into_iter().filter(|name| name != "disk") {
        let temporary = name.starts_with(".disk") && name.ends_with(".part");
        assert!(name == new || temporary, "{name} is left behind");
        fs::remove_file(folder.path(&name)).expect("it is there");
    }
}

/// Kills the command at many moments, from its start to well after its end.
fn kill_often(folder: &Folder, arguments: &[&str], new: &str, expected: &[u8], original: &[u8]) {
    let time = whole_run(arguments);
    assert!(folder.read(new) == expected, "the whole run makes the new image");
    let mut rng = Rng::new(9);
    let (mut absent, mut there) = (0, 0);
    for i in 0..TIMES {
        clear(folder, new);
        let share = (f64::from(i) + f64::from(rng.below(1000)) / 1000.0) / f64::from(TIMES);
        let ended = killed_after(arguments, time.mul_f64(1.5 * share));
        assert!(folder.read("disk") == original, "the original has changed");
        match fs::read(folder.path(new)) {
            Ok(bytes) => {
                there += 1;
                assert!(bytes == expected, "a new image that is not whole");
            }
            Err(_) => {
                absent += 1;
                assert!(!ended, "a run that ended has made the new image");
            }
        }
    }
    println!("{TIMES} kills: no new image {absent} times, a whole one {there} times");
    assert!(absent > 0, "no kill came early enough to test anything");
}

#[test]
fn a_killed_repair_leaves_the_original_and_no_half_image() {
    let folder = Folder::new();
    let original = image();
    let path = folder.put("disk", &original);
    let mut expected = original.clone();
    reference::repair(&mut expected, 0, 90, u32::MAX);
    let repair = ["repair", &path, "--partition", "90"];
    kill_often(&folder, &repair, "disk.repaired", &expected, &original);
}

#[test]
fn a_killed_batch_leaves_the_original_and_no_half_image() {
    let folder = Folder::new();
    let original = image();
    folder.put("disk", &original);
    let mut expected = original.clone();
    reference::repair(&mut expected, 0, 90, u32::MAX);
    let place = folder.as_ref().to_str().expect("text").to_string();
    kill_often(&folder, &["batch", &place], "disk.repaired", &expected, &original);
}

#[test]
fn a_repair_in_place_that_is_killed_leaves_the_old_image_or_the_new_one() {
    let folder = Folder::new();
    let original = image();
    let path = folder.put("disk", &original);
    let mut expected = original.clone();
    reference::repair(&mut expected, 0, 90, u32::MAX);
    let repair = ["repair", &path, "--partition", "90", "--in-place"];
    let time = whole_run(&repair);
    let (mut old, mut new) = (0, 0);
    for i in 0..TIMES {
        folder.put("disk", &original);
        killed_after(&repair, time.mul_f64(1.5 * f64::from(i) / f64::from(TIMES)));
        let found = folder.read("disk");
        old += u32::from(found == original);
        new += u32::from(found == expected);
        clear(&folder, "");
    }
    println!("{TIMES} kills: the old image {old} times, the new one {new} times");
    assert_eq!(old + new, TIMES);
    assert!(old > 0, "no kill came early enough to test anything");
}
