//! What lies beside images in a folder, or is named by mistake: pipes, sockets, folders, files that are far too large, and
//! files that shrink while they are read. None of them hangs the tool, fills the memory or ends it by a signal.

mod common;

use common::{pipe, sample, told, tool, unsound, Folder};
use reference::sample::scattered;
use serde_json::Value;
use std::fs::{self, File};
use std::io;
use std::os::unix::net::UnixListener;
use std::os::unix::process::{CommandExt, ExitStatusExt};
use std::path::Path;
use std::process::{Child, ExitStatus, Output, Stdio};
use std::thread::sleep;
use std::time::{Duration, Instant};

/// How long a run may take that waits for nothing.
const LONG: Duration = Duration::from_secs(20);
/// How much memory a run may have: an image has 37 MB, a stray 3 GB.
const ROOM: u64 = 1 << 30;
/// Every command that reads an image, but for `show` of a pair.
const READING: [&[&str]; 13] = [
    &["partitions"],
    &["check"],
    &["files"],
    &["tree"],
    &["cat", "--file", "7"],
    &["cat", "--path", "letters"],
    &["show", "--file", "7", "--block", "0"],
    &["map"],
    &["repair"],
    &["create"],
    &["create", "--in-place"],
    &["describe", "--file", "7", "--name", "x"],
    &["destroy", "--file", "7"],
];

/// Runs the tool with little memory; a run that does not end is ended, and a failure.
fn bounded(arguments: &[&str]) -> Output {
    let mut command = tool(arguments);
    let limit = || {
        let limit = libc::rlimit { rlim_cur: ROOM, rlim_max: ROOM };
        // SAFETY: the pointer is to a limit that lives until the call ends.
        match unsafe { libc::setrlimit(libc::RLIMIT_AS, &limit) } {
            0 => Ok(()),
            _ => Err(io::Error::last_os_error()),
        }
    };
    // SAFETY: only a system call is made between fork and exec.
    unsafe { command.pre_exec(limit) };
    command.stdin(Stdio::null()).stdout(Stdio::piped()).stderr(Stdio::piped());
    let mut run = command.spawn().expect("the tool runs");
    let from = Instant::now();
    while run.try_wait().expect("it was started").is_none() {
        if from.elapsed() > LONG {
            run.kill().expect("it is ours");
            run.wait().expect("it ends");
            panic!("{arguments:?} hangs");
        }
        sleep(Duration::from_millis(5));
    }
    run.wait_with_output().expect("it has ended")
}

fn place(folder: &Folder) -> &str {
    folder.as_ref().to_str().expect("text")
}

/// What a batch said of one image.
fn of_image<'a>(report: &'a Value, name: &str) -> &'a Value {
    let images = report["images"].as_array().expect("a list");
    images.iter().find(|image| image["image"] == name).expect("it is in the report")
}

#[test]
fn a_batch_over_a_pipe_and_a_socket_ends_and_reads_the_images() {
    let folder = Folder::new();
    folder.put("a", &sample());
    folder.put("z", &unsound());
    pipe(&folder.path("pipe"));
    let _socket = UnixListener::bind(folder.path("socket")).expect("a socket");
    let output = bounded(&["batch", place(&folder), "--json"]);
    let report: Value = serde_json::from_slice(&output.stdout).expect("JSON");
    for (name, outcome) in [("a", "sound"), ("z", "repaired")] {
        assert_eq!(of_image(&report, name)["outcome"], outcome);
    }
    for (name, sort) in [("pipe", "a pipe"), ("socket", "a device or a socket")] {
        let found = of_image(&report, name);
        let path = folder.text(name);
        let sentence = format!("cannot read {path}: it is {sort}, and an image is a regular file");
        assert_eq!(
            (&found["outcome"], &found["sentence"]),
            (&"unreadable".into(), &sentence.into())
        );
    }
    assert_eq!((report["unreadable"].as_u64(), output.status.code()), (Some(2), Some(5)));
}

#[test]
fn a_pipe_or_a_folder_is_said_to_be_one_and_hangs_no_command() {
    let folder = Folder::new();
    let image = folder.put("disk", &sample());
    pipe(&folder.path("pipe"));
    fs::create_dir(folder.path("folder")).expect("a folder");
    for name in ["pipe", "folder"] {
        let path = folder.text(name);
        let told_to_be = format!(
            "tapermoss: cannot read {path}: it is a {name}, and an image is a regular file\n"
        );
        let pair = |original, repaired| {
            let pair = ["show", "--original", original, "--repaired", repaired];
            [&pair[..], &["--file", "7", "--block", "0"]].concat()
        };
        let shows = [pair(image.as_str(), path.as_str()), pair(path.as_str(), image.as_str())];
        let singles = READING.map(|command| [command, &[path.as_str()]].concat());
        for arguments in singles.into_iter().chain(shows) {
            let output = bounded(&arguments);
            let found = (told(&output), output.status.code());
            assert_eq!(found, (told_to_be.clone(), Some(5)), "{arguments:?}");
        }
    }
    assert_eq!(folder.names(), ["disk", "folder", "pipe"]);
}

#[test]
fn a_pipe_in_the_place_of_a_file_of_ours_hangs_nothing() {
    let folder = Folder::new();
    let image = folder.put("disk", &unsound());
    pipe(&folder.path("disk.repaired"));
    for arguments in [["repair", image.as_str()], ["batch", place(&folder)]] {
        let output = bounded(&arguments);
        assert_eq!(output.status.code(), Some(6), "{output:?}");
    }
    fs::remove_file(folder.path("disk.repaired")).expect("it is there");
    for name in [".disk.repaired.1-0.part", ".disk.1-0.part"] {
        pipe(&folder.path(name));
    }
    let commands = [&["repair", &image][..], &["repair", &image, "--in-place"]];
    for arguments in commands {
        assert_eq!(bounded(arguments).status.code(), Some(3), "{arguments:?}");
    }
    fs::remove_file(folder.path("disk.repaired")).expect("it is there");
    folder.put("disk", &unsound());
    assert_eq!(bounded(&["batch", place(&folder)]).status.code(), Some(3));
}

/// A file of zeros that takes no room.
fn sparse(path: &Path, length: u64) {
    File::create(path).expect("a file").set_len(length).expect("a length");
}

#[test]
fn a_stray_of_3_gb_is_not_read() {
    let folder = Folder::new();
    let (ragged, whole) = (3 << 30, 528 * 6_100_000);
    sparse(&folder.path("ragged"), ragged);
    sparse(&folder.path("whole"), whole);
    let sentences = [
        ("ragged", format!("the image's {ragged} bytes are no whole number of 528-byte records")),
        (
            "whole",
            "the image has 6100000 blocks, and drive 2 (Micropolis 35 MB) only 69552".to_string(),
        ),
    ];
    for (name, reason) in &sentences {
        let path = folder.text(name);
        for command in READING {
            let arguments = [command, &[path.as_str()]].concat();
            let output = bounded(&arguments);
            let sentence = format!("tapermoss: refused (1): {reason}\n");
            assert_eq!((told(&output), output.status.code()), (sentence, Some(1)), "{arguments:?}");
        }
    }
    folder.put("small", &sample());
    let output = bounded(&["batch", place(&folder), "--json"]);
    let report: Value = serde_json::from_slice(&output.stdout).expect("JSON");
    for (name, reason) in &sentences {
        assert_eq!(of_image(&report, name)["sentence"], format!("refused (1): {reason}"));
    }
    assert_eq!(of_image(&report, "small")["outcome"], "sound");
    assert_eq!(output.status.code(), Some(1));
}

#[test]
fn of_a_stray_of_3_gb_no_more_is_read_than_an_edit_can_take() {
    let folder = Folder::new();
    let image = folder.put("disk", &sample());
    sparse(&folder.path("stray"), 3 << 30);
    let stray = folder.text("stray");
    for path in [stray.as_str(), "/dev/zero"] {
        let output = bounded(&["write", &image, "--file", "7", "--from", path]);
        assert_eq!(output.status.code(), Some(1), "{path}: {output:?}");
        let output = bounded(&["describe", &image, "--file", "7", "--bytes", path]);
        assert_eq!(output.status.code(), Some(1), "{path}: {output:?}");
        assert!(told(&output).contains("refused (3): a description has 104 bytes"), "{output:?}");
    }
    assert_eq!(folder.names(), ["disk", "stray"]);
}

/// Whether a process reads a file, or has it mapped.
fn is_at(process: u32, path: &Path) -> bool {
    let maps = fs::read_to_string(format!("/proc/{process}/maps")).unwrap_or_default();
    let Ok(entries) = fs::read_dir(format!("/proc/{process}/fd")) else { return false };
    let mut open = entries.filter_map(|entry| fs::read_link(entry.ok()?.path()).ok());
    open.any(|open| open == path)
        || maps.lines().any(|line| line.ends_with(path.to_str().expect("text")))
}

fn signal(run: &Child, signal: i32) {
    // SAFETY: nobody has waited for this child, so the number is its own; the call touches no memory.
    unsafe { libc::kill(run.id() as i32, signal) };
}

/// Runs the tool and cuts the file off as soon as it reads it; answers how it ended, and whether it was caught at that.
fn cut_off(arguments: &[&str], path: &Path) -> (ExitStatus, bool) {
    let mut command = tool(arguments);
    let mut run =
        command.stdout(Stdio::null()).stderr(Stdio::null()).spawn().expect("the tool runs");
    let from = Instant::now();
    while !is_at(run.id(), path) && from.elapsed() < LONG {
        if let Some(status) = run.try_wait().expect("it was started") {
            return (status, false);
        }
    }
    signal(&run, libc::SIGSTOP);
    let caught = is_at(run.id(), path);
    File::options().write(true).open(path).expect("it is there").set_len(528).expect("a length");
    signal(&run, libc::SIGCONT);
    (run.wait().expect("it ends"), caught)
}

#[test]
fn a_file_that_shrinks_while_it_is_read_ends_no_run_by_a_signal() {
    let folder = Folder::new();
    let bytes = scattered(0, 24_210, 90, 24_209, &[300, 20], 5);
    let image = folder.put("disk", &bytes);
    let path = fs::canonicalize(&image).expect("it is there");
    let commands: [&[&str]; 5] =
        [&["check"], &["partitions"], &["files"], &["map", "--force"], &["repair", "--anyway"]];
    let mut times = 0;
    for command in commands.into_iter().cycle().take(50) {
        folder.put("disk", &bytes);
        let (status, caught) = cut_off(&[command, &[image.as_str()]].concat(), &path);
        times += u32::from(caught);
        assert_eq!(status.signal(), None, "{command:?}");
        // All was read before, or it has the size of no drive, or it changed meanwhile, or there is another's repair.
        assert!(matches!(status.code(), Some(0 | 2 | 3 | 5 | 6)), "{command:?}: {status:?}");
    }
    println!("cut off {times} times while it was read");
    assert!(times > 0, "no run was caught at its reading");
}
