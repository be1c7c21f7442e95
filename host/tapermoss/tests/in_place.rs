//! `--in-place`: whose image it may replace, what the new one keeps of the old one, and the lock that is held meanwhile.
//! Also the temporary file that the new image is written to, and what is said of one that was left behind.

mod common;

use common::{printed, sample, tapermoss, told, tool, unsound, Folder, FLOPPY};
use reference::inspect::files;
use reference::sample::scattered;
use std::fs::{self, File, FileTimes, Metadata, Permissions};
use std::io;
use std::os::fd::AsRawFd;
use std::os::unix::fs::{chown, MetadataExt, PermissionsExt};
use std::os::unix::process::{CommandExt, ExitStatusExt};
use std::path::Path;
use std::process::{Child, Command, Output, Stdio};
use std::thread::sleep;
use std::time::{Duration, Instant, SystemTime};

const ALL: u32 = u32::MAX;
/// A user and a group that own nothing.
const NOBODY: u32 = 65_534;
/// A group that the tool's user has besides.
const SHARED: u32 = 54_321;

fn is_root() -> bool {
    // SAFETY: the call has no conditions.
    unsafe { libc::geteuid() == 0 }
}

/// Every command that can replace its image.
fn replacing<'a>(image: &'a str, bytes: &'a str) -> [Vec<&'a str>; 5] {
    [
        vec!["create", image, "--in-place"],
        vec!["write", image, "--file", "7", "--from", bytes, "--in-place"],
        vec!["describe", image, "--file", "7", "--name", "x", "--in-place"],
        vec!["destroy", image, "--file", "7", "--in-place"],
        vec!["repair", image, "--in-place", "--anyway"],
    ]
}

fn set_mode(path: &Path, mode: u32) {
    fs::set_permissions(path, Permissions::from_mode(mode)).expect("it is ours");
}

/// What must stay of a file that was not replaced.
fn state(path: &Path) -> (u64, u32, u32, u32, SystemTime) {
    let found = fs::metadata(path).expect("it is there");
    let modified = found.modified().expect("a time");
    (found.ino(), found.uid(), found.gid(), found.mode(), modified)
}

/// A folder in which everybody may make and rename files, with a copy of the tool that everybody may run.
fn open_folder() -> Folder {
    let folder = Folder::new();
    set_mode(folder.as_ref(), 0o777);
    let copy = folder.path("tool");
    let status = Command::new("cp").arg(env!("CARGO_BIN_EXE_tapermoss")).arg(&copy).status();
    assert!(status.expect("cp runs").success());
    set_mode(&copy, 0o755);
    folder
}

/// The tool as a user who does not own what this test owns; it is this user if there is no way to be another.
fn as_another(folder: &Folder, arguments: &[&str]) -> Output {
    let mut command = Command::new(folder.path("tool"));
    command.args(arguments);
    if is_root() {
        command.uid(NOBODY).gid(NOBODY);
    }
    command.output().expect("the tool runs")
}

#[test]
fn an_image_that_one_may_not_write_is_not_replaced() {
    let folder = open_folder();
    let image = folder.put("disk", &sample());
    let bytes = folder.put("bytes", b"x");
    set_mode(&folder.path("disk"), if is_root() { 0o644 } else { 0o444 });
    let (before, names) = (state(&folder.path("disk")), folder.names());
    for arguments in replacing(&image, &bytes) {
        let output = as_another(&folder, &arguments);
        let sentence =
            format!("tapermoss: cannot write to {image}: Permission denied (os error 13)\n");
        assert_eq!((told(&output), output.status.code()), (sentence, Some(5)), "{arguments:?}");
        assert!(output.stdout.is_empty(), "{arguments:?}");
        assert!(folder.read("disk") == sample(), "{arguments:?}");
        assert_eq!(state(&folder.path("disk")), before, "{arguments:?}");
        assert_eq!(folder.names(), names, "{arguments:?}");
    }
}

#[test]
fn a_read_only_image_is_not_replaced_by_whoever_may_write_everywhere_either() {
    let folder = Folder::new();
    let image = folder.put("disk", &sample());
    let bytes = folder.put("bytes", b"x");
    set_mode(&folder.path("disk"), 0o444);
    let before = state(&folder.path("disk"));
    let reason = if is_root() { "it is read-only" } else { "Permission denied (os error 13)" };
    for arguments in replacing(&image, &bytes) {
        let output = tapermoss(&arguments);
        let sentence = format!("tapermoss: cannot write to {image}: {reason}\n");
        assert_eq!((told(&output), output.status.code()), (sentence, Some(5)), "{arguments:?}");
        assert!(folder.read("disk") == sample(), "{arguments:?}");
        assert_eq!(state(&folder.path("disk")), before, "{arguments:?}");
    }
    assert_eq!(folder.names(), ["bytes", "disk"]);
}

#[test]
fn a_read_only_image_still_has_new_ones_made_beside_it() {
    let folder = open_folder();
    let image = folder.put("disk", &sample());
    set_mode(&folder.path("disk"), 0o444);
    let output = as_another(&folder, &["create", &image]);
    assert_eq!(output.status.code(), Some(0), "{output:?}");
    let mut expected = sample();
    reference::create(&mut expected, FLOPPY, 6, 0, ALL);
    assert!(folder.read("disk.new") == expected);
    assert!(folder.read("disk") == sample());
}

#[test]
fn owner_and_mode_are_kept() {
    for mode in [0o600, 0o640, 0o664, 0o755] {
        let folder = Folder::new();
        let image = folder.put("disk", &sample());
        let bytes = folder.put("bytes", b"x");
        let owner = if is_root() { Some(NOBODY) } else { None };
        chown(folder.path("disk"), owner, owner).expect("root may, and nothing is always allowed");
        set_mode(&folder.path("disk"), mode);
        let (_, uid, gid, mode, _) = state(&folder.path("disk"));
        for arguments in replacing(&image, &bytes) {
            let (number, ..) = state(&folder.path("disk"));
            let output = tapermoss(&arguments);
            assert!(matches!(output.status.code(), Some(0 | 3)), "{output:?}");
            assert_eq!(told(&output), "", "{arguments:?}");
            let (new, uid_now, gid_now, mode_now, _) = state(&folder.path("disk"));
            assert_ne!(new, number, "{arguments:?} puts a new file there");
            assert_eq!((uid_now, gid_now, mode_now), (uid, gid, mode), "{arguments:?}");
        }
        assert_eq!(folder.names(), ["bytes", "disk"]);
    }
}

#[test]
fn the_times_are_kept() {
    let folder = Folder::new();
    let image = folder.put("disk", &sample());
    let bytes = folder.put("bytes", b"x");
    let second = |seconds| SystemTime::UNIX_EPOCH + Duration::new(seconds, 123_456_000);
    let (accessed, modified) = (second(600_000_000), second(500_000_000));
    for arguments in replacing(&image, &bytes) {
        let file = File::options().write(true).open(folder.path("disk")).expect("the image");
        let times = FileTimes::new().set_accessed(accessed).set_modified(modified);
        file.set_times(times).expect("it is ours");
        let output = tapermoss(&arguments);
        assert!(matches!(output.status.code(), Some(0 | 3)), "{output:?}");
        let found = fs::metadata(folder.path("disk")).expect("the image");
        assert_eq!(found.modified().expect("a time"), modified, "{arguments:?}");
        assert_eq!(found.accessed().expect("a time"), accessed, "{arguments:?}");
    }
}

/// Lets a command run as a user with the group `SHARED` besides the own one.
fn with_shared_group(command: &mut Command) {
    let become_it = || {
        // SAFETY: the pointer is to one group, as the count says; the other calls touch no memory.
        let answers =
            unsafe { [libc::setgroups(1, &SHARED), libc::setgid(NOBODY), libc::setuid(NOBODY)] };
        if answers == [0; 3] {
            return Ok(());
        }
        Err(io::Error::last_os_error())
    };
    // SAFETY: only system calls are made between fork and exec.
    unsafe { command.pre_exec(become_it) };
}

/// A group of this user that a new file would not have, if there is one.
fn other_group(own: u32) -> Option<u32> {
    let mut groups = [0; 64];
    // SAFETY: the pointer is to as many groups as the count says.
    let count = unsafe { libc::getgroups(64, groups.as_mut_ptr()) };
    groups[..count.max(0) as usize].iter().copied().find(|&group| group != own)
}

#[test]
fn the_group_is_kept_where_only_the_owner_cannot_be() {
    let folder = open_folder();
    let image = folder.put("disk", &sample());
    let path = folder.path("disk");
    let mut command = Command::new(folder.path("tool"));
    command.args(["create", &image, "--in-place"]);
    let group = if is_root() {
        with_shared_group(&mut command);
        Some(SHARED)
    } else {
        other_group(fs::metadata(&path).expect("the image").gid())
    };
    chown(&path, None, group).expect("a group that this user may give");
    set_mode(&path, 0o664);
    let (_, uid, gid, mode, _) = state(&path);
    let output = command.output().expect("the tool runs");
    assert_eq!(output.status.code(), Some(0), "{output:?}");
    let (_, uid_now, gid_now, mode_now, _) = state(&path);
    assert_eq!(uid_now, if is_root() { NOBODY } else { uid });
    assert_eq!(told(&output).contains("has another owner"), is_root(), "{output:?}");
    assert_eq!((gid_now, mode_now), (gid, mode), "whoever may read it by its group still may");
}

/// Holds the lock of a file until it is dropped.
fn lock(path: &Path) -> File {
    let file = File::open(path).expect("it is there");
    // SAFETY: the descriptor is open, and the call touches no memory.
    assert_eq!(unsafe { libc::flock(file.as_raw_fd(), libc::LOCK_EX | libc::LOCK_NB) }, 0);
    file
}

fn start(arguments: &[&str]) -> Child {
    let mut command = tool(arguments);
    command.stdout(Stdio::piped()).stderr(Stdio::piped()).spawn().expect("the tool runs")
}

#[test]
fn a_lock_that_another_holds_is_said_plainly() {
    let folder = Folder::new();
    let image = folder.put("disk", &sample());
    let bytes = folder.put("bytes", b"x");
    let held = lock(&folder.path("disk"));
    let runs = replacing(&image, &bytes).map(|arguments| start(&arguments));
    for run in runs {
        let output = run.wait_with_output().expect("it ends");
        let sentence = format!("tapermoss: cannot lock {image}: another program has it locked\n");
        assert_eq!((told(&output), output.status.code()), (sentence, Some(5)));
        assert!(output.stdout.is_empty(), "{output:?}");
    }
    assert!(folder.read("disk") == sample());
    assert_eq!(folder.names(), ["bytes", "disk"]);
    drop(held);
    printed(&["create", &image, "--in-place"]);
}

/// Starts twenty runs that each make a file; answers how many reported success. The others say that it is locked.
fn twenty_at_once(image: &str) -> usize {
    let runs: Vec<Child> = (0..20).map(|_| start(&["create", image, "--in-place"])).collect();
    let mut successes = 0;
    for run in runs {
        let output = run.wait_with_output().expect("it ends");
        if output.status.code() == Some(0) {
            successes += 1;
            continue;
        }
        let sentence = format!("tapermoss: cannot lock {image}: another program has it locked\n");
        assert_eq!((told(&output), output.status.code()), (sentence, Some(5)));
    }
    successes
}

#[test]
fn of_twenty_at_once_each_success_is_a_file_of_the_image() {
    for _ in 0..4 {
        let folder = Folder::new();
        let image = folder.put("disk", &sample());
        let successes = twenty_at_once(&image);
        let mut expected = sample();
        for _ in 0..successes {
            reference::create(&mut expected, FLOPPY, 6, 0, ALL);
        }
        let found = folder.read("disk");
        let there = files(&found, FLOPPY, 6).expect("a sound partition").len();
        assert_eq!(there, 3 + successes, "3 and {successes} that reported success");
        assert!(successes > 0 && found == expected);
        assert_eq!(folder.names(), ["disk"]);
    }
}

/// Whether a process has a file open.
fn has_open(process: u32, path: &Path) -> bool {
    let Ok(entries) = fs::read_dir(format!("/proc/{process}/fd")) else { return false };
    let mut targets = entries.filter_map(|entry| fs::read_link(entry.ok()?.path()).ok());
    targets.any(|target| target == path)
}

/// Waits until the tool has the image open, or has ended.
fn wait_until_open(run: &mut Child, path: &Path) {
    while !has_open(run.id(), path) && run.try_wait().expect("it was started").is_none() {
        sleep(Duration::from_millis(1));
    }
}

#[test]
fn whoever_gets_the_lock_reads_the_file_that_has_the_name_by_then() {
    let mut other = scattered(FLOPPY, 432, 6, 431, &[1, 2], 9);
    let locked_out = |output: &Output| output.status.code() == Some(5);
    for turn in 0.. {
        let folder = Folder::new();
        let image = folder.put("disk", &sample());
        folder.put("other", &other);
        let path = fs::canonicalize(folder.path("disk")).expect("it is there");
        let held = lock(&path);
        let mut run = start(&["create", &image, "--in-place"]);
        wait_until_open(&mut run, &path);
        fs::rename(folder.path("other"), &path).expect("a renaming");
        drop(held);
        let output = run.wait_with_output().expect("it ends");
        // A machine that is so slow that the tool has waited long enough is given another turn.
        if locked_out(&output) && turn < 20 {
            continue;
        }
        assert_eq!(output.status.code(), Some(0), "{output:?}");
        reference::create(&mut other, FLOPPY, 6, 0, ALL);
        assert!(folder.read("disk") == other, "it is made from the file that had the name");
        return;
    }
}

/// C for a library that the loader lays before libc: it stops the tool just before the first lock that it asks for.
const STOPS_AT_LOCK: &str = "
#define _GNU_SOURCE
#include <signal.h>
#include <sys/syscall.h>
#include <unistd.h>
int flock(int file, int operation) {
    static int asked;
    if (!asked++)
        raise(SIGSTOP);
    return (int)syscall(SYS_flock, file, operation);
}
";

/// Starts the tool with that library, which is made in this folder.
fn watched(folder: &Folder, arguments: &[&str]) -> Child {
    let source = folder.put("stops.c", STOPS_AT_LOCK.as_bytes());
    let library = folder.path("stops.so");
    let compiler =
        Command::new("gcc").args(["-shared", "-fPIC", &source, "-o"]).arg(&library).status();
    assert!(compiler.expect("gcc runs").success());
    let mut command = tool(arguments);
    command.env("LD_PRELOAD", &library);
    command.stdout(Stdio::piped()).stderr(Stdio::piped()).spawn().expect("the tool runs")
}

/// Waits until a watched run asks for a lock; answers whether it ever does.
fn goes_on_to_its_lock(run: &Child) -> bool {
    let (process, mut status) = (run.id() as i32, 0);
    // SAFETY: the pointer is to a status that lives until the call ends, and the process is a child.
    assert_eq!(unsafe { libc::waitpid(process, &mut status, libc::WUNTRACED) }, process);
    libc::WIFSTOPPED(status)
}

#[test]
fn whoever_locks_a_file_that_has_lost_its_name_asks_again() {
    let folder = Folder::new();
    let image = folder.put("disk", &sample());
    let mut other = scattered(FLOPPY, 432, 6, 431, &[1, 2], 9);
    folder.put("other", &other);
    let run = watched(&folder, &["create", &image, "--in-place"]);
    assert!(goes_on_to_its_lock(&run), "it ended without a lock");
    fs::rename(folder.path("other"), folder.path("disk")).expect("a renaming");
    // SAFETY: the process is a child that has not been waited for, and the call touches no memory.
    assert_eq!(unsafe { libc::kill(run.id() as i32, libc::SIGCONT) }, 0);
    let output = run.wait_with_output().expect("it ends");
    assert_eq!(output.status.code(), Some(0), "{output:?}");
    reference::create(&mut other, FLOPPY, 6, 0, ALL);
    assert!(folder.read("disk") == other, "it is made from the file that had the name");
}

/// Runs a command which the system ends in the middle of its writing: no file of it may have more than 100,000 bytes.
fn cut_short(arguments: &[&str]) {
    let mut command = tool(arguments);
    let limit = || {
        for (resource, most) in [(libc::RLIMIT_FSIZE, 100_000), (libc::RLIMIT_CORE, 0)] {
            let limit = libc::rlimit { rlim_cur: most, rlim_max: most };
            // SAFETY: the pointer is to a limit that lives until the call ends.
            if unsafe { libc::setrlimit(resource, &limit) } != 0 {
                return Err(io::Error::last_os_error());
            }
        }
        Ok(())
    };
    // SAFETY: only system calls are made between fork and exec.
    unsafe { command.pre_exec(limit) };
    let output = command.output().expect("the tool runs");
    assert_eq!(output.status.signal(), Some(libc::SIGXFSZ), "{output:?}");
}

/// The temporary files in a folder.
fn parts(folder: &Folder) -> Vec<String> {
    folder.names().into_iter().filter(|name| name.ends_with(".part")).collect()
}

fn metadata(folder: &Folder, name: &str) -> Metadata {
    fs::metadata(folder.path(name)).expect("it is there")
}

#[test]
fn a_half_written_file_is_nobody_else_s_to_read() {
    let targets: [&[&str]; 3] =
        [&["repair", "--in-place"], &["repair"], &["repair", "--output", "OUT"]];
    for target in targets {
        let folder = Folder::new();
        let image = folder.put("disk", &unsound());
        set_mode(&folder.path("disk"), 0o666);
        let out = folder.text("out");
        let words = target.iter().map(|&word| if word == "OUT" { out.as_str() } else { word });
        let arguments: Vec<&str> = words.chain([image.as_str()]).collect();
        cut_short(&arguments);
        assert!(folder.read("disk") == unsound(), "{arguments:?}");
        let parts = parts(&folder);
        assert_eq!(parts.len(), 1, "{arguments:?}: {:?}", folder.names());
        let part = metadata(&folder, &parts[0]);
        assert_eq!((part.len(), part.mode() & 0o7777), (100_000, 0o600), "{arguments:?}");
        fs::remove_file(folder.path(&parts[0])).expect("it is there");
        assert_eq!(tapermoss(&arguments).status.code(), Some(3), "{arguments:?}");
        let new = match target {
            [_, "--in-place"] => "disk",
            [_] => "disk.repaired",
            _ => "out",
        };
        assert_eq!(metadata(&folder, new).mode() & 0o7777, 0o666, "{arguments:?}");
    }
}

#[test]
fn a_part_that_a_killed_run_left_is_named_by_the_next_run() {
    let folder = Folder::new();
    let image = folder.put("disk", &sample());
    for arguments in [vec!["create", &image, "--in-place"], vec!["create", &image, "--force"]] {
        cut_short(&arguments);
        let left = parts(&folder);
        assert_eq!(left.len(), 1, "{arguments:?}: {:?}", folder.names());
        let part = fs::canonicalize(folder.path(&left[0])).expect("it is there");
        let named = format!(
            "a run that was killed has left {} behind; it may be removed\n",
            part.display()
        );
        for _ in 0..2 {
            let output = tapermoss(&arguments);
            assert_eq!((output.status.code(), told(&output)), (Some(0), named.clone()));
            assert_eq!(parts(&folder), left, "it is named, and not touched");
        }
        fs::remove_file(part).expect("it is there");
        let output = tapermoss(&arguments);
        assert_eq!((output.status.code(), told(&output).as_str()), (Some(0), ""));
    }
}

#[test]
fn a_part_that_a_killed_batch_left_is_named_by_the_next_one() {
    let folder = Folder::new();
    folder.put("disk", &unsound());
    let place = folder.as_ref().to_str().expect("text").to_string();
    cut_short(&["batch", &place]);
    let left = parts(&folder);
    assert_eq!(left.len(), 1, "{:?}", folder.names());
    let output = tapermoss(&["batch", &place]);
    assert_eq!(output.status.code(), Some(3), "{output:?}");
    assert!(told(&output).contains(&left[0]), "{output:?}");
    let mut expected = unsound();
    reference::repair(&mut expected, FLOPPY, 6, ALL);
    assert!(folder.read("disk.repaired") == expected);
}

/// Starts a run that makes a large new image, and stops it while it writes; answers its part, if it was caught at that.
fn stopped(folder: &Folder, new: &str) -> (Child, Option<String>) {
    let mut run = start(&["fresh", &folder.text(new), "--drive", "2"]);
    let from = Instant::now();
    while from.elapsed() < Duration::from_secs(20) {
        let written =
            |name: &String| fs::metadata(folder.path(name)).is_ok_and(|part| part.len() > 0);
        if parts(folder).iter().any(written) || run.try_wait().expect("it was started").is_some() {
            break;
        }
    }
    // SAFETY: it is a child that nobody has waited for, or one that has ended, and the call touches no memory.
    unsafe { libc::kill(run.id() as i32, libc::SIGSTOP) };
    (run, parts(folder).pop())
}

#[test]
fn a_part_that_a_run_still_writes_is_not_said_to_be_left() {
    let mut caught = 0;
    for _ in 0..20 {
        let folder = Folder::new();
        let (mut run, part) = stopped(&folder, "disk");
        if part.is_some() {
            let output = tapermoss(&["fresh", &folder.text("disk"), "--drive", "3", "--force"]);
            assert_eq!((output.status.code(), told(&output).as_str()), (Some(0), ""));
            caught += 1;
        }
        run.kill().expect("it is ours");
        run.wait().expect("it ends");
        if let Some(part) = part.filter(|part| folder.path(part).exists()) {
            let output = tapermoss(&["fresh", &folder.text("disk"), "--drive", "3", "--force"]);
            assert!(told(&output).contains(&part), "{output:?}");
            return;
        }
    }
    panic!("no run was caught at its writing, {caught} nearly");
}
