//! What tools/library says while rt proves and builds the library. rt is a script of the test's own, which prints what the
//! real one does and goes on when the test lets it.

mod common;

use common::Folder;
use std::fs::{self, File, Permissions};
use std::io::Read;
use std::os::unix::fs::PermissionsExt;
use std::path::PathBuf;
use std::process::{Child, Command, Output, Stdio};
use std::thread::sleep;
use std::time::{Duration, Instant, SystemTime};

/// How each script begins, which is called in crates/perq: `begin NAME` says what rt says of a crate that it begins to prove,
/// `await NAME` holds the script until the test lets it go on, and one that is forgotten gives up.
const BEGIN: &str = "#!/bin/sh
await() {
  for i in $(seq 1000); do
    if [ -e go-$1 ]; then return; fi
    sleep 0.02
  done
  exit 9
}
begin() {
  echo \"rt: chose --jobs 2 for $1\"
}
case \"$PWD:$*\" in
  */crates/perq:lib) cd ../.. ;;
  *) exit 8 ;;
esac
";

/// How a script ends that has built the library.
const BUILT: &str = "mkdir -p crates/perq/out
echo 'an archive' >crates/perq/out/libperq.a
echo 'logic=proved functions=1'
";

const FIRST: &str = "proving and building the library; build/library.log has what the prover says";

fn top() -> PathBuf {
    PathBuf::from(env!("CARGO_MANIFEST_DIR")).join("../..")
}

fn text(path: PathBuf) -> String {
    path.into_os_string().into_string().expect("text")
}

/// A folder with these crates, this rt and an old archive.
fn folder(crates: &str, rt: &str) -> Folder {
    let folder = Folder::new();
    for name in ["bin", "build", "crates/perq"] {
        fs::create_dir_all(folder.path(name)).expect("a new folder");
    }
    folder.put("crates.txt", crates.as_bytes());
    let program = folder.put("bin/rt", format!("{BEGIN}{rt}").as_bytes());
    fs::set_permissions(program, Permissions::from_mode(0o755)).expect("a program");
    let archive = folder.put("build/libperq.a", b"an old archive\n");
    let archive = File::options().append(true).open(archive).expect("it is there");
    archive.set_modified(SystemTime::UNIX_EPOCH).expect("an old file");
    folder
}

/// A command that runs in the folder and finds its rt.
fn there(folder: &Folder, program: &str, arguments: &[&str]) -> Command {
    let mut command = Command::new(program);
    let path = std::env::var("PATH").expect("a path");
    command.current_dir(folder).env("PATH", format!("{}:{path}", folder.text("bin")));
    command.args(arguments).stdin(Stdio::null());
    command
}

/// tools/library at work, on a terminal or not.
struct Building {
    child: Child,
    from: Instant,
    said: Box<dyn Read>,
    lines: usize,
    last: String,
}

impl Building {
    fn start(folder: &Folder, every: &str, look: &str) -> Building {
        let library = text(top().join("tools/library"));
        let mut command = there(folder, &library, &["build/libperq.a", every, look]);
        let (from, command) = (Instant::now(), command.stdout(Stdio::piped()));
        let mut child = command.stderr(Stdio::piped()).spawn().expect("it runs");
        let said = Box::new(child.stderr.take().expect("a pipe"));
        Building { child, from, said, lines: 0, last: String::new() }
    }

    fn on_a_terminal(folder: &Folder, look: &str) -> Building {
        let library = text(top().join("tools/library"));
        let spawn = "import pty, sys; pty.spawn(sys.argv[1:])";
        let arguments = ["-c", spawn, &library, "build/libperq.a", "15", look];
        let mut command = there(folder, "python3", &arguments);
        let (from, command) = (Instant::now(), command.stdout(Stdio::piped()));
        let mut child = command.spawn().expect("it runs");
        let said = Box::new(child.stdout.take().expect("a pipe"));
        Building { child, from, said, lines: 0, last: String::new() }
    }

    /// The next text, up to the end of its line or to where the line is rewritten; nothing at the end.
    fn text(&mut self) -> Option<String> {
        let mut text = Vec::new();
        let mut byte = [0];
        while self.said.read(&mut byte).expect("it can be read") == 1 {
            self.lines += usize::from(byte[0] == b'\n');
            if byte[0] != b'\n' && byte[0] != b'\r' {
                text.push(byte[0]);
            } else if !text.is_empty() {
                return Some(String::from_utf8(text).expect("text").replace("\x1b[K", ""));
            }
        }
        None
    }

    /// Whether it says this, TIME being so many seconds, and not more than have passed.
    fn is(&self, text: &str, expected: &str) -> bool {
        let Some((before, after)) = expected.split_once("TIME") else { return text == expected };
        let time = text.strip_prefix(before).and_then(|rest| rest.strip_suffix(after));
        let seconds = time.and_then(|time| time.strip_suffix(" s")?.parse::<u64>().ok());
        seconds.is_some_and(|seconds| seconds <= self.from.elapsed().as_secs())
    }

    /// The next text is this.
    #[track_caller]
    fn says(&mut self, expected: &str) {
        let text = self.text().unwrap_or_default();
        assert!(self.is(&text, expected), "{text:?} is not {expected:?}");
        self.last = expected.to_string();
    }

    /// The next text that is not what was said last is this.
    #[track_caller]
    fn then_says(&mut self, expected: &str) {
        let mut text = self.text().unwrap_or_default();
        while self.is(&text, &self.last) {
            text = self.text().unwrap_or_default();
        }
        assert!(self.is(&text, expected), "{text:?} is not {expected:?}");
        self.last = expected.to_string();
    }

    /// It says no more; its status and what it printed.
    #[track_caller]
    fn ends(mut self) -> (Option<i32>, String) {
        assert_eq!(self.text(), None);
        let mut printed = String::new();
        let mut out = self.child.stdout.take().expect("a pipe");
        out.read_to_string(&mut printed).expect("text");
        (self.child.wait().expect("it ends").code(), printed)
    }
}

impl Drop for Building {
    fn drop(&mut self) {
        // A test that has failed leaves nothing running; what has ended cannot be killed, which is as good.
        let _ = self.child.kill();
        let _ = self.child.wait();
    }
}

fn let_go(folder: &Folder, name: &str) {
    folder.put(&format!("go-{name}"), b"");
}

/// The order is rt's: image, which volume needs, before it, and drive where the line of perq has it.
#[test]
fn crates_are_begun_one_after_the_other() {
    let crates = "# one that perq does not need\nbase:\ndrive: base\nimage: base # and a word\n\
                  volume: image base\nbatch: volume\nperq staticlib: volume drive\n";
    let rt = "await rt
for crate in base image volume drive perq; do
  begin $crate
  await $crate
  echo \"fn $crate::begin: proved\"
done\n";
    let folder = folder(crates, &format!("{rt}{BUILT}"));
    let mut building = Building::start(&folder, "15", "0.05");
    building.says(FIRST);
    building.says("rt has begun no proof yet; 5 of 5 crates left; TIME");
    let_go(&folder, "rt");
    for (left, name) in [(5, "base"), (4, "image"), (3, "volume"), (2, "drive"), (1, "perq")] {
        building.says(&format!("proving {name}; {left} of 5 crates left; TIME"));
        assert!(!folder.path("build/libperq.a").exists(), "an old archive, while {name} is proved");
        let_go(&folder, name);
    }
    building.says("the library is proved and built: 5 crates in TIME");
    assert_eq!(building.ends(), (Some(0), String::new()));
    assert_eq!(folder.read("build/libperq.a"), b"an archive\n");
    let log = String::from_utf8(folder.read("build/library.log")).expect("text");
    let first =
        "rt: chose --jobs 2 for base\nfn base::begin: proved\nrt: chose --jobs 2 for image\n";
    assert!(log.starts_with(first), "{log}");
    assert!(log.ends_with("\nfn perq::begin: proved\nlogic=proved functions=1\n"), "{log}");
}

#[test]
fn it_speaks_again_while_nothing_ends() {
    let folder = folder("base:\nperq staticlib: base\n", &format!("await all\n{BUILT}"));
    let mut building = Building::start(&folder, "0.1", "0.03");
    building.says(FIRST);
    let mut times = 0;
    let mut text = String::from("; 0 s");
    while text.ends_with("; 0 s") && building.from.elapsed() < Duration::from_secs(9) {
        text = building.text().unwrap_or_default();
        let expected = "rt has begun no proof yet; 2 of 2 crates left; TIME";
        assert!(building.is(&text, expected), "{text}");
        building.last = expected.to_string();
        times += 1;
    }
    assert!(!text.ends_with("; 0 s"), "its time stands still");
    assert!((2..=16).contains(&times), "{times} times in the first second");
    let_go(&folder, "all");
    building.then_says("the library is proved and built: 2 crates in TIME");
    assert_eq!(building.ends().0, Some(0));
}

/// rt says nothing of them.
#[test]
fn crates_that_have_not_changed_are_counted() {
    let rt = "await rt\nbegin perq\nawait perq\n";
    let crates = "base:\nimage: base\nperq staticlib: image\n";
    let folder = folder(crates, &format!("{rt}{BUILT}"));
    let mut building = Building::start(&folder, "15", "0.05");
    building.says(FIRST);
    building.says("rt has begun no proof yet; 3 of 3 crates left; TIME");
    let_go(&folder, "rt");
    building.says("proving perq; 1 of 3 crates left; TIME");
    let_go(&folder, "perq");
    building.says(
        "the library is proved and built: 3 crates in TIME, 2 of them unchanged since they were last proved",
    );
    assert_eq!(building.ends().0, Some(0));
}

/// In the same folder, and in another copy of the repository.
#[test]
fn a_wait_for_another_rt_is_told() {
    let rt = "await rt
echo \"rt: waiting for another rt to finish in $PWD/crates/base\" >&2
await folder
begin base
await base
echo 'rt: drive: another copy of the repository is building this library; waiting for it, to use its work' >&2
await copy
begin perq
await perq\n";
    let crates = "base:\ndrive: base\nperq staticlib: base drive\n";
    let folder = folder(crates, &format!("{rt}{BUILT}"));
    let mut building = Building::start(&folder, "15", "0.05");
    building.says(FIRST);
    building.says("rt has begun no proof yet; 3 of 3 crates left; TIME");
    for (name, then) in [
        ("rt", "waiting for another rt; TIME"),
        ("folder", "proving base; 3 of 3 crates left; TIME"),
        ("base", "waiting for another rt; TIME"),
        ("copy", "proving perq; 1 of 3 crates left; TIME"),
    ] {
        let_go(&folder, name);
        building.says(then);
    }
    let_go(&folder, "perq");
    building.says(
        "the library is proved and built: 3 crates in TIME, 1 of them unchanged since they were last proved",
    );
    assert_eq!(building.ends().0, Some(0));
}

/// What a program of Python prints that has tools/library as `library`.
fn python(folder: &Folder, program: &str) -> Output {
    let library = text(top().join("tools/library"));
    let program = format!("import runpy, sys\nlibrary = runpy.run_path(sys.argv[1])\n{program}");
    there(folder, "python3", &["-c", &program, &library]).output().expect("it runs")
}

/// Two are begun before the first look, the last one before the second, and nothing is said before the next two.
#[test]
fn a_crate_that_is_passed_over_is_not_named() {
    let program = "
import subprocess, time
lines = ['rt: chose --jobs 2 for base\\nrt: chose --jobs 2 for image', 'rt: chose --jobs 2 for perq', '', '']
class Rt:
    def wait(self, look):
        if not lines:
            return 0
        said = lines.pop(0)
        with open('build/library.log', 'a') as log:
            log.write(said + '\\n' if said else '')
        raise subprocess.TimeoutExpired('rt', look)
print(library['watch'](Rt(), ['base', 'image', 'perq'], time.monotonic(), 15, 0.05))";
    let output = python(&folder("", ""), program);
    assert_eq!(output.stdout, b"0\n");
    let said = String::from_utf8(output.stderr).expect("text");
    let mut lines = said.lines();
    for expected in ["proving image; 2 of 3 crates left; ", "proving perq; 1 of 3 crates left; "] {
        let line = lines.next().expect("a line");
        assert!(line.starts_with(expected), "{said}");
    }
    assert_eq!(lines.next(), None, "{said}");
}

#[test]
fn a_minute_is_told_as_one() {
    let program = "print(*map(library['length'], (0.9, 59.9, 60, 72, 238)), sep=', ')";
    let printed = python(&folder("", ""), program).stdout;
    assert_eq!(printed, b"0 s, 59 s, 1 min 0 s, 1 min 12 s, 3 min 58 s\n");
}

#[test]
fn a_failing_rt_is_told_whole_and_leaves_no_archive() {
    let rt = "await rt
begin base
await base
echo 'logic=proved functions=1'
begin drive
await drive
echo 'crates/drive/src/lib.rt:3:1: error: not so'
echo 'rt: the library drive did not build, so nothing above it was checked' >&2
exit 1\n";
    let folder = folder("base:\ndrive: base\nperq staticlib: drive\n", rt);
    let mut building = Building::start(&folder, "15", "0.05");
    building.says(FIRST);
    building.says("rt has begun no proof yet; 3 of 3 crates left; TIME");
    let_go(&folder, "rt");
    building.says("proving base; 3 of 3 crates left; TIME");
    let_go(&folder, "base");
    building.says("proving drive; 2 of 3 crates left; TIME");
    let_go(&folder, "drive");
    building.says("the library is not built: rt ended with status 1 after TIME");
    let log =
        "rt: chose --jobs 2 for base\nlogic=proved functions=1\nrt: chose --jobs 2 for drive\n\
               crates/drive/src/lib.rt:3:1: error: not so\n\
               rt: the library drive did not build, so nothing above it was checked\n";
    assert_eq!(building.ends(), (Some(1), log.to_string()));
    assert_eq!(folder.read("build/library.log"), log.as_bytes());
    assert!(!folder.path("build/libperq.a").exists());
}

/// And that some have not changed is told only where rt is understood.
#[test]
fn how_many_are_left_is_not_told_when_rt_takes_another_order() {
    let rt = "await rt\nbegin drive\nawait drive\nbegin base\nawait base\n";
    let crates = "base:\ndrive:\nperq staticlib: base drive\n";
    let folder = folder(crates, &format!("{rt}{BUILT}"));
    let mut building = Building::start(&folder, "15", "0.05");
    building.says(FIRST);
    building.says("rt has begun no proof yet; 3 of 3 crates left; TIME");
    let_go(&folder, "rt");
    building.says("proving drive; 2 of 3 crates left; TIME");
    let_go(&folder, "drive");
    building.says("proving base; TIME");
    let_go(&folder, "base");
    building.says("the library is proved and built: 3 crates in TIME");
    assert_eq!(building.ends().0, Some(0));
}

#[test]
fn on_a_terminal_one_line_is_rewritten() {
    let rt = "await base\nbegin perq\nawait perq\n";
    let folder = folder("base:\nperq staticlib: base\n", &format!("{rt}{BUILT}"));
    let mut building = Building::on_a_terminal(&folder, "0.05");
    building.says(FIRST);
    building.says("rt has begun no proof yet; 2 of 2 crates left; TIME");
    building.says("rt has begun no proof yet; 2 of 2 crates left; TIME");
    let_go(&folder, "base");
    building.then_says("proving perq; 1 of 2 crates left; TIME");
    let_go(&folder, "perq");
    building.then_says(
        "the library is proved and built: 2 crates in TIME, 1 of them unchanged since they were last proved",
    );
    assert_eq!(building.text(), None);
    assert_eq!(building.lines, 2, "the first and the last");
}

/// The number in a file of the folder, once it is there.
fn number(folder: &Folder, name: &str) -> u32 {
    for _ in 0..500 {
        let text = fs::read_to_string(folder.path(name)).unwrap_or_default();
        if let Ok(number) = text.trim().parse() {
            return number;
        }
        sleep(Duration::from_millis(10));
    }
    panic!("{name} is not there")
}

/// Whether the process ends soon; one that has ended may still have its number until somebody asks for its status.
fn ends_soon(process: u32) -> bool {
    (0..500).any(|_| {
        let stat = fs::read_to_string(format!("/proc/{process}/stat")).unwrap_or_default();
        let ended = stat.is_empty() || stat.contains(") Z ");
        if !ended {
            sleep(Duration::from_millis(10));
        }
        ended
    })
}

#[test]
fn an_rt_is_not_left_running() {
    for signal in ["INT", "TERM", "KILL"] {
        let rt = "echo $$ >rt.number\nsleep 60 &\necho $! >prover.number\nwait\n";
        let folder = folder("base:\nperq staticlib: base\n", rt);
        let mut building = Building::start(&folder, "15", "0.05");
        building.says(FIRST);
        let processes = [number(&folder, "rt.number"), number(&folder, "prover.number")];
        let kill = format!("kill -{signal} {}", building.child.id());
        assert!(Command::new("sh").args(["-c", &kill]).status().expect("it runs").success());
        assert_eq!(building.child.wait().expect("it ends").code(), None, "{signal}");
        assert!(processes.into_iter().all(ends_soon), "{signal} leaves one of {processes:?}");
        assert!(!folder.path("build/libperq.a").exists(), "{signal}");
    }
}

#[test]
fn make_has_no_archive_before_rt_has_built_one() {
    let rt = "[ -e go-perq ] || { echo 'logic=not-proved'; exit 1; }\n";
    let folder = folder("base:\nperq staticlib: base\n", &format!("{rt}{BUILT}"));
    std::os::unix::fs::symlink(top().join("tools"), folder.path("tools")).expect("a link");
    let makefile = text(top().join("Makefile"));
    let make = || {
        let mut command = there(&folder, "make", &["-f", &makefile, "build/libperq.a"]);
        let output = command.env_remove("MAKEFLAGS").env_remove("MAKELEVEL").output();
        let output = output.expect("it runs");
        (output.status.success(), String::from_utf8(output.stdout).expect("text"))
    };
    for _ in 0..2 {
        assert_eq!(make(), (false, "logic=not-proved\n".to_string()));
        assert!(!folder.path("build/libperq.a").exists());
    }
    let_go(&folder, "perq");
    assert_eq!(make(), (true, String::new()));
    assert_eq!(folder.read("build/libperq.a"), b"an archive\n");
    fs::remove_file(folder.path("go-perq")).expect("it is there");
    assert!(make().0, "rt is asked again for an archive that is there");
}
