//! `hov seal` and `hov unseal`.

mod support;

use differential::bundles::SAMPLE_A;
use differential::faults::{BlockFault, LengthFault};
use differential::files::{build, random_bundle, Filling, MAX_BUNDLE_SIZE};
use differential::rng::Rng;
use differential::run::Run;
use std::fs::{self, File, Permissions};
use std::io::Read;
use std::os::unix::fs::{symlink, FileTypeExt, MetadataExt, PermissionsExt};
use std::path::Path;
use std::process::Command;
use support::{command, directory, hov, hov_in, hov_unread, hov_with, names_in, refused, Done};

const SEALED: &str = "samples/a.sealed";
const DAMAGED: &str = "samples/damaged.sealed";

/// What `hov` does that succeeds.
fn nothing_printed() -> Done {
    Done::new(0, "", "")
}

fn read(path: impl AsRef<Path>) -> Vec<u8> {
    fs::read(path).expect("the file is read")
}

fn write(path: impl AsRef<Path>, bytes: &[u8]) {
    fs::write(path, bytes).expect("the file is written");
}

/// `hov unseal` of sample A to this path.
fn unseal_a(output: &Path) -> Done {
    hov(&["unseal".as_ref(), SEALED.as_ref(), output.as_os_str()])
}

#[test]
fn seal_then_unseal() {
    let directory = directory("seal_then_unseal");
    let mut rng = Rng::new(1);
    for length in [
        1,
        503,
        504,
        505,
        1_008,
        MAX_BUNDLE_SIZE - 1,
        MAX_BUNDLE_SIZE,
    ] {
        for filling in Filling::ALL {
            let bundle = filling.bundle(&mut rng, length);
            write(directory.join("bundle"), &bundle);
            let done = hov_in(&directory, &["seal", "bundle", "sealed"]);
            assert_eq!(done, nothing_printed(), "{length}, {filling:?}");
            assert!(
                read(directory.join("sealed")) == build(&bundle),
                "{length}, {filling:?}"
            );
            let done = hov_in(&directory, &["unseal", "sealed", "again"]);
            assert_eq!(done, nothing_printed(), "{length}, {filling:?}");
            assert!(
                read(directory.join("again")) == bundle,
                "{length}, {filling:?}"
            );
        }
    }
    assert_eq!(names_in(&directory), ["again", "bundle", "sealed"]);
}

#[test]
fn standard_input_and_output() {
    let sealed = build(&SAMPLE_A);
    let (status, output, errors) = hov_with(&["seal", "-", "-"], &SAMPLE_A);
    assert_eq!((status, errors.as_str()), (0, ""));
    assert!(output == sealed);
    let (status, output, errors) = hov_with(&["unseal", "-", "-"], &sealed);
    assert_eq!((status, errors.as_str()), (0, ""));
    assert!(output == SAMPLE_A);

    let directory = directory("standard_input_and_output");
    let path = directory.join("sealed");
    let arguments = ["seal".as_ref(), "-".as_ref(), path.as_os_str()];
    assert_eq!(hov_with(&arguments, &SAMPLE_A), (0, vec![], String::new()));
    assert!(read(&path) == sealed);
    let arguments = ["unseal".as_ref(), path.as_os_str(), "-".as_ref()];
    assert_eq!(
        hov_with(&arguments, &[]),
        (0, SAMPLE_A.to_vec(), String::new())
    );
}

/// Inputs that are refused: the command, the name, the bytes, and the refusal.
type Input = (&'static str, &'static str, Vec<u8>, u8, usize);

fn refused_inputs() -> [Input; 9] {
    let longest = vec![0; MAX_BUNDLE_SIZE];
    let mut damaged = build(&longest);
    damaged[3 * 512 + 7] = 1;
    let mut cut = build(&longest);
    cut[127 * 512 + 3] = 2;
    let mut swapped = build(&longest);
    swapped[5 * 512..7 * 512].rotate_left(512);
    [
        ("seal", "empty", vec![], 4, 0),
        ("seal", "long", [longest.as_slice(), &[0]].concat(), 4, 0),
        ("seal", "longer", vec![0; 1_000_000], 4, 0),
        ("unseal", "empty", vec![], 1, 0),
        ("unseal", "short", vec![0; 511], 1, 0),
        (
            "unseal",
            "long",
            [build(&longest), vec![0; 512]].concat(),
            1,
            0,
        ),
        ("unseal", "damaged", damaged, 2, 3),
        ("unseal", "cut", cut, 18, 127),
        ("unseal", "swapped", swapped, 17, 5),
    ]
}

/// A refusal: its line on standard error, and nothing written, be the output there
/// before or not.
#[test]
fn refusals() {
    let directory = directory("refusals");
    write(directory.join("there"), b"as it was");
    let before = fs::metadata(directory.join("there")).expect("it is there");
    for (command, name, bytes, number, spot) in refused_inputs() {
        write(directory.join(name), &bytes);
        let line = refused(number, spot, name);
        for output in ["there", "new", "-"] {
            let done = hov_in(&directory, &[command, name, output]);
            assert_eq!(done, Done::new(1, "", &line), "{command} {name} {output}");
        }
        fs::remove_file(directory.join(name)).expect("the input is removed");
        assert_eq!(names_in(&directory), ["there"], "{command} {name}");
    }
    assert_eq!(read(directory.join("there")), b"as it was");
    let after = fs::metadata(directory.join("there")).expect("it is there");
    assert_eq!(after.ino(), before.ino());
    assert_eq!(
        hov(&["unseal", DAMAGED, "-"]),
        Done::new(1, "", &refused(2, 0, DAMAGED))
    );
}

/// Sound files and faulty ones, against the builder.
#[test]
fn generated_files() {
    let mut run = Run::start("hov_generated_files");
    for case in 0..run.cases(40) {
        let bundle = random_bundle(&mut run.rng, 1);
        let file = build(&bundle);
        let sealed = hov_with(&["seal", "-", "-"], &bundle);
        assert!(sealed == (0, file.clone(), String::new()), "{run}");
        let unsealed = hov_with(&["unseal", "-", "-"], &file);
        assert!(unsealed == (0, bundle, String::new()), "{run}");
        run.count(0);
        let file = run.rng.choose(&LengthFault::ALL).file(&mut run.rng);
        let unsealed = hov_with(&["unseal", "-", "-"], &file);
        assert_eq!(unsealed, (1, vec![], refused(1, 0, "-")), "{run}");
        run.count(1);
        let fault = BlockFault::ALL[case % BlockFault::ALL.len()];
        let (file, owed) = fault.file(&mut run.rng);
        let unsealed = hov_with(&["unseal", "-", "-"], &file);
        let line = refused(owed.number, owed.spot, "-");
        assert_eq!(unsealed, (1, vec![], line), "{fault:?}, {run}");
        run.count(owed.number);
    }
    run.finish(&[(0, 40), (1, 40), (17, 10), (18, 8), (2, 8)]);
}

/// The input is read whole before the output is touched.
#[test]
fn output_is_input() {
    let directory = directory("output_is_input");
    let path = directory.join("file");
    write(&path, &SAMPLE_A);
    assert_eq!(
        hov_in(&directory, &["seal", "file", "file"]),
        nothing_printed()
    );
    assert!(read(&path) == build(&SAMPLE_A));
    assert_eq!(
        hov_in(&directory, &["unseal", "file", "./file"]),
        nothing_printed()
    );
    assert!(read(&path) == SAMPLE_A);
    // It is no sealed file any more, and stays what it is.
    let done = hov_in(&directory, &["unseal", "file", "file"]);
    assert_eq!(done, Done::new(1, "", &refused(1, 0, "file")));
    assert!(read(&path) == SAMPLE_A);
    assert_eq!(names_in(&directory), ["file"]);
}

/// Whether a path is itself a symbolic link.
fn is_link(path: &Path) -> bool {
    let found = fs::symlink_metadata(path).expect("it is there");
    found.is_symlink()
}

/// A symbolic link stays, and what it points to is replaced, or made.
#[test]
fn symbolic_links() {
    let directory = directory("symbolic_links");
    let inner = directory.join("inner");
    fs::create_dir(&inner).expect("the directory is made");
    write(inner.join("target"), b"as it was");
    for (name, target) in [
        ("inner/link", "target".into()),
        ("link", "inner/link".into()),
        ("dangling", "inner/new".into()),
        ("absolute", inner.join("target")),
    ] {
        symlink(target, directory.join(name)).expect("the link is made");
    }
    for (link, target) in [
        ("link", "target"),
        ("dangling", "new"),
        ("absolute", "target"),
    ] {
        assert_eq!(unseal_a(&directory.join(link)), nothing_printed(), "{link}");
        assert!(is_link(&directory.join(link)), "{link}");
        let target = inner.join(target);
        assert!(!is_link(&target), "{link}");
        assert!(read(&target) == SAMPLE_A, "{link}");
        write(&target, b"other");
    }
    assert!(is_link(&inner.join("link")));
    assert_eq!(names_in(&inner), ["link", "new", "target"]);
    let names = ["absolute", "dangling", "inner", "link"];
    assert_eq!(names_in(&directory), names);
}

/// A symbolic link that leads nowhere but to itself.
#[test]
fn round_link() {
    let directory = directory("round_link");
    symlink("round", directory.join("round")).expect("the link is made");
    write(directory.join("in"), &build(&SAMPLE_A));
    let done = hov_in(&directory, &["unseal", "in", "round"]);
    let error = "hov: round: Too many levels of symbolic links\n";
    assert_eq!(done, Done::new(3, "", error));
    assert_eq!(names_in(&directory), ["in", "round"]);
}

/// A pipe is written to, and is still a pipe; devices are treated alike. (A test
/// with a device would cost the machine that device, should it ever fail.)
#[test]
fn pipes() {
    let directory = directory("pipes");
    let pipe = directory.join("pipe");
    let made = Command::new("mkfifo").arg(&pipe).status();
    assert!(made.expect("mkfifo runs").success());
    symlink("pipe", directory.join("link")).expect("the link is made");
    // Open on both sides, so that neither waits for the other.
    let both = File::options().read(true).write(true).open(&pipe);
    let mut reader = both.expect("the pipe opens");
    for name in ["pipe", "link"] {
        assert_eq!(unseal_a(&directory.join(name)), nothing_printed(), "{name}");
        let kind = fs::symlink_metadata(&pipe)
            .expect("it is there")
            .file_type();
        assert!(kind.is_fifo(), "{name}");
        assert!(fs::symlink_metadata(directory.join("link"))
            .expect("it is there")
            .is_symlink());
        let mut bytes = [0; SAMPLE_A.len()];
        reader.read_exact(&mut bytes).expect("what was written");
        assert!(bytes == SAMPLE_A, "{name}");
    }
    assert_eq!(names_in(&directory), ["link", "pipe"]);
}

#[test]
fn permissions() {
    let directory = directory("permissions");
    let path = directory.join("file");
    for mode in [0o600, 0o640, 0o644, 0o755, 0o666, 0o777] {
        write(&path, b"as it was");
        fs::set_permissions(&path, Permissions::from_mode(mode)).expect("permissions are set");
        assert_eq!(unseal_a(&path), nothing_printed(), "{mode:o}");
        assert!(read(&path) == SAMPLE_A, "{mode:o}");
        let found = fs::metadata(&path).expect("it is there").permissions();
        assert_eq!(found.mode() & 0o7777, mode, "{mode:o}");
    }
    // A new file has those that any new file has.
    write(directory.join("plain"), b"plain");
    assert_eq!(unseal_a(&directory.join("new")), nothing_printed());
    let mode = |name| {
        let found = fs::metadata(directory.join(name)).expect("it is there");
        found.permissions().mode()
    };
    assert_eq!(mode("new"), mode("plain"));
}

/// The file is replaced, and not written over: who has the old one open keeps it.
#[test]
fn replaced_as_a_whole() {
    let directory = directory("replaced");
    let (path, other) = (directory.join("file"), directory.join("other"));
    write(&path, b"as it was");
    fs::hard_link(&path, &other).expect("the link is made");
    assert_eq!(unseal_a(&path), nothing_printed());
    assert!(read(&path) == SAMPLE_A);
    assert_eq!(read(&other), b"as it was");
}

/// Trouble: nothing is left behind, and nothing is changed.
#[test]
fn outputs_that_do_not_work() {
    let directory = directory("do_not_work");
    fs::create_dir(directory.join("inner")).expect("the directory is made");
    write(directory.join("file"), b"as it was");
    let long = "x".repeat(256);
    for (output, reason) in [
        ("missing/out", "No such file or directory"),
        ("inner", "Is a directory"),
        ("inner/", "Is a directory"),
        (".", "Is a directory"),
        ("file/out", "Not a directory"),
        ("file/", "Not a directory"),
        ("new/", "Not a directory"),
        ("", "No such file or directory"),
        (&long, "File name too long"),
    ] {
        write(directory.join("in"), &build(&SAMPLE_A));
        let done = hov_in(&directory, &["unseal", "in", output]);
        let error = format!("hov: {output}: {reason}\n");
        assert_eq!(done, Done::new(3, "", &error), "{output}");
        assert_eq!(names_in(&directory), ["file", "in", "inner"], "{output}");
        assert!(names_in(&directory.join("inner")).is_empty(), "{output}");
    }
    assert_eq!(read(directory.join("file")), b"as it was");
    // A name of 255 bytes is none too long, and has a temporary file beside it.
    let done = hov_in(&directory, &["unseal", "in", &long[1..]]);
    assert_eq!(done, nothing_printed());
}

/// The temporary file is gone when it can't be moved to its place.
#[test]
fn no_temporary_file_stays() {
    let directory = directory("no_temporary");
    write(directory.join("in"), &build(&SAMPLE_A));
    // The temporary file can be made, but a path that ends so is no file's.
    let done = hov_in(&directory, &["unseal", "in", "new/"]);
    assert_eq!(done.status, 3);
    assert_eq!(names_in(&directory), ["in"]);
}

/// Trouble with the input comes before the output is touched.
#[test]
fn inputs_that_do_not_work() {
    let directory = directory("inputs");
    write(directory.join("out"), b"as it was");
    for command in ["seal", "unseal"] {
        for (input, reason) in [
            ("missing", "No such file or directory"),
            (".", "Is a directory"),
        ] {
            for output in ["out", "new", "-"] {
                let done = hov_in(&directory, &[command, input, output]);
                let error = format!("hov: {input}: {reason}\n");
                assert_eq!(done, Done::new(3, "", &error), "{command} {input} {output}");
            }
        }
    }
    assert_eq!(names_in(&directory), ["out"]);
    assert_eq!(read(directory.join("out")), b"as it was");
    // An endless input is read until it is too long.
    assert_eq!(
        hov(&["seal", "/dev/zero", "-"]),
        Done::new(1, "", &refused(4, 0, "/dev/zero"))
    );
    assert_eq!(
        hov(&["unseal", "/dev/zero", "-"]),
        Done::new(1, "", &refused(1, 0, "/dev/zero"))
    );
}

#[test]
fn output_that_takes_nothing() {
    let full = File::create("/dev/full").expect("a device that is full");
    let mut unseal = command(&["unseal", SEALED, "-"]);
    let done = Done::of(unseal.stdout(full).output().expect("hov runs"));
    let error = "hov: standard output: No space left on device\n";
    assert_eq!(done, Done::new(3, "", error));

    let done = hov_unread(&["unseal", SEALED, "-"]);
    assert_eq!(done, Done::new(3, "", ""));
}
