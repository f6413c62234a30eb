//! The programs in Rattle, whose main functions no contract covers: what they say of inputs that cannot be read and outputs that cannot
//! be written.
mod common;

use std::path::PathBuf;
use std::process::{Command, Stdio};
use std::sync::LazyLock;

use common::{errors, out, repository};

/// Where the toolchain leaves a program.
fn made(program: &str) -> PathBuf {
    repository("crates").join(program).join("out").join(program)
}

/// The status, the answer and the errors of a program behind a shell's redirections, which see it as `$0`. The toolchain makes the
/// programs where they are missing.
fn shell(program: &str, script: &str) -> (i32, String, String) {
    static MADE: LazyLock<()> = LazyLock::new(|| {
        for program in ["check_snapshot", "path_printer"].into_iter().filter(|program| !made(program).exists()) {
            let folder = repository("crates").join(program);
            let ran = Command::new("rt").arg("run").stdin(Stdio::null()).current_dir(folder).output();
            assert!(ran.is_ok_and(|ran| ran.status.success()), "`rt run` makes the program {program}");
        }
    });
    LazyLock::force(&MADE);
    let output =
        Command::new("sh").args(["-c", script]).arg(made(program)).current_dir(repository(".")).output().unwrap();
    (output.status.code().unwrap(), out(&output), errors(&output))
}

const UNREAD: &str = "standard input cannot be read: nothing is known of it\n";
const UNWRITTEN: &str = "standard output cannot be written: the answer is not whole\n";

#[test]
fn a_read_that_fails_is_no_empty_input() {
    for program in ["check_snapshot", "path_printer"] {
        for script in ["exec \"$0\" < /", "exec \"$0\" <&-"] {
            assert_eq!(shell(program, script), (2, String::new(), UNREAD.to_string()), "{program}: {script}");
        }
    }
    let (status, accepted, said) = shell("check_snapshot", "exec \"$0\" < /dev/null");
    assert!(status == 0 && accepted.starts_with("accepted\nnames 0\n") && said.is_empty());
}

#[test]
fn a_write_that_fails_is_said() {
    if !std::path::Path::new("/dev/full").exists() {
        return;
    }
    for (program, sample) in [("check_snapshot", "worked.snapshot"), ("path_printer", "worked.input")] {
        let script = format!("exec \"$0\" < samples/{sample} > /dev/full");
        assert_eq!(shell(program, &script), (2, String::new(), UNWRITTEN.to_string()), "{program}");
    }
}

/// Input in small parts is read whole.
#[test]
fn a_slow_pipe() {
    let parts = "(head -c 7 samples/worked.input; sleep 0.1; tail -c +8 samples/worked.input) | \"$0\"";
    assert_eq!(shell("path_printer", parts), (0, "found a::f 1 0\n".to_string(), String::new()));
}

#[test]
fn a_question_before_the_check() {
    for sample in ["worked.input", "routed.input"] {
        let (status, said, _) = shell("check_snapshot", &format!("exec \"$0\" < samples/{sample}"));
        let hint = "refused 31 at 37\na question begins there: path_printer answers questions\n";
        assert_eq!((status, said.as_str()), (0, hint));
    }
    let (_, said, _) = shell("check_snapshot", "printf '\\0\\0\\0\\320' | \"$0\"");
    assert!(said.starts_with("refused 31 at 0\nan unknown or falling kind"), "a member record is no question: {said}");
}
