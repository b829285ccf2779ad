//! Calls that have no answer, long answers, threads and stacks.

use celtisdarts::{
    run, Depth, Error, OrphanReason, ProveAnswer, RefuteAnswer, Session, Verdict, Workspace,
};
use std::thread;

const TEXT: &str = "crate base\ntrait Show\nimpl Show for u8\ncrate a uses base\nstruct V<T>(T)\nimpl<T> Show for V<T> where T: Show\n";

/// Its search goes down to the depth limit at whatever depth, by the largest frames that were found.
const DEEPEST: &str = include_str!("texts/deepest.txt");

fn workspace(text: &str) -> Workspace {
    Workspace::parse(text, Depth::default()).unwrap()
}

fn text_fault(text: &str) -> (u32, u8) {
    match Workspace::parse(text, Depth::default()) {
        Err(Error::Text { line, kind }) => (line, kind.number()),
        other => panic!("{other:?}"),
    }
}

fn question_fault(session: &Session, question: &str) -> u8 {
    match session.prove(question) {
        Err(Error::Question(kind)) => kind.number(),
        other => panic!("{other:?}"),
    }
}

#[test]
fn depths_are_from_1_to_255() {
    assert_eq!(Depth::new(0), None);
    assert_eq!(Depth::new(1).map(Depth::levels), Some(1));
    assert_eq!(Depth::new(128), Some(Depth::default()));
    assert_eq!(Depth::new(129), None);
    assert_eq!(Depth::deep(0), None);
    assert_eq!(Depth::deep(255).map(Depth::levels), Some(255));
}

#[test]
fn faults_of_texts_are_told_by_line_and_number() {
    assert_eq!(text_fault("crate a\n\nstruct A;\n"), (3, 2));
    assert_eq!(text_fault("struct A\n"), (1, 3));
    assert_eq!(text_fault("crate a\ntrait T\u{e9}\n"), (2, 1));
    assert_eq!(text_fault(&"\n".repeat(67_108_865)), (67_108_865, 16));
    let error = Workspace::parse("crate a\nimpl T for u8\n", Depth::default()).unwrap_err();
    assert_eq!(
        error.to_string(),
        "line 2: fault 5: a name or a lifetime is not known"
    );
    assert_eq!(
        run("crate a\nimpl T for u8\n", Depth::default()),
        Err(error)
    );
}

#[test]
fn the_empty_text_has_core_alone() {
    let workspace = workspace("");
    assert!(workspace.crates().is_empty());
    assert_eq!(workspace.session("a").unwrap_err(), Error::NoSuchCrate);
    let core = workspace.session("core").unwrap();
    assert_eq!(core.check_crate(), Ok(Verdict::Accepted));
    assert_eq!(core.prove("u8: Copy"), Ok(ProveAnswer::Yes(vec![])));
    assert_eq!(run("", Depth::default()).unwrap().text(), "");
}

#[test]
fn a_question_with_a_fault_changes_nothing() {
    let workspace = workspace(TEXT);
    let session = workspace.session("a").unwrap();
    for _ in 0..3 {
        assert_eq!(question_fault(&session, ""), 2);
        assert_eq!(question_fault(&session, "W: Show"), 5);
        assert_eq!(question_fault(&session, "V<u8, u8>: Show"), 7);
        assert_eq!(question_fault(&session, "\u{e9}: Show"), 1);
        assert_eq!(
            session.refute("<T> T: Show").map_err(|it| it.to_string()),
            Err("the question has fault 14: parameters in a refute line".into())
        );
        assert_eq!(session.prove("u8: Show\n"), Ok(ProveAnswer::Yes(vec![])));
        assert_eq!(session.refute("V<u8>: Clone\n"), Ok(RefuteAnswer::No));
        assert_eq!(
            session.ask("prove in a u8: Show\n").unwrap().to_string(),
            "yes"
        );
        assert_eq!(session.prove("u8: Show\n\n"), Err(Error::SeveralLines));
        assert_eq!(
            session.prove("u8: Show\nstruct W"),
            Err(Error::SeveralLines)
        );
        assert_eq!(
            session.prove(&format!("u8: Show{}", " ".repeat(67_108_864))),
            Err(Error::TooLong)
        );
        for line in [
            "",
            "// prove in a u8: Show",
            "struct W",
            "supers in a",
            "later a",
            "crate b",
            "impl Show for bool",
        ] {
            assert_eq!(session.ask(line), Err(Error::NotAQuery), "{line}");
        }
        assert_eq!(
            session.prove("V<V<u8>>: Show"),
            Ok(ProveAnswer::Yes(vec![]))
        );
        assert_eq!(session.prove("bool: Show"), Ok(ProveAnswer::Unproved));
        assert_eq!(session.prove("?x: Show"), Ok(ProveAnswer::Maybe(vec![])));
        assert_eq!(
            session.prove("<T> V<T>: Show where T: Show"),
            Ok(ProveAnswer::Yes(vec![]))
        );
        assert_eq!(session.refute("V<bool>: Show"), Ok(RefuteAnswer::Open));
        assert_eq!(session.refute("V<V<V<u8>>>: Clone"), Ok(RefuteAnswer::No));
        assert_eq!(session.check_crate(), Ok(Verdict::Accepted));
    }
}

#[test]
fn an_undecided_question_tells_what_is_known() {
    let shows = "trait Show\nimpl Show for u8\nimpl Show for bool\n";
    let workspace = workspace(&format!(
        "crate a\nstruct V<T>\n{shows}trait Conv<T>\nimpl<T> Conv<V<T>> for u8 where T: Show\n"
    ));
    let session = workspace.session("a").unwrap();
    let known = session.prove("u8: Conv<?x>").unwrap();
    assert_eq!(known.to_string(), "maybe ?x = V<?1>");
    assert!(matches!(known, ProveAnswer::Maybe(values) if values.len() == 1));
    let unknown = session.prove("<T> u8: Conv<?x> where T: Show");
    assert_eq!(unknown, Ok(ProveAnswer::Maybe(vec![])));
}

#[test]
fn a_session_answers_lines_of_other_crates() {
    let workspace = workspace(TEXT);
    assert_eq!(workspace.crates(), ["base", "a"]);
    let session = workspace.session("a").unwrap();
    for _ in 0..3 {
        assert_eq!(
            session.ask("prove in base u8: Show").unwrap().to_string(),
            "yes"
        );
        assert_eq!(
            session.ask("prove in base V<u8>: Show"),
            Err(session_fault(6))
        );
        assert_eq!(
            session.ask(" prove in a V<u8>: Show").unwrap().to_string(),
            "yes"
        );
        assert_eq!(session.check_crate(), Ok(Verdict::Accepted));
    }
}

fn session_fault(number: u8) -> Error {
    // What the same fault of a text is.
    let text = match number {
        6 => "crate a\nstruct A\ncrate b\nprove in b A: Copy\n",
        _ => unreachable!(),
    };
    match Workspace::parse(text, Depth::default()) {
        Err(Error::Text { kind, .. }) => Error::Question(kind),
        other => panic!("{other:?}"),
    }
}

#[test]
fn crates_that_are_not_accepted_are_told_why() {
    let workspace = workspace(
        "crate base\ntrait Show\ntrait Conv<T>\ncrate a uses base\nimpl Show for u8\ncrate b uses base\nstruct B\nimpl<T> Conv<B> for T\n\
         crate c uses base\nimpl<T> Conv<u8> for T\ncrate d\ntrait Own\nimpl<T> Own for T\nimpl Own for u8\n",
    );
    let verdict = |name| workspace.session(name).unwrap().check_crate().unwrap();
    let uncovered = |local: Option<&str>| Verdict::Orphan {
        number: 1,
        reason: OrphanReason::Uncovered {
            param: "T".into(),
            before: local.map(String::from),
        },
    };
    assert_eq!(
        verdict("a"),
        Verdict::Orphan {
            number: 1,
            reason: OrphanReason::Nonlocal
        }
    );
    assert_eq!(verdict("b"), uncovered(Some("B")));
    assert_eq!(verdict("c"), uncovered(None));
    assert_eq!(
        verdict("d"),
        Verdict::Overlap {
            number: 2,
            other_crate: "d".into(),
            other_number: 1
        }
    );
}

#[test]
fn answers_may_be_longer_than_the_first_buffer() {
    let name = "a".repeat(64);
    let inside = format!("({})", [name.as_str(); 12].join(", "));
    let text = format!("crate a\nstruct {name}\nstruct P<T>(T)\ntrait Conv<T>\nimpl Conv<({inside}, {inside}, {inside})> for u8\n");
    let workspace = workspace(&text);
    let session = workspace.session("a").unwrap();
    let wanted = format!("yes ?x = ({inside}, {inside}, {inside})");
    assert!(wanted.len() > 2_000);
    for _ in 0..2 {
        assert_eq!(session.prove("u8: Conv<?x>").unwrap().to_string(), wanted);
        assert_eq!(session.prove("u8: Copy").unwrap().to_string(), "yes");
    }
    let output = run(
        format!("{text}{}", "prove in a u8: Conv<?x>\n".repeat(100)),
        Depth::default(),
    )
    .unwrap();
    assert_eq!(
        output.text().len(),
        "crate a: accepted\n".len() + 92 + 100 * ("prove 1: \n".len() + wanted.len())
    );
}

/// On a stack of so many bytes.
fn on_stack<T: Send>(bytes: usize, call: impl FnOnce() -> T + Send) -> T {
    thread::scope(|scope| {
        thread::Builder::new()
            .stack_size(bytes)
            .spawn_scoped(scope, call)
            .unwrap()
            .join()
            .unwrap()
    })
}

/// The threads of this process.
fn threads() -> usize {
    std::fs::read_dir("/proc/self/task").unwrap().count()
}

/// Each call, to the depth.
fn asks_the_deepest(depth: Depth) {
    let output = run(DEEPEST, depth).unwrap();
    assert_eq!(output.text(), "crate a: accepted\nprove 1: maybe\n");
    let workspace = Workspace::parse(DEEPEST, depth).unwrap();
    let session = workspace.session("a").unwrap();
    assert_eq!(session.check_crate(), Ok(Verdict::Accepted));
    assert_eq!(session.prove("E: T"), Ok(ProveAnswer::Maybe(vec![])));
}

#[test]
fn a_stack_of_any_size_is_enough() {
    for bytes in [64 << 10, 256 << 10, 512 << 10, 700 << 10, 2 << 20, 8 << 20] {
        for levels in [1, 8, 64, 128, 255] {
            on_stack(bytes, || asks_the_deepest(Depth::deep(levels).unwrap()));
        }
    }
}

#[test]
fn a_thread_with_a_small_stack_keeps_one_thread() {
    // (A test of its own process counts threads: others run beside this one.)
    let name = "a_thread_with_a_small_stack_keeps_one_thread";
    if std::env::var_os("COUNTS_THREADS").is_none() {
        let test = std::env::current_exe().unwrap();
        let ended = std::process::Command::new(test)
            .args(["--exact", name, "--test-threads=1"])
            .env("COUNTS_THREADS", "1")
            .output()
            .unwrap();
        assert!(ended.status.success(), "{ended:?}");
        return;
    }
    let before = threads();
    on_stack(256 << 10, move || {
        for _ in 0..20 {
            asks_the_deepest(Depth::default());
            assert_eq!(threads(), before + 2);
        }
    });
    // It ends with the thread that kept it.
    for _ in 0..1_000 {
        if threads() == before {
            return;
        }
        thread::sleep(std::time::Duration::from_millis(10));
    }
    panic!("{} threads are left of {before}", threads());
}

/// A workspace and a session stand in one struct, and move.
struct Checker {
    workspace: Workspace,
    session: Session,
}

#[test]
fn a_struct_holds_a_workspace_and_its_session() {
    fn is_send<T: Send>(it: T) -> T {
        it
    }
    fn is_shared<T: Send + Sync + Clone>(it: T) -> T {
        it
    }
    let made = || -> Result<Checker, Error> {
        let workspace = is_shared(Workspace::parse(TEXT, Depth::default())?);
        let session = is_send(workspace.session("a")?);
        Ok(Checker { workspace, session })
    };
    let checker = thread::spawn(made).join().unwrap().unwrap();
    assert_eq!(checker.session.crate_name(), "a");
    assert_eq!(checker.session.workspace(), &checker.workspace);
    drop(checker.workspace);
    assert_eq!(
        checker.session.prove("u8: Show"),
        Ok(ProveAnswer::Yes(vec![]))
    );
}

#[test]
fn the_linked_archive_is_named() {
    assert_eq!(celtisdarts_sys::ARCHIVE_SHA256.len(), 64);
    assert_eq!(celtisdarts_sys::SOURCES_SHA256.len(), 64);
    assert!(celtisdarts_sys::TOOLCHAIN.contains("logic"));
    // SAFETY: it is a constant of the library.
    let linked = unsafe { celtisdarts_sys::celtisdarts_abi_version };
    assert_eq!(linked, celtisdarts_sys::ABI_VERSION);
}

#[test]
fn threads_ask_a_session_each() {
    let workspace = workspace(TEXT);
    thread::scope(|scope| {
        for number in 0..8 {
            let session = workspace
                .session(if number % 2 == 0 { "a" } else { "base" })
                .unwrap();
            scope.spawn(move || {
                for _ in 0..100 {
                    assert_eq!(session.prove("u8: Show"), Ok(ProveAnswer::Yes(vec![])));
                    assert_eq!(session.prove("bool: Show"), Ok(ProveAnswer::Unproved));
                    assert_eq!(session.check_crate(), Ok(Verdict::Accepted));
                }
            });
        }
    });
}

#[test]
fn threads_share_a_session() {
    let session = workspace(TEXT).session("a").unwrap();
    thread::scope(|scope| {
        for _ in 0..8 {
            scope.spawn(|| {
                for _ in 0..100 {
                    assert_eq!(session.prove("u8: Show"), Ok(ProveAnswer::Yes(vec![])));
                    assert_eq!(session.prove("bool: Show"), Ok(ProveAnswer::Unproved));
                }
            });
        }
    });
}

/// Text with 40 crates, each with a trait of its own that `u8` has, and nothing else.
fn many_crates() -> String {
    (0..40)
        .map(|it| format!("crate c{it}\ntrait T{it}\nimpl T{it} for u8\n"))
        .collect()
}

#[test]
fn sessions_of_many_crates_answer_in_turn() {
    let workspace = workspace(&many_crates());
    let mut sessions: Vec<_> = workspace
        .crates()
        .iter()
        .map(|name| workspace.session(name).unwrap())
        .collect();
    for _ in 0..3 {
        for (number, session) in sessions.iter().enumerate() {
            let (own, other) = (format!("u8: T{number}"), format!("bool: T{number}"));
            assert_eq!(session.prove(&own), Ok(ProveAnswer::Yes(vec![])));
            assert_eq!(session.prove(&other), Ok(ProveAnswer::Unproved));
        }
    }
    sessions.truncate(1);
    assert_eq!(sessions[0].check_crate(), Ok(Verdict::Accepted));
    drop(sessions);
    let last = workspace.session("c39").unwrap();
    assert_eq!(last.refute("u8: T39"), Ok(RefuteAnswer::Open));
}

#[test]
fn a_session_moves_to_another_thread_and_back() {
    let workspace = workspace(TEXT);
    let mut session = workspace.session("a").unwrap();
    for _ in 0..4 {
        session = thread::scope(|scope| {
            let moved = scope.spawn(move || {
                assert_eq!(session.prove("V<u8>: Show"), Ok(ProveAnswer::Yes(vec![])));
                session
            });
            moved.join().unwrap()
        });
        assert_eq!(session.prove("V<bool>: Show"), Ok(ProveAnswer::Unproved));
    }
}
