//! What is said of histories whose answers were worked out by hand.
use regcheck::{check, report, Bounds, Error, Verdict};

const INVERSION: &str = r#"{"process":1,"event":"call","op":"write","register":"x","value":1}
{"process":1,"event":"reply"}
{"process":1,"event":"call","op":"write","register":"x","value":2}
{"process":2,"event":"call","op":"read","register":"x"}
{"process":2,"event":"reply","value":2}
{"process":2,"event":"call","op":"read","register":"x"}
{"process":2,"event":"reply","value":1}
{"process":1,"event":"reply"}
"#;

const REPORT: &str = r#"{"atomic":"no","fault":{"first":[1,4],"kind":"zones","second":[4,6],"writes":[1,3]},"inversion":[4,6],"pending":0,"reads":2,"register":"x","regular":"yes","safe":"yes","writes":2}
{"atomic":"no","operations":4,"registers":1}
"#;

#[test]
fn an_inversion() {
    let checked = report(INVERSION.as_bytes()).expect("a report");
    assert!(!checked.atomic);
    assert_eq!(String::from_utf8(checked.report).expect("a text"), REPORT);
}

#[test]
fn no_bytes() {
    let checked = report(b"").expect("a report");
    assert!(checked.atomic);
    assert_eq!(
        checked.report,
        b"{\"atomic\":\"yes\",\"operations\":0,\"order\":[],\"registers\":0}\n"
    );
}

const OPEN: &str = r#"{"process":1,"event":"call","op":"read","register":"x"}"#;

#[test]
fn refusals() {
    let rows = [
        (
            format!("\n{OPEN}\n{OPEN}\n"),
            Some(3),
            Some(2),
            "line 3: the process has an open call at line 2",
        ),
        ("[]".to_owned(), Some(1), None, "line 1: not an object"),
        (
            "\n".repeat(67_108_865),
            None,
            None,
            "input is longer than 67108864 bytes",
        ),
    ];
    for (history, line, other, words) in rows {
        let history = history.as_bytes();
        let refused = [
            report(history).map(|_| ()),
            check(history, Bounds::default()).map(|_| ()),
        ];
        for error in refused.map(|answer| answer.expect_err("a refusal")) {
            assert_eq!(error.to_string(), words);
            match error {
                Error::Refused(refusal) => {
                    assert_eq!((refusal.line, refusal.other), (line, other));
                    assert_eq!(refusal.words, words);
                }
                error => panic!("{error:?}"),
            }
        }
    }
}

/// Two cas from null to 1 that overlap, and end so; and a write of 1 between them and after them.
fn two_cas(first: bool, second: bool) -> String {
    let cas = |process| {
        format!(
            r#"{{"process":{process},"event":"call","op":"cas","register":"x","from":null,"to":1}}"#
        )
    };
    let ended = |process, ok| format!(r#"{{"process":{process},"event":"reply","ok":{ok}}}"#);
    let write = r#"{"process":3,"event":"call","op":"write","register":"x","value":1}
{"process":3,"event":"reply"}"#;
    [
        cas(1),
        cas(2),
        ended(1, first),
        write.to_owned(),
        ended(2, second),
        write.to_owned(),
    ]
    .join("\n")
}

#[test]
fn cas_and_repeated_values() {
    let narrow = Bounds {
        steps: Some(1),
        ..Bounds::default()
    };
    let zero = Bounds {
        steps: Some(0),
        configurations: Some(0),
    };
    let rows = [
        (true, false, Bounds::default(), Verdict::Yes),
        (true, true, Bounds::default(), Verdict::No),
        (true, false, zero, Verdict::Yes),
        (true, false, narrow, Verdict::Unknown),
    ];
    for (first, second, bounds, verdict) in rows {
        let history = two_cas(first, second);
        let answer = check(history.as_bytes(), bounds).expect("an answer");
        assert_eq!(answer.verdict, verdict, "{history}");
        let report = String::from_utf8(answer.report).expect("a text");
        assert!(report.contains("\"cas\":2"), "{report}");
        assert!(matches!(report_of(&history), Error::Refused(_)));
    }
}

fn report_of(history: &str) -> Error {
    report(history.as_bytes()).expect_err("regcheck takes no cas")
}

// Many registers with one operation each make a report that is longer than the room that is tried first.
#[test]
fn a_long_report() {
    let line = |process| {
        format!(r#"{{"process":{process},"event":"call","op":"read","register":"{process}"}}"#)
    };
    let history = (0..1000).map(line).collect::<Vec<_>>().join("\n");
    let checked = report(history.as_bytes()).expect("a report");
    assert!(checked.atomic);
    assert!(checked.report.len() > history.len() + 1024);
    assert!(checked.report.ends_with(b"\n"));
}

// Whether some calls one after another give the report.
fn all_report() -> bool {
    (0..200).all(|_| {
        matches!(report(INVERSION.as_bytes()), Ok(checked) if checked.report == REPORT.as_bytes())
    })
}

#[test]
fn threads_at_once() {
    let threads: Vec<_> = (0..4).map(|_| std::thread::spawn(all_report)).collect();
    for thread in threads {
        assert!(thread.join().expect("no panic"));
    }
}

#[cfg(feature = "library")]
#[test]
fn a_refusal_by_the_library_has_a_number() {
    let no_ok = r#"{"process":1,"event":"call","op":"cas","register":"x","from":null,"to":1}
{"process":1,"event":"reply"}"#;
    let rows = [
        (3, "[]", "line 1: not an object"),
        (21, no_ok, "line 2: a cas's reply has no ok, true or false"),
    ];
    for (number, history, words) in rows {
        match check(history.as_bytes(), Bounds::default()) {
            Err(Error::Refused(refusal)) => {
                assert_eq!((refusal.number, &*refusal.words), (Some(number), words));
            }
            answer => panic!("{answer:?}"),
        }
    }
}
