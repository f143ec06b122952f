//! The replacements by which the second build is made, and what stops that build.

#[path = "../replacements.rs"]
mod replacements;

use replacements::{REPLACEMENTS, Replacement, astray, replaced};

const ORIGINAL: &str = "upstream/crates/embedded-audio/src";

fn original(file: &str) -> String {
    std::fs::read_to_string(format!("{ORIGINAL}/{file}")).unwrap()
}

const ONE: Replacement = Replacement {
    name: "one",
    file: "a.rs",
    old: "one",
    new: "two",
};

#[test]
fn each_fits_its_file_and_changes_it() {
    for Replacement { file, .. } in REPLACEMENTS {
        let text = original(file);
        let changed = replaced(file, &text, REPLACEMENTS).unwrap();
        assert_ne!(text, changed, "{file}");
        assert_eq!(replaced(file, &text, &[]).unwrap(), text);
        assert!(replaced(file, &text.repeat(2), REPLACEMENTS).is_err());
    }
}

/// T-03 changes one function. It is called for the gains alone: envelope, voice and the two of pan; the master in a fade, in mono and on two sides.
#[test]
fn what_calls_the_gain() {
    let calls = |file| original(file).matches("apply_gain_q8(").count();
    assert_eq!(["voice.rs", "engine.rs"].map(calls), [4, 4]);
    let others = [
        "envelope.rs",
        "source.rs",
        "output.rs",
        "config.rs",
        "synth/tone.rs",
    ];
    assert_eq!(others.map(calls), [0; 5]);
    let sources = [
        "synth/fm.rs",
        "synth/polyblep.rs",
        "synth/wavetable.rs",
        "pluck.rs",
    ];
    assert_eq!(sources.map(calls), [0; 4]);
    // Its own line.
    assert_eq!(calls("fixed.rs"), 1);
}

/// T-06 changes the one lookup. An entry start calls it, and nothing else gives its error but reading a header, which the port does not carry over.
#[test]
fn what_calls_the_lookup() {
    let calls = |file| original(file).matches(".payload(").count();
    assert_eq!(["bank.rs", "engine.rs"].map(calls), [1, 1]);
    let truncated = |file| original(file).matches("AudioError::TruncatedBank").count();
    assert_eq!(["bank.rs", "engine.rs"].map(truncated), [3, 0]);
    let changed = replaced("bank.rs", &original("bank.rs"), REPLACEMENTS).unwrap();
    assert_eq!(changed.matches("AudioError::TruncatedBank").count(), 2);
}

/// T-07 counts every start of a voice but the wavetable's, which the port does not carry over: each triggers an envelope. A fade ends in one place.
#[test]
fn what_starts_a_voice() {
    let text = original("engine.rs");
    let changed = replaced("engine.rs", &text, REPLACEMENTS).unwrap();
    assert_eq!(text.matches("trigger_adsr(").count(), 4);
    assert_eq!(changed.matches("ages.start(").count(), 3);
    assert_eq!(text.matches("self.crossfade_active = false").count(), 2);
    assert_eq!(changed.matches("ages.end_fade()").count(), 1);
}

#[test]
fn a_text_that_is_not_there_once_is_an_error() {
    assert_eq!(replaced("a.rs", "a one b", &[ONE]).unwrap(), "a two b");
    assert_eq!(replaced("b.rs", "one one", &[ONE]).unwrap(), "one one");
    let error = |text| replaced("a.rs", text, &[ONE]).unwrap_err();
    assert_eq!(
        error("a b"),
        "one: a.rs, unchanged, has its old text 0 times"
    );
    assert!(error("one and one").ends_with("2 times"));
}

/// One must not find what another put there, nor what another took away.
#[test]
fn replacements_do_not_meet() {
    let two = Replacement {
        old: "two",
        new: "one",
        ..ONE
    };
    let error = |text, all: &[Replacement]| replaced("a.rs", text, all).unwrap_err();
    assert!(error("one", &[ONE, two]).contains("unchanged"));
    let within = |old| Replacement {
        old,
        new: "",
        ..ONE
    };
    assert!(error("a one b", &[within("a one"), within("one b")]).contains("so far"));
}

#[test]
fn a_file_that_is_not_there_is_told() {
    let files = ["a.rs".to_string()];
    let lost = Replacement {
        name: "lost",
        file: "b.rs",
        ..ONE
    };
    assert_eq!(astray(&files, &[ONE, lost]), ["lost"]);
}

/// The build script itself, on an original of the files that are changed, one of them spoilt.
#[test]
fn the_build_stops() {
    let folder = std::path::PathBuf::from(env!("CARGO_TARGET_TMPDIR")).join("replacements");
    let (upstream, out) = (folder.join(ORIGINAL), folder.join("out"));
    let present = folder.join("present");
    for made in [&upstream, &out, &present] {
        std::fs::create_dir_all(made).unwrap();
    }
    let program = folder.join("build");
    let built = std::process::Command::new("rustc")
        .args(["--edition", "2024", "build.rs", "-o"])
        .arg(&program)
        .status();
    assert!(built.unwrap().success());
    for Replacement { file, .. } in REPLACEMENTS {
        std::fs::write(upstream.join(file), original(file)).unwrap();
    }
    let build = |package: &str, from: &std::path::Path, text: &str| {
        std::fs::write(upstream.join("fixed.rs"), text).unwrap();
        let output = std::process::Command::new(&program)
            .current_dir(from)
            .env("CARGO_PKG_NAME", package)
            .env("OUT_DIR", &out)
            .output()
            .unwrap();
        let told = String::from_utf8(output.stderr).unwrap();
        (output.status.success(), told)
    };
    let text = original("fixed.rs");
    for (copies, stopped) in [("", "0 times"), (&text.repeat(2)[..], "2 times")] {
        let (done, told) = build("present", &present, copies);
        assert!(!done && told.contains(stopped), "{told}");
        assert!(told.contains(REPLACEMENTS[0].name), "{told}");
        assert!(build("oracle", &folder, copies).0);
    }
    // The original is handed on as it is, the other with the change.
    let written = || std::fs::read_to_string(out.join("fixed.rs")).unwrap();
    assert!(build("oracle", &folder, &text).0);
    assert_eq!(written(), text);
    assert!(build("present", &present, &text).0);
    assert_eq!(
        written(),
        replaced("fixed.rs", &text, REPLACEMENTS).unwrap()
    );
}
