// The specification's example, its refusals, states that nobody made, and mistyped pragmas.
use jsx_lowering::{Job, JobRefusal, Mode, Notice, PragmaForm, PragmaRoot};
use jsx_lowering::{Refusal, RootRefusal, Settings, Span, Workspace};

// <a/>, <b key/> and so on: an element at line 0, column 0, in a function
fn root(rest: &[u8]) -> Vec<u8> {
    let mut tape = vec![1, 0, 2, 3, 0x10, 0, 0, 0, 0, 0, 0, 0, 0];
    tape.extend_from_slice(rest);
    tape
}

const A: [u8; 7] = [0x20, 0, 0, 1, 0, 0x1e, 0x1f];
const CALLS: [u8; 17] =
    [0x80, 1, 0x81, 0x82, 0x9e, 0x8a, 0x8b, 0, 0, 1, 0, 0x8d, 0x9f, 0x96, 0, 0xa0, 1];

fn settings() -> Settings {
    Settings {
        jsx_plugin: true,
        throw_if_namespace: true,
        pure: true,
        module: true,
        ..Settings::default()
    }
}

fn open(text: &[u8]) -> Job<'_> {
    Job::open(text, &settings().tape()).unwrap()
}

#[test]
fn settings_as_a_tape() {
    assert_eq!(settings().tape(), [0x61, 0xe1, 0]);
    let span = Span { start: 1, len: 258 };
    let all = Settings { import_source: Some(span), comments: vec![span], ..Settings::default() };
    assert_eq!(all.tape(), [0x61, 0, 0, 0x64, 1, 0, 2, 1, 0x60, 1, 0, 2, 1]);
}

#[test]
fn the_example() {
    let mut job = open(b"a");
    let lowered = job.lower_root(&root(&A)).unwrap();
    assert_eq!((lowered.calls, lowered.notices), (&CALLS[..], &[][..]));
    assert_eq!(job.records().unwrap(), [0xb0, 1, 0xb1, 2, 0]);
}

#[test]
fn roots_in_turn_share_a_binding() {
    let mut job = open(b"akey");
    job.lower_root(&root(&A)).unwrap();
    let keyed = root(&[0x20, 0, 0, 1, 0, 0x30, 1, 0, 3, 0, 0x40, 0x1e, 0x1f]);
    assert_eq!(job.lower_root(&keyed).unwrap().notices, [0xc0, 1, 0, 3, 0]);
    assert_eq!(job.calls()[..17], CALLS);
    assert_eq!(job.notices(), [0xc0, 1, 0, 3, 0]);
    assert_eq!(job.records().unwrap(), [0xb0, 1, 0xb1, 2, 0]);
}

// several at once give what each alone gives
#[test]
fn roots_as_a_list() {
    let keyed = root(&[0x20, 0, 0, 1, 0, 0x30, 1, 0, 3, 0, 0x40, 0x1e, 0x1f]);
    let roots = [root(&A), keyed, root(&A)];
    let (mut one_by_one, mut listed) = (open(b"akey"), open(b"akey"));
    for root in &roots {
        one_by_one.lower_root(root).unwrap();
    }
    let lowered = listed.lower_roots(&roots).unwrap();
    assert_eq!((lowered.calls, lowered.notices), (one_by_one.calls(), one_by_one.notices()));
    assert_eq!(listed.state(), one_by_one.state());
    assert_eq!(listed.lower_roots(&roots[..1]).unwrap().calls, CALLS);
    assert_eq!(listed.lower_roots::<Vec<u8>>(&[]).unwrap().calls, []);
}

// a list ends at the first root that is refused; those before it stay
#[test]
fn a_refused_root_of_a_list() {
    let reference = root(&[0x20, 0, 0, 1, 0, 0x1e, 0x50, 1, 0, 3, 0, 0x1f]);
    let mut job = open(b"a&b;");
    let told = job.lower_roots(&[root(&A), root(&A), reference, root(&A)]).unwrap_err();
    assert_eq!(told, RootRefusal { index: 2, refusal: Refusal::Reference { at: 19 } });
    assert!(told.to_string().starts_with("root 2: the command at byte 19"));
    assert_eq!(job.calls(), [CALLS, CALLS].concat());
    let long = vec![1; 65_536];
    let told = job.lower_roots(&[root(&A), long, vec![]]).unwrap_err();
    assert_eq!(told, RootRefusal { index: 1, refusal: Refusal::TooLong });
    assert_eq!(job.calls(), [CALLS, CALLS, CALLS].concat());
    let told = job.lower_roots(&[vec![], root(&A)]).unwrap_err();
    assert_eq!(told, RootRefusal { index: 0, refusal: Refusal::Command { at: 0 } });
    assert_eq!(job.calls().len(), 3 * CALLS.len());
}

// eight texts of 30,000 lines that overlap: more than what there is room for at first
fn lines() -> String {
    "a\n".repeat(30_000)
}

fn overlapping() -> Vec<u8> {
    let mut tape = root(&A[..6]);
    for _ in 0..8 {
        tape.extend_from_slice(&[0x50, 0, 0, 0x60, 0xea]);
    }
    tape.push(0x1f);
    tape
}

#[test]
fn texts_that_overlap_on_a_list() {
    let text = lines();
    let roots = [root(&A), overlapping(), root(&A), overlapping()];
    let (mut one_by_one, mut listed) = (open(text.as_bytes()), open(text.as_bytes()));
    for root in &roots {
        one_by_one.lower_root(root).unwrap();
    }
    listed.lower_roots(&roots).unwrap();
    assert!(listed.calls() == one_by_one.calls() && listed.state() == one_by_one.state());
}

// a whole job gives what its parts give, also with memory that was used before
#[test]
fn a_whole_job() {
    let text = lines();
    let (text, tape) = (text.as_bytes(), settings().tape());
    let roots = [root(&A), overlapping(), root(&A)];
    let mut parts = open(text);
    for root in &roots {
        parts.lower_root(root).unwrap();
    }
    let mut workspace = Workspace::default();
    for roots in [&roots[..], &roots[..1], &[]] {
        workspace.lower(text, &tape, roots).unwrap();
    }
    let whole = workspace.lower(text, &tape, &roots).unwrap();
    assert!(whole.calls == parts.calls() && whole.notices == parts.notices());
    assert_eq!(whole.records(), parts.records().unwrap());
    let none: [Vec<u8>; 0] = [];
    let empty = workspace.lower(text, &tape, &none).unwrap();
    assert_eq!((empty.calls, empty.notices, empty.records()), (&[][..], &[][..], &[][..]));
}

#[test]
fn a_refused_job() {
    let mut workspace = Workspace::default();
    let tape = settings().tape();
    let mut told = |text: &[u8], tape: &[u8], roots: &[Vec<u8>]| {
        workspace.lower(text, tape, roots).map(|output| output.calls.len()).unwrap_err()
    };
    let opening = JobRefusal::Opening;
    let at = |index, refusal| JobRefusal::Root(RootRefusal { index, refusal });
    assert_eq!(told(b"a\xff", &tape, &[root(&A)]), opening(Refusal::NotUtf8 { at: 1 }));
    assert_eq!(told(b"a", &[0x61], &[vec![]]), opening(Refusal::Command { at: 1 }));
    assert_eq!(told(b"a", &tape, &[vec![]]), at(0, Refusal::Command { at: 0 }));
    let reference = root(&[0x20, 0, 0, 1, 0, 0x1e, 0x50, 1, 0, 3, 0, 0x1f]);
    assert_eq!(told(b"a&b;", &tape, &[root(&A), reference]), at(1, Refusal::Reference { at: 19 }));
    assert_eq!(told(b"a", &tape, &[root(&A), vec![1; 65_536]]), at(1, Refusal::TooLong));
    let words = told(b"a", &tape, &[root(&A), vec![]]).to_string();
    assert!(words.starts_with("root 1: the tape has a command"));
}

#[test]
fn texts_that_overlap() {
    let text = lines();
    let tape = overlapping();
    let mut job = open(text.as_bytes());
    let string = 2 + 30_000 * 5 + 29_999;
    assert_eq!(job.lower_root(&tape).unwrap().calls.len(), 20 + 8 * string);
    assert_eq!(job.calls()[..6], [0x80, 1, 0x81, 0x9a, 0x8a, 0x8b]);
    assert_eq!(job.into_tapes().0.len(), 20 + 8 * string);
}

// the calls of these texts take 1.4 MB
#[test]
fn a_limit() {
    let (text, roots) = (lines(), [root(&A), overlapping()]);
    let needed = 20 + 8 * (2 + 30_000 * 5 + 29_999);
    let limit = needed + CALLS.len();
    let refused = Refusal::Limit { needed, limit: limit - 1 };
    for (limit, refusal) in [(limit, None), (limit - 1, Some(refused))] {
        let mut job = open(text.as_bytes());
        job.set_limit(limit);
        job.lower_root(&roots[0]).unwrap();
        assert_eq!(job.lower_root(&roots[1]).err(), refusal);
        let mut listed = open(text.as_bytes());
        listed.set_limit(limit);
        let told = listed.lower_roots(&roots).err();
        assert_eq!(told, refusal.map(|refusal| RootRefusal { index: 1, refusal }));
        assert!(job.calls() == listed.calls() && job.calls()[..17] == CALLS);
        let mut workspace = Workspace::with_limit(limit);
        let told = workspace.lower(text.as_bytes(), &settings().tape(), &roots).err();
        let whole = |refusal| match refusal {
            Refusal::Limit { needed, limit } => {
                Refusal::Limit { needed: needed + CALLS.len(), limit }
            }
            other => other,
        };
        let at = |refusal| JobRefusal::Root(RootRefusal { index: 1, refusal: whole(refusal) });
        assert_eq!(told, refusal.map(at));
    }
    assert_eq!(refused.number(), 10);
    assert!(refused.to_string().contains("beyond the limit of"));
    // memory of an earlier job is no room beyond the limit
    let mut job = Job::open_in(b"a", &settings().tape(), (vec![0; 100], vec![])).unwrap();
    job.set_limit(16);
    assert_eq!(job.lower_root(&root(&A)).unwrap_err(), Refusal::Limit { needed: 17, limit: 16 });
}

// what an earlier job wrote is not shown
#[test]
fn shown_for_debugging() {
    let job = Job::open_in(b"a", &settings().tape(), (vec![0xab; 100], vec![0xab; 100])).unwrap();
    assert!(!format!("{job:?}").contains("171"));
    let mut workspace = Workspace::default();
    workspace.lower(b"a", &settings().tape(), &[root(&A)]).unwrap();
    assert_eq!(format!("{workspace:?}"), "Workspace { limit: 67108864, .. }");
}

// the deepest tape that is taken, each level but the first an attribute's value, on a thread with the stack that the header asks for
#[test]
fn stack() {
    let level = [0x10, 0, 0, 0, 0, 0, 0, 0, 0, 0x20, 0, 0, 1, 0];
    let mut tape = vec![1, 0, 2, 3];
    for depth in 1..=64 {
        tape.extend_from_slice(&level);
        if depth < 64 {
            tape.extend_from_slice(&[0x30, 0, 0, 1, 0]);
        }
    }
    tape.extend_from_slice(&[0x1e, 0x1f].repeat(64));
    let lowered = std::thread::Builder::new().stack_size(256 << 10).spawn(move || {
        let settings = Settings { development: true, ..settings() };
        let mut job = Job::open(b"a", &settings.tape()).unwrap();
        job.lower_root(&tape).unwrap().calls.len()
    });
    assert_eq!(lowered.unwrap().join().unwrap(), 64 * 30 + 63 * 5);
}

#[test]
fn memory_used_again() {
    let mut first = open(b"a");
    first.lower_root(&root(&A)).unwrap();
    let mut second = Job::open_in(b"a", &settings().tape(), first.into_buffers()).unwrap();
    assert_eq!((second.calls(), second.notices()), (&[][..], &[][..]));
    assert_eq!(second.lower_root(&root(&A)).unwrap().calls, CALLS);
    assert_eq!(second.into_tapes(), (CALLS.to_vec(), vec![]));
}

#[test]
fn a_refused_opening() {
    let told = |text: &[u8], tape: &[u8]| Job::open(text, tape).unwrap_err();
    assert_eq!(told(&[b'a'; 65536], &[0x61, 0, 0]), Refusal::TooLong);
    assert_eq!(told(b"a\xff", &[0x61, 0, 0]), Refusal::NotUtf8 { at: 1 });
    assert_eq!(told(b"a", &[0x61, 0, 1]), Refusal::Command { at: 0 });
    assert_eq!(told(b"a", &[]), Refusal::Command { at: 0 });
    assert_eq!(told(b"a", &[0x61, 8, 0, 0x62, 0, 0, 2, 0]), Refusal::SpanOutside { at: 3 });
    assert_eq!(told("ä".as_bytes(), &[0x61, 8, 0, 0x62, 0, 0, 1, 0]), Refusal::SpanCuts { at: 3 });
    assert_eq!(
        told("ä".as_bytes(), &[0x61, 8, 0, 0x62, 0, 0, 2, 0]),
        Refusal::PragmaByte { at: 0 }
    );
}

#[test]
fn a_refused_root_leaves_the_job() {
    let mut job = open(b"a&b;");
    job.lower_root(&root(&A)).unwrap();
    let before = job.clone();
    let reference = root(&[0x20, 0, 0, 1, 0, 0x1e, 0x50, 1, 0, 3, 0, 0x1f]);
    assert_eq!(job.lower_root(&reference).unwrap_err(), Refusal::Reference { at: 19 });
    assert_eq!(job.lower_root(&[]).unwrap_err(), Refusal::Command { at: 0 });
    assert_eq!(
        (job.state(), job.calls(), job.notices()),
        (before.state(), before.calls(), before.notices())
    );
}

// Of a command's faults the number decides, not which of its spans has it.
#[test]
fn which_span_was_bad() {
    let job = open("ä".as_bytes());
    let (outside, cuts, empty) = ([0, 0, 3, 0], [1, 0, 1, 0], [0, 0, 0, 0]);
    let told = |first: &[u8], second: &[u8]| {
        let name = [&[0x23], first, second, &[0x1e, 0x1f]].concat();
        job.clone().lower_root(&root(&name)).unwrap_err()
    };
    for (refusal, number, first, others) in [
        (Refusal::SpanOutside { at: 13 }, 4, outside, vec![outside, cuts, empty]),
        (Refusal::SpanCuts { at: 13 }, 13, cuts, vec![cuts, empty]),
        (Refusal::EmptyName { at: 13 }, 14, empty, vec![empty]),
    ] {
        assert_eq!(refusal.number(), number);
        for second in others {
            assert_eq!(told(&first, &second), refusal);
            assert_eq!(told(&second, &first), refusal);
        }
    }
}

#[test]
fn a_job_taken_up_again() {
    let mut job = open(b"a");
    job.lower_root(&root(&A)).unwrap();
    let mut again =
        Job::resume(b"a", job.state(), job.calls().to_vec(), job.notices().to_vec()).unwrap();
    assert_eq!(again.lower_root(&root(&A)).unwrap(), job.lower_root(&root(&A)).unwrap());
    assert_eq!(again.state(), job.state());
}

#[test]
fn forged_states() {
    let mut job = open(b"a");
    job.lower_root(&root(&A)).unwrap();
    let resume =
        |state: &[u8]| Job::resume(b"a", state, job.calls().to_vec(), job.notices().to_vec());
    // too short, a mode that there is none of, an absent pragma with a span, another fill
    for (place, byte) in [(27, 3), (2, 1), (86, 16)] {
        let mut state = *job.state();
        state[place] = byte;
        assert_eq!(resume(&state).unwrap_err(), Refusal::Forged, "byte {place}");
    }
    assert_eq!(resume(&job.state()[1..]).unwrap_err(), Refusal::Forged);
    // nine records, a binding out of turn: these are states, and no text bears them out
    for (place, byte) in [(78, 9), (49, 1)] {
        let mut state = *job.state();
        state[place] = byte;
        let mut forged = resume(&state).unwrap();
        assert_eq!(forged.lower_root(&root(&A)).unwrap_err(), Refusal::Forged, "byte {place}");
        let told = forged.lower_roots(&[root(&A)]).unwrap_err();
        assert_eq!(told, RootRefusal { index: 0, refusal: Refusal::Forged }, "byte {place}");
        assert_eq!(forged.records().unwrap_err(), Refusal::Forged, "byte {place}");
        assert_eq!(*forged.state(), state);
    }
}

#[test]
fn refusals_in_words() {
    let told = Job::open(b"a\xff", &[0x61, 0, 0]).unwrap_err();
    assert_eq!(told.number(), 2);
    assert_eq!(told.to_string(), "the text is not UTF-8: an ill-formed sequence begins at byte 1");
    let words = |tape: &[u8]| Job::open("ä".as_bytes(), tape).unwrap_err().to_string();
    assert_eq!(
        words(&[0x61, 0, 0, 0x60, 0, 0, 3, 0]),
        "the command at byte 3 of the tape has a span that ends beyond the text"
    );
    assert_eq!(
        words(&[0x61, 0, 0, 0x60, 1, 0, 1, 0]),
        "the command at byte 3 of the tape has a span that begins or ends within a character of the text"
    );
    let told = open(b"a").lower_root(&root(&[0x20, 0, 0, 0, 0, 0x1e, 0x1f])).unwrap_err();
    assert_eq!(told.to_string(), "the command at byte 13 of the tape has an empty name");
}

// ---- settings after comments

fn span(start: u16, len: u16) -> Option<Span> {
    Some(Span { start, len })
}

#[test]
fn settings_after_comments() {
    let text = b"@jsxRuntime classic @jsx h.x @jsxImportSource preact";
    let comment = Span { start: 0, len: text.len() as u16 };
    let settings =
        Settings { jsx_plugin: true, module: true, comments: vec![comment], ..Settings::default() };
    let resolved = Job::open(text, &settings.tape()).unwrap().settings().unwrap();
    let options = Settings {
        classic: true,
        pragma: span(25, 3),
        import_source: span(46, 6),
        comments: Vec::new(),
        ..settings
    };
    assert_eq!(resolved.options, options);
    assert_eq!((resolved.mode, resolved.pure), (Mode::Classic, false));
    assert_eq!((resolved.ts_pragma, resolved.ts_pragma_frag), (span(25, 3), None));
    assert_eq!(resolved.pragma, PragmaForm { root: PragmaRoot::Identifier, members: 1 });
    assert_eq!(resolved.pragma_frag, PragmaForm { root: PragmaRoot::Default, members: 0 });
    assert_eq!(resolved.import_source(), "preact");
    assert_eq!(resolved.runtime_source(), "preact/jsx-runtime");
}

#[test]
fn sources_of_a_development_job() {
    let settings = Settings { module: true, development: true, ..Settings::default() };
    let resolved = Job::open(b"", &settings.tape()).unwrap().settings().unwrap();
    assert_eq!(resolved.mode, Mode::Module);
    assert_eq!(resolved.import_source(), "react");
    assert_eq!(resolved.runtime_source(), "react/jsx-dev-runtime");
}

// longer than the room that is offered first
#[test]
fn a_long_source() {
    let text = "é".repeat(32_000);
    let whole = span(0, text.len() as u16);
    let settings = Settings { module: true, import_source: whole, ..Settings::default() };
    let resolved = Job::open(text.as_bytes(), &settings.tape()).unwrap().settings().unwrap();
    assert_eq!(resolved.import_source(), text);
    assert_eq!(resolved.runtime_source(), text + "/jsx-runtime");
}

#[test]
fn settings_of_another_text() {
    let settings = Settings { module: true, import_source: span(0, 6), ..Settings::default() };
    let state = *Job::open(b"preact", &settings.tape()).unwrap().state();
    let job = Job::resume(b"short", &state, Vec::new(), Vec::new()).unwrap();
    assert_eq!(job.settings().unwrap_err(), Refusal::Forged);
}

// ---- lists without roots

const NONE: [&[u8]; 0] = [];

// a list judges its text and its state, also where it has no root
#[test]
fn no_roots() {
    let mut job = open(b"a");
    assert!(job.lower_roots(&NONE).is_ok());
    let mut forged = *job.state();
    // more records than there are places
    forged[78] = 9;
    let refused = |refusal| Err(RootRefusal { index: 0, refusal });
    let lowered = |text, state: &[u8]| {
        let mut job = Job::resume(text, state, Vec::new(), Vec::new()).unwrap();
        job.lower_roots(&NONE).map(|_| ())
    };
    assert_eq!(lowered(b"a", &forged), refused(Refusal::Forged));
    assert_eq!(lowered(b"a\xc3", job.state()), refused(Refusal::NotUtf8 { at: 1 }));
}

// no opening gives a classic job a pragma with a byte over 7F
#[test]
fn a_pragma_over_ascii() {
    let settings = Settings { classic: true, ..Settings::default() };
    let mut state = *Job::open("é".as_bytes(), &settings.tape()).unwrap().state();
    state[1..6].copy_from_slice(&[1, 0, 0, 2, 0]);
    let mut job = Job::resume("é".as_bytes(), &state, Vec::new(), Vec::new()).unwrap();
    assert_eq!(job.lower_roots(&NONE).unwrap_err().refusal, Refusal::Forged);
    assert_eq!(job.records().unwrap_err(), Refusal::Forged);
}

// ---- mistyped pragmas

const MISTYPED: &[u8] = b"h..xkey1x";
// what is told of its h..x, of its 1x, and of a key without a value
const TOLD: [u8; 5] = [0xc2, 2, 0, 0, 0];
const TOLD_FRAG: [u8; 5] = [0xc2, 7, 0, 2, 0];
const KEY: [u8; 5] = [0xc0, 4, 0, 3, 0];

// the pragma h..x, and the fragment pragma 1x
fn classic() -> Settings {
    Settings { classic: true, pragma: span(0, 4), pragma_frag: span(7, 2), ..Settings::default() }
}

// <this key/>
fn keyed() -> Vec<u8> {
    root(&[0x22, 0x30, 4, 0, 3, 0, 0x40, 0x1e, 0x1f])
}

#[test]
fn an_opening_that_tells() {
    let tape = Settings { pragma_frag: None, ..classic() }.tape();
    let mut job = Job::open(MISTYPED, &tape).unwrap();
    assert_eq!((job.calls(), job.notices()), (&[][..], &TOLD[..]));
    assert_eq!(job.settings().unwrap().pragma.root, PragmaRoot::Default);
    // the opening's notices come first, and are none of a root's
    assert_eq!(job.lower_root(&keyed()).unwrap().notices, KEY);
    assert_eq!(job.lower_roots(&[keyed(), keyed()]).unwrap().notices, [KEY, KEY].concat());
    assert_eq!(job.notices(), [TOLD, KEY, KEY, KEY].concat());
    let (calls, notices) = job.clone().into_tapes();
    let mut again = Job::resume(MISTYPED, job.state(), calls, notices).unwrap();
    assert_eq!(again.lower_root(&keyed()).unwrap(), job.lower_root(&keyed()).unwrap());
    let opened = Job::open(MISTYPED, &tape).unwrap();
    let told = Job::resume(MISTYPED, opened.state(), Vec::new(), Vec::new()).unwrap_err();
    assert_eq!(told, Refusal::Forged);
}

// the pragma before the fragment pragma, over memory of any size, also one that they just fill
#[test]
fn openings_over_memory_used_before() {
    for size in [0, 4, 5, 9, 10, 11, 100] {
        let memory = (Vec::new(), vec![0xab; size]);
        let mut job = Job::open_in(MISTYPED, &classic().tape(), memory).unwrap();
        assert_eq!(job.notices(), [TOLD, TOLD_FRAG].concat());
        assert!(!format!("{job:?}").contains("171"));
        job.lower_root(&keyed()).unwrap();
        assert_eq!(job.into_tapes().1, [TOLD, TOLD_FRAG, KEY].concat());
    }
}

// no pragma is in force in an automatic job, and none that a comment overrides
#[test]
fn openings_that_tell_nothing() {
    let told = |text: &[u8], settings: Settings| {
        Job::open(text, &settings.tape()).unwrap().notices().to_vec()
    };
    assert_eq!(told(MISTYPED, Settings { classic: false, ..classic() }), []);
    assert_eq!(told(MISTYPED, Settings { pragma: None, pragma_frag: None, ..classic() }), []);
    assert_eq!(
        told(b"h.class", Settings { pragma: span(0, 7), pragma_frag: None, ..classic() }),
        []
    );
    let comment = Span { start: 4, len: 8 };
    let settings =
        Settings { jsx_plugin: true, pragma_frag: None, comments: vec![comment], ..classic() };
    assert_eq!(told(b"h..x@jsx h.h", settings.clone()), []);
    assert_eq!(told(b"h..x@jsx h.-", settings), [0xc2, 11, 0, 1, 0]);
}

// a limit holds for the opening's notices too, but for one that is set behind it
#[test]
fn limits_of_what_an_opening_tells() {
    let (tape, both) = (classic().tape(), [TOLD, TOLD_FRAG].concat());
    for (limit, refusal) in [(10, None), (9, Some(9)), (5, Some(5)), (0, Some(0))] {
        let refusal = refusal.map(|limit| Refusal::Limit { needed: 10, limit });
        let mut workspace = Workspace::with_limit(limit);
        let told = workspace.lower(MISTYPED, &tape, &NONE).map(|output| output.notices.to_vec());
        assert_eq!(
            told,
            refusal.map_or(Ok(both.clone()), |refusal| Err(JobRefusal::Opening(refusal)))
        );
    }
    let told = Workspace::with_limit(3).lower(MISTYPED, &tape, &NONE).unwrap_err();
    assert_eq!(
        told.to_string(),
        "opening: 10 bytes more would go beyond the limit of 3 bytes that is set for this job's calls or notices"
    );
    let mut job = Job::open(MISTYPED, &tape).unwrap();
    job.set_limit(10);
    assert_eq!(job.lower_root(&root(&[0x22, 0x1e, 0x1f])).unwrap().calls.len(), 10);
    assert_eq!(job.notices(), both);
}

// a whole job gives what its parts give, also with memory that was used before, and within a limit that its calls just reach
#[test]
fn a_whole_job_with_a_mistyped_pragma() {
    let (tape, roots) = (classic().tape(), [keyed(), keyed()]);
    let mut parts = Job::open(MISTYPED, &tape).unwrap();
    parts.lower_roots(&roots).unwrap();
    let mut workspace = Workspace::default();
    for roots in [&roots[..], &roots[..1], &[]] {
        workspace.lower(MISTYPED, &tape, roots).unwrap();
    }
    let whole = workspace.lower(MISTYPED, &tape, &roots).unwrap();
    assert_eq!((whole.calls, whole.notices), (parts.calls(), parts.notices()));
    assert_eq!(whole.notices, [TOLD, TOLD_FRAG, KEY, KEY].concat());
    let limit = parts.calls().len();
    let limited = Workspace::with_limit(limit)
        .lower(MISTYPED, &tape, &roots)
        .map(|output| output.notices.len());
    assert_eq!(limited, Ok(parts.notices().len()));
}

#[test]
fn notices_in_words() {
    assert_eq!(
        Notice::read_all(&[&TOLD[..], &KEY, &[0xc1, 0, 0, 1, 0, 4, 0, 3, 0]].concat()),
        [
            Notice::InvalidPragma(Span { start: 2, len: 0 }),
            Notice::ValuelessKey(Span { start: 4, len: 3 }),
            Notice::NamespacedTag(Span { start: 0, len: 1 }, Span { start: 4, len: 3 }),
        ]
    );
    // what is no notice, or not whole, ends a tape
    assert_eq!(Notice::read_all(&[&KEY[..], &TOLD[..4]].concat()).len(), 1);
    assert_eq!(Notice::read_all(&[0x80, 0, 0, 0, 0]), []);
    let words = |pragma: &str| {
        let text = format!("/* {pragma}");
        let settings =
            Settings { classic: true, pragma: span(3, pragma.len() as u16), ..Settings::default() };
        let job = Job::open(text.as_bytes(), &settings.tape()).unwrap();
        let words = Notice::read_all(job.notices())[0].words(text.as_bytes());
        let (why, what) = words.split_once("; ").unwrap();
        assert_eq!(what, "React's own is used in its place: React.createElement, or React.Fragment if it is the pragma of fragments");
        why.to_string()
    };
    let missing = "a pragma lacks a name at byte 5 of the text: it has a dot too many, or is empty";
    assert_eq!(words("h..x"), missing);
    assert_eq!(words(""), missing.replace('5', "3"));
    assert_eq!(words("h.1x.2y"), "the part `1x` of a pragma at byte 5 of the text is not a name");
    assert_eq!(
        words("import.x"),
        "a pragma begins with `import` at byte 3 of the text, which must be followed by `.meta`"
    );
    assert_eq!(
        words("class.h"),
        "a pragma begins with `class` at byte 3 of the text, which is a reserved word"
    );
    let [key, tag] = [
        Notice::ValuelessKey(Span { start: 4, len: 3 }),
        Notice::NamespacedTag(Span { start: 0, len: 1 }, Span { start: 4, len: 3 }),
    ];
    assert_eq!(
        key.words(MISTYPED),
        "the attribute `key` at byte 4 of the text has no value and counts as true; give it one, as in key={id}"
    );
    assert_eq!(
        tag.words(MISTYPED),
        "the tag `h:key` at byte 0 of the text has a namespace, which React doesn't know"
    );
}
