//! Tables and states by the library, beside answers written by hand.
use composecheck::{key_text, Error, Fault, FeedResult, Move, Options, Part, Places, State, Status, Table};
use std::path::Path;

const CERTIFICATE: &[u8] = b"compose-certificate 1\nbound 1\npairs 2\n0 0\n1 1\ntypings 0\n";

fn table(text: &str) -> Result<Table, Error> {
    Table::new(&[("root", text.as_bytes())])
}

fn fault_of(refused: Result<Table, Error>) -> Fault {
    match refused {
        Err(Error::Refused(fault)) => *fault,
        other => panic!("{other:?}"),
    }
}

fn typed(state: &mut State, keysym: u32) -> (FeedResult, Status, Option<String>, Option<u32>) {
    (state.feed(keysym), state.status(), state.utf8().map(String::from), state.keysym())
}

#[test]
fn a_sequence() {
    let table = table("<Multi_key> <apostrophe> <e> : \"é\"\n<a> : \"xyz\"\n").unwrap();
    let mut state = State::new(&table);
    assert_eq!(typed(&mut state, 0xff20), (FeedResult::Accepted, Status::Composing, None, None));
    assert_eq!(typed(&mut state, 0xffe1), (FeedResult::Ignored, Status::Composing, None, None));
    assert_eq!(typed(&mut state, 0x27), (FeedResult::Accepted, Status::Composing, None, None));
    assert_eq!(state.pending(), [0xff20, 0x27]);
    let following: Vec<_> = state.following().map(|it| (it.keysym, it.status, it.text)).collect();
    assert_eq!(following, [(0x65, Status::Composed, "é".to_string())]);
    assert_eq!(typed(&mut state, 0x65), (FeedResult::Accepted, Status::Composed, Some("é".into()), Some(0xe9)));
    assert_eq!(typed(&mut state, 0xffe1), (FeedResult::Ignored, Status::Composed, Some("é".into()), Some(0xe9)));
    assert_eq!(typed(&mut state, 0x61), (FeedResult::Accepted, Status::Composed, Some("xyz".into()), None));
    assert_eq!(typed(&mut state, 0x78), (FeedResult::Accepted, Status::Nothing, None, None));
    state.feed(0xff20);
    assert_eq!(typed(&mut state, 0x78), (FeedResult::Accepted, Status::Cancelled, None, None));
}

#[test]
fn rest() {
    let mut state = State::new(&table("<a> <b> : \"x\"\n<c> : \"y\"\n").unwrap());
    state.feed(0x61);
    assert_eq!(typed(&mut state, 0x20000000), (FeedResult::Accepted, Status::Cancelled, None, None));
    assert_eq!(typed(&mut state, u32::MAX), (FeedResult::Accepted, Status::Nothing, None, None));
    state.feed(0x63);
    state.reset();
    assert_eq!((state.status(), state.utf8(), state.keysym(), state.pending()), (Status::Nothing, None, None, vec![]));
}

#[test]
fn a_move_in_the_middle_of_a_sequence() {
    let old = table("<a> <b> : \"x\"\n").unwrap();
    let (good, bad): (&[_], &[_]) = (&[("r", &b"<a> <b> : \"x\"\n<a> <c> : \"y\"\n"[..])], &[("r", &b"<a> <b> : \"z\"\n"[..])]);
    let shown = Move { certificate: CERTIFICATE, repertoire: b"" };
    let new = old.load(good, shown).unwrap();
    assert_eq!(old.check(&new, shown), Ok(()));
    let mut state = State::new(&old);
    state.feed(0x61);
    state.refeed(&new);
    state.feed(0x63);
    assert_eq!(state.utf8(), Some("y"));
    let fault = fault_of(old.load(bad, shown));
    assert_eq!((fault.part, fault.code, fault.at, fault.value), (Part::Condition, 7, 1, 0x62));
    let other = Table::new(bad).unwrap();
    assert!(matches!(old.check(&other, shown), Err(Error::Refused(it)) if it.part == Part::Condition));
}

#[test]
fn refusals() {
    let fault = fault_of(table("<a> : \"x\"\n  <nosuch> : \"y\"\n"));
    assert_eq!((fault.part, fault.code, fault.line, fault.column), (Part::Source, 4, 2, 3));
    assert_eq!(fault.to_string(), "no keysym has the name \"nosuch\"");
    assert_eq!(Table::new(&[("a\0b", b"")]).unwrap_err(), Error::ZeroByte);
    let error = Table::from_file(Path::new("/nowhere/table"), &Places::default()).unwrap_err();
    assert!(error.to_string().starts_with("/nowhere/table: "), "{error}");
}

#[test]
fn the_table_of_a_user() {
    let room = std::env::temp_dir().join(format!("composecheck-{}", std::process::id()));
    std::fs::create_dir_all(room.join("system")).unwrap();
    std::fs::write(room.join("system/compose.dir"), "Compose: en_US.UTF-8\n").unwrap();
    std::fs::write(room.join("system/Compose"), "<nosuch> : \"x\"\n<a> : \"é\"\n").unwrap();
    for name in ["XCOMPOSEFILE", "XDG_CONFIG_HOME", "HOME"] {
        std::env::remove_var(name);
    }
    let system = room.join("system");
    let mut left_out = Vec::new();
    let options = Options { system: Some(&system), ..Options::default() };
    let table = Table::from_locale_with(Some("C"), &options, |it| left_out.push((it.line, it.code))).unwrap();
    assert_eq!(left_out, [(1, 4)]);
    let mut state = State::new(&table);
    state.feed(0x61);
    assert_eq!(state.utf8(), Some("é"));
    let strict = Table::from_locale_with(Some("C"), &Options { is_strict: true, ..options }, |_| panic!("a line is left out"));
    assert!(matches!(strict, Err(Error::Refused(it)) if it.line == 1 && it.text.ends_with("no keysym has the name \"nosuch\"")));
    let none = Table::from_locale_with(Some("xx"), &options, |_| ());
    assert_eq!(none.unwrap_err().to_string(), "there is no Compose file for the locale xx");
    std::fs::write(room.join("system/Compose"), "<a> : \"é\"\n").unwrap();
    std::env::set_var("XDG_CACHE_HOME", room.join("caches"));
    for _ in 0..2 {
        let cached = Table::from_locale_with(Some("C"), &Options { is_cached: true, ..options }, |_| ()).unwrap();
        assert_eq!(cached.as_bytes(), Table::from_locale_with(Some("C"), &options, |_| ()).unwrap().as_bytes());
        assert_eq!(std::fs::read_dir(room.join("caches/composecheck")).unwrap().count(), 1);
    }
    std::fs::remove_dir_all(room).unwrap();
}

#[test]
fn bytes() {
    let table = table("<a> <b> : \"é\"\n<c> : \"xyz\" F1\n").unwrap();
    let mut moved = vec![0];
    moved.extend_from_slice(table.as_bytes());
    let copy = Table::from_bytes(&moved[1..]).unwrap();
    assert_eq!(copy.as_bytes(), table.as_bytes());
    let mut state = State::new(&copy);
    assert_eq!(typed(&mut state, 0x63), (FeedResult::Accepted, Status::Composed, Some("xyz".into()), Some(0xffbe)));
    assert_eq!(fault_of(Table::from_bytes(&moved)).part, Part::Table);
    let fault = fault_of(Table::from_bytes(&[]));
    assert_eq!((fault.part, fault.code, fault.to_string().as_str()), (Part::Table, 1, "the bytes are no table"));
}

#[test]
fn threads() {
    fn is_sent<T: Send>() {}
    fn is_shared<T: Sync>() {}
    is_sent::<State>();
    is_shared::<Table>();
    let table = table("<a> <b> : \"é\"\n").unwrap();
    let type_often = |table: Table| {
        let mut state = State::new(&table);
        (0..1000).all(|_| state.feed(0x61) == FeedResult::Accepted && state.feed(0x62) == FeedResult::Accepted && state.utf8() == Some("é"))
    };
    let threads: Vec<_> = (0..4).map(|_| table.clone()).map(|it| std::thread::spawn(move || type_often(it))).collect();
    drop(table);
    assert!(threads.into_iter().all(|it| it.join().unwrap()));
}

#[test]
fn texts_of_keys() {
    assert_eq!([0x61, 0x7e1, 0x10020ac, 0xff20, u32::MAX].map(key_text), [Some('a'), Some('α'), Some('€'), None, None]);
}
