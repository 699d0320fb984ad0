//! A panic names the line of the call that caused it.
use std::cell::RefCell;
use std::panic::{catch_unwind, set_hook, take_hook, AssertUnwindSafe};
use topichub::{broadcast, watch};

thread_local! {
    static FILE: RefCell<String> = const { RefCell::new(String::new()) };
}

/// The file named in the panic of a call.
fn file_of<A>(call: impl FnOnce() -> A) -> String {
    assert!(catch_unwind(AssertUnwindSafe(call)).is_err());
    FILE.with(RefCell::take)
}

#[test]
fn a_panic_names_the_caller() {
    let before = take_hook();
    set_hook(Box::new(|panic| {
        let file = panic.location().map(|it| it.file().to_string());
        FILE.with(|last| *last.borrow_mut() = file.unwrap_or_default());
    }));
    let (tx, rx) = broadcast::channel::<u8>(1);
    let all: Vec<_> = (1..65_535).map(|_| tx.subscribe()).collect();
    let mut files = vec![
        file_of(|| broadcast::channel::<u8>(0)),
        file_of(|| broadcast::Sender::<u8>::new(65_537)),
        file_of(|| tx.subscribe()),
        file_of(|| tx.subscribe_oldest()),
        file_of(|| rx.resubscribe()),
    ];
    drop(all);
    let all: Vec<_> = (1..65_535).map(|_| tx.clone()).collect();
    files.push(file_of(|| tx.clone()));
    files.push(file_of(|| tx.downgrade().upgrade()));
    drop(all);
    let (tx, rx) = watch::channel(1);
    let all: Vec<_> = (1..65_535).map(|_| rx.clone()).collect();
    files.push(file_of(|| tx.subscribe()));
    files.push(file_of(|| rx.clone()));
    drop(all);
    // The limit reserves room for two drops, which leaves one entry.
    let (tx, rx, _recording) = broadcast::Builder::new(1)
        .recorded(3)
        .build::<u8>()
        .unwrap();
    files.push(file_of(|| tx.subscribe()));
    drop((tx, rx));
    set_hook(before);
    assert!(
        files.iter().all(|file| file.ends_with("panics.rs")),
        "{files:?}"
    );
}
