//! Recordings have each call, and are legal.
use topichub::{broadcast, check, watch, Verdict};

#[test]
fn a_broadcast_channel_records_each_call_with_its_reply() {
    let (tx, mut rx, recording) = broadcast::Builder::new(2).recorded(100).build().unwrap();
    for value in ["red", "green", "blue"] {
        tx.send(value).unwrap();
    }
    assert!(rx.try_recv().is_err());
    assert_eq!(rx.blocking_recv(), Ok("green"));
    let told = recording.trace();
    assert_eq!(
        told,
        "TRACE 1 B 2\nAT 0 0 NEXT 2\nTX 1\nBEGIN\nC subscribe 1\nR new-rx 2\nC send 1 0\nR sent 1\nC send 1 1\nR sent 1\n\
         C send 1 2\nR sent 1\nC try-recv 2\nR lagged 1\nC recv 2\nR value 1\nEND 6\n"
    );
    assert_eq!(check(told.as_bytes()), Verdict::Legal(6));
    drop((tx, rx));
    let rest = recording.trace();
    assert_eq!(
        rest,
        "TRACE 1 B 2\nAT 2 3 NEXT 3\nKEEP 2\nTX 1\nRX 2 2\nBEGIN\nC drop-tx 1\nR done\nC drop-rx 2\nR done\nEND 2\n"
    );
    assert_eq!(check(rest.as_bytes()), Verdict::Legal(2));
}

#[test]
fn a_watch_channel_records_each_call_with_its_reply() {
    let (tx, mut rx, recording) = watch::Builder::new("red").recorded(100).build().unwrap();
    tx.send("green").unwrap();
    assert!(rx.has_changed().unwrap());
    assert_eq!(*rx.borrow_and_update(), "green");
    tx.send_if_modified(|value| {
        *value = "olive";
        false
    });
    assert_eq!(*rx.borrow(), "olive");
    let told = recording.trace();
    assert_eq!(
        told,
        "TRACE 1 W\nAT 1 NEXT 2\nKEEP 0\nTX 1\nBEGIN\nC subscribe 1\nR new-rx 2\nC send 1 1\nR done\nC has-changed 2\n\
         R changed yes\nC take 2\nR shown new 1\nC quiet 1 2\nR modified no\nC borrow 2\nR shown same 2\nEND 6\n"
    );
    assert_eq!(check(told.as_bytes()), Verdict::Legal(6));
}

#[test]
fn an_unfinished_wait_is_not_recorded() {
    let (_tx, mut rx, recording) = broadcast::Builder::new(2)
        .recorded(100)
        .build::<u8>()
        .unwrap();
    recording.trace();
    drop(rx.recv());
    assert!(recording.trace().ends_with("BEGIN\nEND 0\n"));
}

#[test]
fn a_full_history_continues_in_the_next_trace() {
    let (tx, mut rx, recording) = broadcast::Builder::new(2).recorded(10).build().unwrap();
    for value in 0..50 {
        tx.send(value).unwrap();
        assert_eq!(rx.try_recv(), Ok(value));
    }
    drop((tx, rx));
    let mut entries = 0;
    loop {
        match check(recording.trace().as_bytes()) {
            Verdict::Legal(0) => break,
            Verdict::Legal(count) => {
                assert!(count <= 10);
                entries += count;
            }
            other => panic!("{other:?}"),
        }
    }
    assert_eq!(entries, 1 + 100 + 2);
}

#[test]
fn discarded_entries_are_in_no_trace() {
    let (tx, mut rx, recording) = broadcast::Builder::new(2).recorded(5).build().unwrap();
    for value in 0..10 {
        tx.send(value).unwrap();
        assert_eq!(rx.try_recv(), Ok(value));
    }
    recording.clone().discard();
    tx.send(10).unwrap();
    let told = recording.trace();
    assert!(told.starts_with("TRACE 1 B 2\nAT 10 10 NEXT 3\n"), "{told}");
    assert_eq!(check(told.as_bytes()), Verdict::Legal(1));
}

#[test]
fn a_check_reports_the_wrong_line() {
    let (tx, _rx, recording) = broadcast::Builder::new(1).recorded(100).build().unwrap();
    tx.send(0).unwrap();
    let told = recording.trace();
    assert_eq!(check(told.as_bytes()), Verdict::Legal(2));
    assert_eq!(
        check(told.replace("sent 1", "sent 2").as_bytes()),
        Verdict::Illegal(8)
    );
    assert_eq!(
        check(told.replace("sent 1", "send 1").as_bytes()),
        Verdict::Bad(8)
    );
    assert_eq!(check(b""), Verdict::Bad(1));
}
