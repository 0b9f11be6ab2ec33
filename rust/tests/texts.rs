//! The texts of errors and handles, and what errors tell of themselves.

use std::any::type_name;
use std::error::Error;

use vamorilesh::{bounded, unbounded, RecvError, SendError, TryRecvError, TrySendError};

/// A message without any text.
#[derive(Clone, Copy, PartialEq)]
struct Silent;

fn texts(error: impl Error) -> (String, String) {
    (error.to_string(), format!("{error:?}"))
}

fn both(display: &str, debug: &str) -> (String, String) {
    (display.to_owned(), debug.to_owned())
}

#[test]
fn errors() {
    let closed = "sending into a closed channel";
    let ended = "receiving from an empty and closed channel";
    assert_eq!(texts(SendError(Silent)), both(closed, "SendError(..)"));
    assert_eq!(texts(TrySendError::Closed(Silent)), both(closed, "Closed(..)"));
    assert_eq!(texts(TrySendError::Full(Silent)), both("sending into a full channel", "Full(..)"));
    assert_eq!(texts(RecvError), both(ended, "RecvError"));
    assert_eq!(texts(TryRecvError::Closed), both(ended, "Closed"));
    assert_eq!(texts(TryRecvError::Empty), both("receiving from an empty channel", "Empty"));
}

#[test]
fn texts_are_the_same_whatever_the_format_asks_for() {
    assert_eq!(format!("{:#?}", SendError(1)), "SendError(..)");
    assert_eq!(format!("{:>20?}", TrySendError::Full(1)), "Full(..)");
    let (s, r) = bounded::<Silent>(1);
    let (ws, wr) = (s.downgrade(), r.downgrade());
    let handles = "Sender { .. } Receiver { .. } WeakSender { .. } WeakReceiver { .. }";
    assert_eq!(format!("{s:#?} {r:#?} {ws:#?} {wr:#?}"), handles);
    assert_eq!(format!("{s:>30?} {r:>30?} {ws:>30?} {wr:>30?}"), handles);
    let operations = (s.send(Silent), r.recv(), s.closed());
    let (send, recv, closed) = &operations;
    let names = "Send { .. } Recv { .. } Closed { .. }";
    assert_eq!(format!("{send:?} {recv:?} {closed:?}"), names);
    assert_eq!(format!("{send:#?} {recv:#?} {closed:#?}"), names);
    assert_eq!(format!("{send:>30?} {recv:>30?} {closed:>30?}"), names);
}

#[test]
fn handles() {
    let (s, r) = bounded::<Silent>(1);
    assert_eq!(format!("{s:?}"), "Sender { .. }");
    assert_eq!(format!("{r:?}"), "Receiver { .. }");
    assert_eq!(format!("{:?}", s.downgrade()), "WeakSender { .. }");
    assert_eq!(format!("{:?}", r.downgrade()), "WeakReceiver { .. }");
}

#[test]
fn cases_of_errors() {
    let (full, closed) = (TrySendError::Full(1), TrySendError::Closed(2));
    assert_eq!((full.is_full(), full.is_closed()), (true, false));
    assert_eq!((closed.is_full(), closed.is_closed()), (false, true));
    let (empty, ended) = (TryRecvError::Empty, TryRecvError::Closed);
    assert_eq!((empty.is_empty(), empty.is_closed()), (true, false));
    assert_eq!((ended.is_empty(), ended.is_closed()), (false, true));
}

#[test]
fn messages_come_out_of_errors() {
    assert_eq!(SendError(7).into_inner(), 7);
    assert_eq!(SendError(7).0, 7);
    assert_eq!(TrySendError::Full(7).into_inner(), 7);
    assert_eq!(TrySendError::Closed(7).into_inner(), 7);
}

#[test]
fn errors_are_equal_by_case_and_message() {
    assert!(SendError(1) == SendError(1) && SendError(1) != SendError(2));
    assert!(TrySendError::Full(1) == TrySendError::Full(1));
    assert!(TrySendError::Full(1) != TrySendError::Closed(1));
    assert!(TrySendError::Closed(1) != TrySendError::Closed(2));
    assert!(TryRecvError::Empty != TryRecvError::Closed);
}

#[test]
fn the_errors_have_short_names() {
    let names = [
        type_name::<SendError<u8>>(),
        type_name::<TrySendError<u8>>(),
        type_name::<RecvError>(),
        type_name::<TryRecvError>(),
    ];
    assert!(names.iter().all(|name| name.starts_with("vamorilesh::errors::")), "{names:?}");
}

/// Of each statement the compiler has to warn: without `must_use` this doesn't build.
#[deny(unfulfilled_lint_expectations)]
#[test]
fn what_does_nothing_unless_it_is_used_is_warned_of() {
    let (s, r) = unbounded::<u8>();
    #[expect(unused_must_use)]
    s.send(1);
    #[expect(unused_must_use)]
    s.closed();
    #[expect(unused_must_use)]
    s.send_many([1]);
    #[expect(unused_must_use)]
    r.recv();
    #[expect(unused_must_use)]
    r.recv_many(&mut Vec::new(), 1);
    #[expect(unused_must_use)]
    r.try_iter();
    assert!(r.is_empty());
}
