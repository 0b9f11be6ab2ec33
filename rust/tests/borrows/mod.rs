//! What the borrows of `async_channel` allow: each function here has to compile.
//!
//! A future that isn't polled any more asks nothing of its handle. So the handle may be given away,
//! dropped, or declared after the future.

use std::fmt;

use async_channel::{bounded, unbounded, Receiver, Recv, Sender};
use futures_lite::future::{block_on, poll_once};
use futures_lite::pin;

#[test]
fn a_receiver_is_given_away_while_its_receive_is_in_scope() {
    fn given_away(r: Receiver<u8>) -> Receiver<u8> {
        let recv = r.recv();
        pin!(recv);
        assert!(block_on(poll_once(recv.as_mut())).is_none());
        r
    }
    let (s, r) = bounded(1);
    let r = given_away(r);
    assert_eq!((s.try_send(1), r.try_recv()), (Ok(()), Ok(1)));
}

#[test]
fn a_receiver_is_dropped_while_its_receive_is_in_scope() {
    let (s, r) = unbounded::<u8>();
    let recv = r.recv();
    pin!(recv);
    assert!(block_on(poll_once(recv.as_mut())).is_none());
    drop(r);
    assert!(s.is_closed());
}

#[test]
fn a_sender_is_dropped_while_its_send_is_in_scope() {
    let (s, r) = bounded(1);
    assert_eq!(s.try_send(String::new()), Ok(()));
    let send = s.send(String::new());
    pin!(send);
    assert!(block_on(poll_once(send.as_mut())).is_none());
    drop(s);
    assert!(r.is_closed());
}

#[test]
fn a_sender_is_dropped_while_its_closed_operation_is_in_scope() {
    let (s, r) = bounded::<u8>(1);
    let closed = s.closed();
    pin!(closed);
    assert!(block_on(poll_once(closed.as_mut())).is_none());
    drop(s);
    assert!(r.is_closed());
}

#[test]
fn futures_are_declared_before_their_handles() {
    let (mut recv, mut send, mut closed) = (None, None, None);
    let (s, r) = bounded::<u8>(1);
    assert!(recv.replace(r.recv()).is_none());
    assert!(send.replace(s.send(1)).is_none());
    assert!(closed.replace(s.closed()).is_none());
}

#[test]
fn futures_are_kept_in_a_list_declared_before_their_handle() {
    let mut list: Vec<Recv<'_, u8>> = Vec::new();
    let (_s, r) = unbounded();
    list.extend([r.recv(), r.recv()]);
    assert_eq!(list.len(), 2);
}

#[test]
fn a_message_may_borrow_what_lives_as_long_as_the_handles() {
    let text = String::from("text");
    let (s, r) = unbounded::<&str>();
    let recv = r.recv();
    pin!(recv);
    assert!(block_on(poll_once(recv.as_mut())).is_none());
    assert_eq!(s.try_send(&text), Ok(()));
    assert_eq!(block_on(recv.as_mut()), Ok("text"));
    drop(r);
}

/// A message's lifetime is taken as it is: neither shorter nor longer.
#[test]
fn futures_are_made_in_functions_that_take_the_handle() {
    fn send<'a, T: fmt::Debug>(s: &'a Sender<T>, message: T) -> async_channel::Send<'a, T> {
        s.send(message)
    }
    let (s, r) = unbounded();
    assert_eq!(block_on(send(&s, 1)), Ok(()));
    assert_eq!(r.try_recv(), Ok(1));
}
