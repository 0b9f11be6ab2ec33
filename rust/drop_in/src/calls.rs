//! Calls that never wait: handles, questions and errors.

use std::error::Error;
use std::panic::catch_unwind;

use async_channel::{
    bounded, unbounded, Receiver, RecvError, SendError, Sender, TryRecvError, TrySendError,
    WeakReceiver, WeakSender,
};

pub fn channels() {
    let (s, r): (Sender<u8>, Receiver<u8>) = bounded(2);
    println!("bounded: {:?} {:?}", s.capacity(), r.capacity());
    let (s, r): (Sender<u8>, Receiver<u8>) = unbounded();
    println!("unbounded: {:?} {:?}", s.capacity(), r.capacity());
    std::panic::set_hook(Box::new(|_| {}));
    let panic = catch_unwind(|| bounded::<u8>(0)).unwrap_err();
    let _ = std::panic::take_hook();
    println!("bounded(0): {:?}", panic.downcast_ref::<&str>());
}

/// What a channel's senders and receivers tell of it.
fn state<T>(s: &Sender<T>, r: &Receiver<T>) -> String {
    let of_sender = (s.len(), s.is_empty(), s.is_full(), s.is_closed());
    let of_receiver = (r.len(), r.is_empty(), r.is_full(), r.is_closed());
    let counts = (s.sender_count(), s.receiver_count(), r.sender_count(), r.receiver_count());
    format!("{of_sender:?} {of_receiver:?} {counts:?}")
}

pub fn senders() {
    let (s, r) = bounded(2);
    println!("try_send: {:?} {:?}", s.try_send(1), s.try_send(2));
    println!("full: {}", state(&s, &r));
    println!("try_send: {:?}", s.try_send(3).map_err(TrySendError::into_inner));
    println!("force_send: {:?} {:?}", s.force_send(4), s.force_send(5));
    println!("try_recv: {:?} {:?} {:?}", r.try_recv(), r.try_recv(), r.try_recv());
    println!("force_send: {:?}", s.force_send(6));
    let second = s.clone();
    println!("clone: {} {}", s.same_channel(&second), second.same_channel(&bounded(2).0));
    println!("open: {}", state(&second, &r));
    println!("close: {} {} {}", s.close(), second.close(), r.close());
    println!("closed: {}", state(&s, &r));
    println!("try_send: {:?}", s.try_send(7).map_err(TrySendError::into_inner));
    println!("force_send: {:?}", s.force_send(8).map_err(SendError::into_inner));
    drop(s);
    println!("dropped: {}", state(&second, &r));
}

pub fn receivers() {
    let (s, r) = unbounded();
    println!("try_recv: {:?}", r.try_recv());
    println!("try_send: {:?} {:?} {:?}", s.try_send('a'), s.try_send('b'), s.try_send('c'));
    let second = r.clone();
    println!("clone: {} {}", r.same_channel(&second), r.same_channel(&unbounded().1));
    println!("open: {}", state(&s, &second));
    println!("try_recv: {:?} {:?}", r.try_recv(), second.try_recv());
    println!("close: {} {}", r.close(), second.close());
    drop(r);
    println!("closed: {}", state(&s, &second));
    println!("try_recv: {:?} {:?}", second.try_recv(), second.try_recv());
    let (s, r) = bounded::<u8>(1);
    drop(r);
    println!("no receiver: {} {}", s.is_closed(), s.receiver_count());
    let (s, r) = bounded::<u8>(1);
    drop(s);
    println!("no sender: {} {}", r.is_closed(), r.sender_count());
}

pub fn weak_handles() {
    let (s, r) = bounded::<u8>(3);
    let (ws, wr): (WeakSender<u8>, WeakReceiver<u8>) = (s.downgrade(), r.downgrade());
    println!("downgrade: {}", state(&s, &r));
    let (second, other) = (ws.clone().upgrade().unwrap(), wr.clone().upgrade().unwrap());
    println!("upgrade: {} {}", s.same_channel(&second), r.same_channel(&other));
    println!("upgraded: {}", state(&second, &other));
    drop((s, r));
    println!("first ones dropped: {}", state(&second, &other));
    second.close();
    println!("closed: {} {}", ws.upgrade().is_none(), wr.upgrade().is_none());
    let (s, r) = bounded::<u8>(3);
    let (ws, wr) = (s.downgrade(), r.downgrade());
    drop(s);
    println!("no sender: {} {}", ws.upgrade().is_none(), wr.upgrade().is_none());
    let (s, r) = bounded::<u8>(3);
    let (ws, wr) = (s.downgrade(), r.downgrade());
    drop(r);
    println!("no receiver: {} {}", ws.upgrade().is_none(), wr.upgrade().is_none());
}

/// A message without any trait.
struct Plain;

fn told(name: &str, error: &dyn Error) {
    println!("{name}: {error} | {error:?} | {error:#?} | {:?}", error.source().is_some());
}

pub fn errors() {
    told("SendError", &SendError(Plain));
    told("TrySendError::Full", &TrySendError::Full(Plain));
    told("TrySendError::Closed", &TrySendError::Closed(Plain));
    told("RecvError", &RecvError);
    told("TryRecvError::Empty", &TryRecvError::Empty);
    told("TryRecvError::Closed", &TryRecvError::Closed);
    let (full, closed) = (TrySendError::Full(1), TrySendError::Closed(2));
    println!("TrySendError: {:?}", [full.is_full(), full.is_closed(), closed.is_full()]);
    println!("TrySendError: {} {}", closed.is_closed(), full == closed);
    println!("TrySendError: {} {}", full.into_inner(), closed.into_inner());
    let (empty, ended) = (TryRecvError::Empty, TryRecvError::Closed);
    println!("TryRecvError: {:?}", [empty.is_empty(), empty.is_closed(), ended.is_empty()]);
    println!("TryRecvError: {} {}", ended.is_closed(), empty == ended);
    let error = SendError(7);
    let copy = error;
    println!("SendError: {} {} {}", error == copy, error.0, copy.into_inner());
    println!("RecvError: {}", RecvError == RecvError.clone_it());
}

trait CloneIt {
    fn clone_it(&self) -> Self;
}

impl<T: Clone> CloneIt for T {
    fn clone_it(&self) -> T {
        self.clone()
    }
}
