//! Assertions at compile time about the traits of every type of `async_channel`.
//!
//! A trait that a type has is asked for by a bound. That it hasn't got one is shown by a call
//! which would be ambiguous if it had.

use std::cell::Cell;
use std::error::Error;
use std::fmt::{Debug, Display};
use std::future::Future;
use std::panic::{RefUnwindSafe, UnwindSafe};
use std::rc::Rc;

use async_channel::{
    Closed, Receiver, Recv, RecvError, Send as SendOp, SendError, Sender, TryRecvError,
    TrySendError, WeakReceiver, WeakSender,
};
use futures_core::stream::{FusedStream, Stream};

/// A message that has no trait at all, and may be sent between threads. Only its type is used.
#[allow(dead_code)]
struct Plain(u8);

fn has_send<T: Send>() {}
fn has_sync<T: Sync>() {}
fn has_unpin<T: Unpin>() {}
fn has_clone<T: Clone>() {}
fn has_copy<T: Copy>() {}
fn has_debug<T: Debug>() {}
fn has_error<T: Error + Display>() {}
fn has_equality<T: Eq>() {}
fn has_unwind<T: UnwindSafe + RefUnwindSafe>() {}
fn is_future<T: Future<Output = O>, O>() {}
fn is_stream<T: FusedStream + Stream<Item = I>, I>() {}

/// Asserts that a type hasn't got a trait.
macro_rules! has_not {
    ($kind:ty, $($bound:tt)+) => {{
        trait Ambiguous<Mark> {
            fn pick() {}
        }
        struct WithTrait;
        impl<T: ?Sized> Ambiguous<()> for T {}
        impl<T: ?Sized + $($bound)+> Ambiguous<WithTrait> for T {}
        <$kind as Ambiguous<_>>::pick();
    }};
}

/// Asserts a trait of each type that handles messages of type `$message`.
macro_rules! each {
    ($check:ident, $message:ty, of $($kind:ident)+) => {
        $($check::<$kind<'static, $message>>();)+
    };
    ($check:ident, $message:ty, $($kind:ident)+) => { $($check::<$kind<$message>>();)+ };
}

#[test]
fn handles_go_between_threads_where_messages_do() {
    each!(has_send, Cell<u8>, Sender Receiver WeakSender WeakReceiver);
    each!(has_sync, Cell<u8>, Sender Receiver WeakSender WeakReceiver);
    each!(has_send, Plain, of SendOp Recv Closed);
    each!(has_sync, Plain, of SendOp Recv Closed);
    each!(has_send, Cell<u8>, of SendOp Recv Closed);
    has_not!(Sender<Rc<u8>>, Send);
    has_not!(Receiver<Rc<u8>>, Send);
    has_not!(Sender<Rc<u8>>, Sync);
    has_not!(Receiver<Rc<u8>>, Sync);
    has_not!(WeakSender<Rc<u8>>, Send);
    has_not!(WeakReceiver<Rc<u8>>, Send);
    has_not!(SendOp<'static, Rc<u8>>, Send);
    has_not!(Recv<'static, Rc<u8>>, Send);
    has_not!(Closed<'static, Rc<u8>>, Send);
    has_not!(SendOp<'static, Cell<u8>>, Sync);
}

#[test]
fn handles_are_copied_and_written_whatever_the_message() {
    each!(has_clone, Plain, Sender Receiver WeakSender WeakReceiver);
    each!(has_debug, Plain, Sender Receiver WeakSender WeakReceiver);
    each!(has_debug, u8, of SendOp Recv Closed);
    each!(has_unpin, Plain, Sender WeakSender WeakReceiver);
}

#[test]
fn what_may_be_met_after_a_panic() {
    each!(has_unwind, Plain, Sender Receiver WeakSender WeakReceiver);
    each!(has_unwind, Plain, of SendOp Recv Closed);
    each!(has_unwind, Rc<Cell<u8>>, Sender Receiver WeakSender WeakReceiver);
}

#[test]
fn errors_have_the_traits_of_their_messages() {
    has_error::<SendError<Plain>>();
    has_error::<TrySendError<Plain>>();
    has_error::<RecvError>();
    has_error::<TryRecvError>();
    has_debug::<SendError<Plain>>();
    has_debug::<TrySendError<Plain>>();
    each!(has_copy, u8, SendError TrySendError);
    each!(has_equality, u8, SendError TrySendError);
    has_clone::<SendError<String>>();
    has_clone::<TrySendError<String>>();
    has_not!(SendError<String>, Copy);
    has_not!(TrySendError<Plain>, Clone);
    has_copy::<RecvError>();
    has_copy::<TryRecvError>();
    has_equality::<RecvError>();
    has_equality::<TryRecvError>();
}

#[test]
fn operations_are_futures_and_receivers_streams() {
    is_future::<SendOp<'static, Plain>, Result<(), SendError<Plain>>>();
    is_future::<Recv<'static, Plain>, Result<Plain, RecvError>>();
    is_future::<Closed<'static, Plain>, ()>();
    is_stream::<Receiver<Plain>, Plain>();
}
