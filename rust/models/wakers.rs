//! Wakers: which of a task's is woken, and that none is woken or dropped under the lock.

use std::future::{poll_fn, Future};
use std::pin::Pin;
use std::sync::Arc;
use std::task::{Context, Poll, Waker};

use futures_core::Stream;
use loom::model;
use vamorilesh::{block_on, bounded, unbounded, Receiver, Sender};

use super::{caller, is_ready, Caller};

#[test]
fn a_poll_again_beside_a_send() {
    model(|| {
        let (s, r) = unbounded();
        let receive = move || {
            let mut receive = r.recv();
            let twice = poll_fn(move |context| match Pin::new(&mut receive).poll(context) {
                Poll::Pending => Pin::new(&mut receive).poll(context),
                ready => ready,
            });
            assert_eq!(block_on(twice), Ok(7));
        };
        beside!(receive, move || s.try_send(7).unwrap());
    });
}

#[test]
fn a_poll_by_another_task_beside_a_send() {
    model(|| {
        let (s, r) = unbounded();
        let idle = caller(&s);
        let receive = move || {
            let mut receive = r.recv();
            let first = Pin::new(&mut receive).poll(&mut Context::from_waker(&idle));
            let taken = match first {
                Poll::Ready(taken) => taken,
                Poll::Pending => block_on(receive),
            };
            assert_eq!(taken, Ok(7));
        };
        beside!(receive, move || s.try_send(7).unwrap());
    });
}

/// The receiver may be gone by now.
fn send_if_open(s: &Sender<u64>) {
    let _ = s.try_send(1);
}

#[test]
fn two_polls_and_a_drop_beside_a_send() {
    model(|| {
        let (s, r) = unbounded();
        let other = s.clone();
        let wait = move || {
            let mut receive = Box::pin(r.recv());
            let _ =
                is_ready(&mut receive, caller(&other)) || is_ready(&mut receive, caller(&other));
        };
        beside!(wait, move || send_if_open(&s));
    });
}

/// Polls a future that waits as one task and as another, and gives it up.
fn wait_and_give_up<F: Future>(sender: &Sender<u64>, future: F) {
    let mut future = Box::pin(future);
    assert!(!is_ready(&mut future, caller(sender)));
    assert!(!is_ready(&mut future, caller(sender)));
}

#[test]
fn each_operation_gives_its_wakers_back_without_the_lock() {
    model(|| {
        let (s, r) = bounded(1);
        wait_and_give_up(&s, r.recv());
        wait_and_give_up(&s, r.recv_many(&mut Vec::new(), 2));
        let mut stream = r.clone();
        wait_and_give_up(&s, poll_fn(|context| Pin::new(&mut stream).poll_next(context)));
        drop(stream);
        wait_and_give_up(&s, s.closed());
        s.try_send(1).unwrap();
        wait_and_give_up(&s, s.send(2));
        wait_and_give_up(&s, s.send_many([2, 3]));
    });
}

/// Polls a future, which has to wait.
fn waits<F: Future>(sender: &Sender<u64>, future: F) -> Pin<Box<F>> {
    let mut future = Box::pin(future);
    assert!(!is_ready(&mut future, caller(sender)));
    future
}

/// Makes a poll of one that wasn't told and can go on, since another was told first.
fn goes_on<F: Future>(sender: &Sender<u64>, mut future: Pin<Box<F>>) {
    assert!(is_ready(&mut future, caller(sender)));
}

#[test]
fn one_that_goes_on_untold_gets_its_waker_back_without_the_lock() {
    model(|| {
        let (s, r) = bounded(1);
        let (_told, receive) = (waits(&s, r.recv()), waits(&s, r.recv()));
        s.try_send(1).unwrap();
        goes_on(&s, receive);
    });
    model(|| {
        let ((s, r), mut into) = (bounded(1), Vec::new());
        let (_told, receive) = (waits(&s, r.recv()), waits(&s, r.recv_many(&mut into, 2)));
        s.try_send(1).unwrap();
        goes_on(&s, receive);
    });
    model(|| {
        let (s, r) = bounded(1);
        s.try_send(1).unwrap();
        let (_told, send) = (waits(&s, s.send(2)), waits(&s, s.send(3)));
        r.try_recv().unwrap();
        goes_on(&s, send);
    });
    model(|| {
        let (s, r) = bounded(1);
        s.try_send(1).unwrap();
        let (_told, send) = (waits(&s, s.send(2)), waits(&s, s.send_many([3])));
        r.try_recv().unwrap();
        goes_on(&s, send);
    });
}

/// The next message of a stream.
async fn next(r: &mut Receiver<u64>) -> Option<u64> {
    poll_fn(|context| Pin::new(&mut *r).poll_next(context)).await
}

#[test]
fn each_call_wakes_without_the_lock() {
    let sends: [fn(&Sender<u64>); 7] = [
        |s| assert!(s.try_send(1).is_ok()),
        |s| assert!(s.force_send(1).is_ok()),
        |s| assert!(s.send_blocking(1).is_ok()),
        |s| assert!(s.try_send_many(&mut [1].into()).is_ok()),
        |s| assert!(s.send_many_blocking([1]).is_ok()),
        |s| assert!(block_on(s.send_many([1])).is_ok()),
        |s| assert!(s.close()),
    ];
    for send in sends {
        model(move || {
            let (s, r) = bounded(1);
            let mut stream = r.clone();
            let _others = (waits(&s, r.recv()), waits(&s, next(&mut stream)));
            send(&s);
        });
    }
    let receives: [fn(&mut Receiver<u64>); 7] = [
        |r| assert!(r.try_recv().is_ok()),
        |r| assert!(r.recv_blocking().is_ok()),
        |r| assert!(block_on(Box::pin(next(r))).is_some()),
        |r| assert!(r.try_recv_many(&mut Vec::new(), 2).is_ok()),
        |r| assert!(r.recv_many_blocking(&mut Vec::new(), 2) > 0),
        |r| assert!(block_on(r.recv_many(&mut Vec::new(), 2)) > 0),
        |r| assert!(r.close()),
    ];
    for receive in receives {
        model(move || {
            let (s, mut r) = bounded(1);
            assert!(s.try_send(0).is_ok());
            let _other = waits(&s, s.send(1));
            receive(&mut r);
        });
    }
}

#[test]
fn each_operation_that_waited_wakes_without_the_lock() {
    model(|| {
        let (s, r) = bounded(1);
        let (mut stream, mut into) = (r.clone(), Vec::new());
        let mut receives: [Pin<Box<dyn Future<Output = bool>>>; 3] = [
            waits(&s, async { r.recv().await.is_ok() }),
            waits(&s, async { r.recv_many(&mut into, 1).await > 0 }),
            waits(&s, async { next(&mut stream).await.is_some() }),
        ];
        for receive in &mut receives {
            assert!(s.try_send(1).is_ok());
            let _other = waits(&s, s.send(2));
            assert!(is_ready(receive, caller(&s)));
        }
    });
    model(|| {
        let (s, r) = bounded(1);
        assert!(s.try_send(1).is_ok());
        let mut sends: [Pin<Box<dyn Future<Output = bool>>>; 2] = [
            waits(&s, async { s.send(2).await.is_ok() }),
            waits(&s, async { s.send_many([3]).await.is_ok() }),
        ];
        for send in &mut sends {
            assert!(r.try_recv().is_ok());
            let _other = waits(&s, r.recv());
            assert!(is_ready(send, caller(&s)));
        }
    });
}

#[test]
fn what_is_given_up_wakes_without_the_lock() {
    model(|| {
        let (s, r) = bounded(1);
        let (first, _second) = (waits(&s, r.recv()), waits(&s, r.recv()));
        assert!(s.try_send(1).is_ok());
        drop(first);
        let (first, _second) = (waits(&s, s.send(1)), waits(&s, s.send(1)));
        assert!(r.try_recv().is_ok());
        drop(first);
        let _closed = waits(&s, s.closed());
        drop(r);
    });
    model(|| {
        let (s, r) = bounded(1);
        let _other = waits(&s, r.recv());
        drop(s);
    });
}

#[test]
fn no_copy_of_a_waker_is_left_after_its_wait() {
    model(|| {
        let (s, r) = unbounded();
        let task = Arc::new(Caller(s.downgrade()));
        let waker = Waker::from(task.clone());
        let wait = move || {
            let _ = Pin::new(&mut r.recv()).poll(&mut Context::from_waker(&waker));
        };
        beside!(wait, move || send_if_open(&s));
        assert_eq!(Arc::strong_count(&task), 1);
    });
}
