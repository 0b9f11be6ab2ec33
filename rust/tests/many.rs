//! Many messages in one call: each answer, who is woken, and that nothing is lost or out of order.

mod support;

use std::collections::VecDeque;
use std::future::Future;
use std::panic::{catch_unwind, AssertUnwindSafe};
use std::pin::{pin, Pin};
use std::sync::atomic::{AtomicUsize, Ordering};
use std::sync::Arc;
use std::task::{Context, Poll, Wake, Waker};
use std::thread;
use std::time::Duration;

use futures_lite::future::{block_on, poll_once};
use futures_lite::Stream;
use support::{poll_pinned, poll_with, Log, Task};
use vamorilesh::{bounded, unbounded, Receiver, RecvMany, SendError, SendMany, Sender};
use vamorilesh::{TryIter, TryRecvError, TrySendError, ROUND_LIMIT};

/// So many messages from 0 on.
fn numbers(count: usize) -> VecDeque<usize> {
    (0..count).collect()
}

type ReceiveMany = fn(&Receiver<usize>, &mut Vec<usize>, usize) -> usize;

/// Each call that receives many messages, where there are some.
const RECEIVES: [ReceiveMany; 3] = [
    |r, into, limit| r.try_recv_many(into, limit).unwrap(),
    |r, into, limit| r.recv_many_blocking(into, limit),
    |r, into, limit| block_on(r.recv_many(into, limit)),
];

/// Polls an operation of several waiters, each with a waker of its own, all of which wait.
fn all_wait<F: Future>(waiters: &mut [Pin<Box<F>>], log: &Log) {
    for (name, waiter) in waiters.iter_mut().enumerate() {
        assert!(poll_with(waiter, &log.waker(name)).is_pending());
    }
}

#[test]
fn try_recv_many_takes_up_to_its_limit_in_order() {
    let (s, r) = unbounded();
    let mut into = vec![9];
    assert_eq!(r.try_recv_many(&mut into, 5), Err(TryRecvError::Empty));
    assert_eq!(r.try_recv_many(&mut into, 0), Err(TryRecvError::Empty));
    assert_eq!(s.try_send_many(&mut numbers(5)), Ok(5));
    assert_eq!(r.try_recv_many(&mut into, 0), Ok(0));
    assert_eq!(r.try_recv_many(&mut into, 2), Ok(2));
    assert_eq!((&into[..], r.len()), (&[9, 0, 1][..], 3));
    assert_eq!(r.try_recv_many(&mut into, usize::MAX), Ok(3));
    assert_eq!((&into[..], r.len()), (&[9, 0, 1, 2, 3, 4][..], 0));
    assert_eq!(r.try_recv_many(&mut into, 1), Err(TryRecvError::Empty));
}

#[test]
fn try_recv_many_takes_what_a_closed_channel_has_left() {
    let (s, r) = bounded(3);
    assert_eq!(s.try_send_many(&mut numbers(3)), Ok(3));
    drop(s);
    let mut into = Vec::new();
    assert_eq!(r.try_recv_many(&mut into, 2), Ok(2));
    assert_eq!(r.try_recv_many(&mut into, 2), Ok(1));
    assert_eq!(r.try_recv_many(&mut into, 2), Err(TryRecvError::Closed));
    assert_eq!(r.try_recv_many(&mut into, 0), Err(TryRecvError::Closed));
    assert_eq!(into, [0, 1, 2]);
}

#[test]
fn a_receive_of_many_asks_for_room_for_what_there_is() {
    let (s, r) = unbounded();
    let mut into = Vec::new();
    assert!(r.try_recv_many(&mut into, usize::MAX).is_err() && into.capacity() < 8);
    s.try_send_many(&mut numbers(40)).unwrap();
    into = Vec::with_capacity(100);
    let place = into.as_ptr();
    assert_eq!(r.try_recv_many(&mut into, usize::MAX), Ok(40));
    assert_eq!((into.as_ptr(), into.capacity()), (place, 100));
}

#[test]
fn try_send_many_sends_what_fits_in_order() {
    let (s, r) = bounded(3);
    let mut from = numbers(2);
    assert_eq!((s.try_send_many(&mut from), from.len()), (Ok(2), 0));
    assert_eq!(s.try_send_many(&mut from), Ok(0));
    from = numbers(3);
    assert_eq!((s.try_send_many(&mut from), &from), (Ok(1), &VecDeque::from([1, 2])));
    assert_eq!(s.try_send_many(&mut from), Err(TrySendError::Full(())));
    assert_eq!(s.try_send_many(&mut VecDeque::new()), Err(TrySendError::Full(())));
    assert_eq!((from.len(), s.len()), (2, 3));
    assert!(r.try_iter().eq([0, 1, 0]));
    assert_eq!((s.try_send_many(&mut from), from.len()), (Ok(2), 0));
    assert!(r.try_iter().eq([1, 2]));
}

#[test]
fn try_send_many_into_a_closed_channel_sends_nothing() {
    let (s, r) = bounded(2);
    assert_eq!(s.try_send(7), Ok(()));
    r.close();
    let mut from = numbers(3);
    assert_eq!(s.try_send_many(&mut from), Err(TrySendError::Closed(())));
    assert_eq!(s.try_send_many(&mut VecDeque::new()), Err(TrySendError::Closed(())));
    assert_eq!((from, s.len()), (numbers(3), 1));
}

#[test]
fn large_batches_go_in_and_out_whole_and_in_order() {
    assert_eq!(ROUND_LIMIT, 128);
    for count in [ROUND_LIMIT - 1, ROUND_LIMIT, ROUND_LIMIT + 1, 10 * ROUND_LIMIT] {
        for (s, r) in [bounded(count), unbounded()] {
            let (mut from, mut into) = (numbers(count), Vec::new());
            assert_eq!((s.try_send_many(&mut from), from.len()), (Ok(count), 0));
            assert_eq!((s.len(), r.try_recv_many(&mut into, count - 1)), (count, Ok(count - 1)));
            assert_eq!((r.try_recv_many(&mut into, count), r.len()), (Ok(1), 0));
            assert!(into.into_iter().eq(0..count));
        }
    }
}

#[test]
fn batches_of_messages_without_size() {
    let (s, r) = bounded(200);
    let mut from: VecDeque<()> = std::iter::repeat(()).take(300).collect();
    assert_eq!((s.try_send_many(&mut from), from.len()), (Ok(200), 100));
    assert_eq!((s.try_send_many(&mut from), from.len()), (Err(TrySendError::Full(())), 100));
    let mut into = Vec::new();
    assert_eq!((r.try_recv_many(&mut into, 150), into.len()), (Ok(150), 150));
    assert_eq!(block_on(r.recv_many(&mut into, 150)), 50);
}

#[test]
fn futures_that_can_go_on_answer_at_once() {
    let (s, r) = bounded(4);
    let mut into = Vec::new();
    block_on(async {
        assert_eq!(poll_once(r.recv_many(&mut into, 0)).await, Some(0));
        assert_eq!(s.send_many(0..3).await, Ok(()));
        assert_eq!(s.send_many([]).await, Ok(()));
        assert_eq!(r.recv_many(&mut into, 2).await, 2);
        assert_eq!(s.send_many(3..6).await, Ok(()));
        s.close();
        assert_eq!(s.send_many([]).await, Ok(()));
        assert_eq!(s.send_many([6, 7]).await, Err(SendError([6, 7].into())));
        assert_eq!(r.recv_many(&mut into, 9).await, 4);
        assert_eq!(r.recv_many(&mut into, 9).await, 0);
    });
    assert_eq!(into, [0, 1, 2, 3, 4, 5]);
}

#[test]
fn blocking_calls_that_can_go_on_answer_at_once() {
    let (s, r) = bounded(4);
    let mut into = Vec::new();
    assert_eq!(r.recv_many_blocking(&mut into, 0), 0);
    assert_eq!(s.send_many_blocking(0..3), Ok(()));
    assert_eq!(s.send_many_blocking([]), Ok(()));
    assert_eq!(r.recv_many_blocking(&mut into, 2), 2);
    assert_eq!(s.send_many_blocking(3..5), Ok(()));
    assert_eq!(s.send_many_blocking([5]), Ok(()));
    s.close();
    assert_eq!(s.send_many_blocking([]), Ok(()));
    assert_eq!(s.send_many_blocking([6]), Err(SendError([6].into())));
    assert_eq!(s.send_many_blocking([6, 7]), Err(SendError([6, 7].into())));
    assert_eq!(r.recv_many_blocking(&mut into, 1), 1);
    assert_eq!(into, [0, 1, 2]);
    assert_eq!(r.recv_many_blocking(&mut into, 9), 3);
    assert_eq!(r.recv_many_blocking(&mut into, 9), 0);
    assert_eq!(r.recv_many_blocking(&mut into, 1), 0);
    assert_eq!(into, [0, 1, 2, 3, 4, 5]);
}

#[test]
fn an_iterator_takes_one_message_at_a_time() {
    let (s, r) = unbounded();
    s.try_send_many(&mut numbers(3)).unwrap();
    assert_eq!((r.try_iter().next(), r.len()), (Some(0), 2));
    let mut messages = r.try_iter();
    assert_eq!((r.try_recv(), messages.next(), messages.next()), (Ok(1), Some(2), None));
    s.try_send(3).unwrap();
    drop(s);
    assert_eq!((messages.next(), messages.next()), (Some(3), None));
}

#[test]
fn each_taken_message_tells_a_send() {
    let (s, r) = bounded(3);
    let log = Log::default();
    s.try_send_many(&mut numbers(3)).unwrap();
    let mut sends: Vec<_> = (0..4).map(|_| Box::pin(s.send(9))).collect();
    all_wait(&mut sends, &log);
    assert_eq!(r.try_recv_many(&mut Vec::new(), 2), Ok(2));
    assert_eq!(log.take(), [0, 1]);
    assert_eq!(block_on(r.recv_many(&mut Vec::new(), 9)), 1);
    assert_eq!(log.take(), [2]);
    assert!(r.try_recv_many(&mut Vec::new(), 9).is_err());
    assert!(log.take().is_empty());
}

#[test]
fn each_accepted_message_tells_a_receive_and_the_first_all_streams() {
    let (s, r) = unbounded();
    let log = Log::default();
    let mut receives: Vec<_> = (0..3).map(|_| Box::pin(r.recv())).collect();
    all_wait(&mut receives, &log);
    let mut streams = [r.clone(), r.clone()];
    for (name, stream) in streams.iter_mut().enumerate() {
        let waker = log.waker(10 + name);
        assert!(Pin::new(stream).poll_next(&mut Context::from_waker(&waker)).is_pending());
    }
    assert_eq!(s.try_send_many(&mut numbers(2)), Ok(2));
    assert_eq!(log.take(), [0, 10, 11, 1]);
    assert_eq!(block_on(s.send_many(numbers(2))), Ok(()));
    assert_eq!(log.take(), [2]);
}

#[test]
fn a_receive_of_many_that_waits_takes_what_came_and_leaves_the_others_waiting() {
    let (s, r) = unbounded();
    let log = Log::default();
    let (mut into, mut other) = (vec![9], Vec::new());
    let mut first = Box::pin(r.recv_many(&mut into, 3));
    let mut second = Box::pin(r.recv_many(&mut other, 3));
    assert!(poll_with(&mut first, &log.waker(0)).is_pending());
    assert!(poll_with(&mut second, &log.waker(1)).is_pending());
    s.try_send_many(&mut numbers(2)).unwrap();
    assert_eq!(log.take(), [0, 1]);
    assert_eq!(poll_with(&mut first, &log.waker(0)), Poll::Ready(2));
    assert!(poll_with(&mut second, &log.waker(1)).is_pending());
    s.try_send_many(&mut numbers(5)).unwrap();
    assert_eq!(log.take(), [1]);
    assert_eq!(poll_with(&mut second, &log.waker(1)), Poll::Ready(3));
    drop((first, second));
    assert_eq!((into, other), (vec![9, 0, 1], vec![0, 1, 2]));
}

#[test]
fn a_receive_of_many_that_waits_ends_with_the_channel_and_may_begin_anew() {
    let (s, r) = unbounded();
    let mut into = Vec::new();
    let mut receive = Task::new(r.recv_many(&mut into, 200));
    assert!(receive.poll().is_pending());
    s.try_send_many(&mut numbers(300)).unwrap();
    assert_eq!((receive.woken(), receive.poll()), (1, Poll::Ready(200)));
    assert_eq!((receive.poll(), receive.poll().is_pending()), (Poll::Ready(100), true));
    drop(s);
    assert_eq!((receive.woken(), receive.poll()), (2, Poll::Ready(0)));
    drop(receive);
    assert!(into.into_iter().eq(0..300));
}

#[test]
fn a_send_of_many_sends_what_fits_each_time_it_is_woken() {
    let (s, r) = bounded(2);
    let mut send = Task::new(s.send_many(0..7));
    let mut into = Vec::new();
    for (woken, count) in [(0, 1), (1, 2), (2, 1)] {
        assert_eq!((send.woken(), send.poll().is_pending()), (woken, true));
        assert_eq!(s.len(), 2);
        assert_eq!(r.try_recv_many(&mut into, count), Ok(count));
    }
    assert!(send.poll().is_pending());
    assert_eq!(r.try_recv_many(&mut into, 2), Ok(2));
    assert_eq!((send.woken(), send.poll()), (4, Poll::Ready(Ok(()))));
    assert_eq!(r.try_recv_many(&mut into, 9), Ok(1));
    assert_eq!(into, [0, 1, 2, 3, 4, 5, 6]);
}

#[test]
fn a_send_of_many_that_waits_again_goes_last() {
    let (s, r) = bounded(1);
    let log = Log::default();
    let mut many = Box::pin(s.send_many(0..3));
    assert!(poll_with(&mut many, &log.waker(0)).is_pending());
    let mut one = Box::pin(s.send(9));
    assert!(poll_with(&mut one, &log.waker(1)).is_pending());
    assert_eq!((r.try_recv(), log.take()), (Ok(0), vec![0]));
    assert!(poll_with(&mut many, &log.waker(0)).is_pending());
    assert_eq!((r.try_recv(), log.take()), (Ok(1), vec![1]));
    assert!(poll_with(&mut one, &log.waker(1)).is_ready());
    assert_eq!((r.try_recv(), log.take()), (Ok(9), vec![0]));
    assert!(poll_with(&mut many, &log.waker(0)).is_ready());
}

#[test]
fn a_send_of_many_hands_back_what_did_not_go_in() {
    let (s, r) = bounded(2);
    let mut send = Box::pin(s.send_many(0..5));
    let waker = Log::default().waker(0);
    assert_eq!((poll_with(&mut send, &waker), send.sent()), (Poll::Pending, 2));
    r.close();
    let answer = poll_with(&mut send, &waker);
    assert_eq!((answer, send.sent()), (Poll::Ready(Err(SendError([2, 3, 4].into()))), 2));
    assert!(Pin::into_inner(send).into_unsent().is_empty());
    assert!(r.try_iter().eq([0, 1]));
}

#[test]
fn a_send_of_many_that_has_finished_is_not_polled_again() {
    let (s, r) = unbounded();
    let finished = |send: &mut SendMany<'_, u8>| {
        let _ = block_on(&mut *send);
        assert!(catch_unwind(AssertUnwindSafe(|| block_on(send))).is_err());
    };
    finished(&mut s.send_many([1]));
    finished(&mut s.send_many([]));
    r.close();
    finished(&mut s.send_many([1]));
}

#[test]
fn a_given_up_receive_of_many_takes_nothing_and_hands_its_notice_on() {
    let (s, r) = unbounded();
    let log = Log::default();
    let mut into = Vec::new();
    let mut first = Box::pin(r.recv_many(&mut into, 2));
    assert!(poll_with(&mut first, &log.waker(0)).is_pending());
    let mut second = Box::pin(r.recv());
    assert!(poll_with(&mut second, &log.waker(1)).is_pending());
    assert_eq!((s.try_send(7), log.take()), (Ok(()), vec![0]));
    drop(first);
    assert_eq!((log.take(), into), (vec![1], vec![]));
    assert_eq!(poll_with(&mut second, &log.waker(1)), Poll::Ready(Ok(7)));
}

#[test]
fn a_given_up_send_of_many_says_what_went_in_and_hands_its_notice_on() {
    let (s, r) = bounded(2);
    let log = Log::default();
    let mut first = Box::pin(s.send_many(0..4));
    assert!(poll_with(&mut first, &log.waker(0)).is_pending());
    let mut second = Box::pin(s.send(9));
    assert!(poll_with(&mut second, &log.waker(1)).is_pending());
    assert_eq!((r.try_recv(), log.take(), first.sent()), (Ok(0), vec![0], 2));
    let left = Pin::into_inner(first).into_unsent();
    assert_eq!((log.take(), left), (vec![1], [2, 3].into()));
    assert!(poll_with(&mut second, &log.waker(1)).is_ready());
    assert!(r.try_iter().eq([1, 9]));
}

#[test]
fn a_given_up_send_of_many_drops_what_did_not_go_in() {
    let kept = Arc::new(());
    let (s, _r) = bounded(1);
    let mut send = Box::pin(s.send_many([kept.clone(), kept.clone(), kept.clone()]));
    assert_eq!(Arc::strong_count(&kept), 4);
    assert!(poll_with(&mut send, &Log::default().waker(0)).is_pending());
    drop(send);
    assert_eq!((Arc::strong_count(&kept), s.len()), (2, 1));
}

#[test]
fn nothing_happens_before_the_first_poll() {
    let (s, r) = bounded(1);
    let mut into = Vec::new();
    let (send, receive) = (s.send_many([1]), r.recv_many(&mut into, 1));
    assert_eq!(s.len(), 0);
    drop(receive);
    assert_eq!((block_on(send), r.try_recv()), (Ok(()), Ok(1)));
}

/// A waker that sends a message when it is woken, if there is room.
struct Sends(Sender<usize>);

impl Wake for Sends {
    fn wake(self: Arc<Self>) {
        let _ = self.0.try_send(usize::MAX);
    }
}

#[test]
fn a_round_of_a_send_of_many_ends_before_its_wakers_are_woken() {
    let (s, r) = unbounded();
    let mut receive = Box::pin(r.recv());
    let waker = Waker::from(Arc::new(Sends(s.clone())));
    assert!(poll_with(&mut receive, &waker).is_pending());
    let mut from = numbers(ROUND_LIMIT + 2);
    assert_eq!(s.try_send_many(&mut from), Ok(ROUND_LIMIT + 2));
    assert!(r.try_iter().eq((0..ROUND_LIMIT).chain([usize::MAX, ROUND_LIMIT, ROUND_LIMIT + 1])));
}

#[test]
fn a_receive_of_many_goes_on_with_what_those_whom_it_wakes_send() {
    for receive in RECEIVES {
        let (s, r) = bounded(1);
        let waker = Waker::from(Arc::new(Sends(s.clone())));
        assert_eq!(s.try_send(1), Ok(()));
        let mut sends: Vec<_> = (0..5).map(|_| Box::pin(s.send(2))).collect();
        for send in &mut sends {
            assert!(support::poll_with(send, &waker).is_pending());
        }
        let mut into = Vec::new();
        assert_eq!((receive(&r, &mut into, 4), r.len()), (4, 1));
        assert_eq!(into, [1, usize::MAX, usize::MAX, usize::MAX]);
    }
}

/// A waker that closes the channel when it is woken.
struct Closes(Sender<usize>);

impl Wake for Closes {
    fn wake(self: Arc<Self>) {
        self.0.close();
    }
}

/// Calls with a channel that is closed by whom the first round wakes.
fn closed_after_a_round(call: impl FnOnce(&Sender<usize>)) {
    let (s, r) = unbounded();
    let mut receive = Box::pin(r.recv());
    assert!(poll_with(&mut receive, &Waker::from(Arc::new(Closes(s.clone())))).is_pending());
    call(&s);
    assert!(s.is_closed() && r.try_iter().eq(0..ROUND_LIMIT));
}

#[test]
fn a_batch_that_is_cut_short_by_a_close_says_what_went_in() {
    let (all, rest) = (numbers(ROUND_LIMIT + 2), VecDeque::from([ROUND_LIMIT, ROUND_LIMIT + 1]));
    closed_after_a_round(|s| {
        let mut from = all.clone();
        assert_eq!((s.try_send_many(&mut from), &from), (Ok(ROUND_LIMIT), &rest));
    });
    closed_after_a_round(|s| {
        let mut send = s.send_many(all.clone());
        assert_eq!(block_on(&mut send), Err(SendError(rest.clone())));
        assert_eq!(send.sent(), ROUND_LIMIT);
    });
    closed_after_a_round(|s| {
        assert_eq!(s.send_many_blocking(all.clone()), Err(SendError(rest.clone())));
    });
}

/// A waker that takes a message when it is woken, if there is one.
struct Takes(Receiver<usize>, AtomicUsize);

impl Wake for Takes {
    fn wake(self: Arc<Self>) {
        if let Ok(message) = self.0.try_recv() {
            self.1.store(message, Ordering::SeqCst);
        }
    }
}

#[test]
fn a_round_of_a_receive_of_many_ends_before_its_wakers_are_woken() {
    for receive in RECEIVES {
        let (s, r) = bounded(2 * ROUND_LIMIT);
        s.try_send_many(&mut numbers(2 * ROUND_LIMIT)).unwrap();
        let taker = Arc::new(Takes(r.clone(), AtomicUsize::new(0)));
        let mut send = Box::pin(s.send(0));
        assert!(poll_with(&mut send, &Waker::from(taker.clone())).is_pending());
        let mut into = Vec::new();
        assert_eq!(receive(&r, &mut into, ROUND_LIMIT + 1), ROUND_LIMIT + 1);
        assert_eq!(taker.1.load(Ordering::SeqCst), ROUND_LIMIT);
        assert!(into.into_iter().eq((0..ROUND_LIMIT).chain([ROUND_LIMIT + 1])));
    }
}

#[test]
fn a_send_of_many_goes_on_where_those_whom_it_wakes_make_room() {
    let sends: [fn(&Sender<usize>) -> usize; 2] = [
        |s| s.try_send_many(&mut numbers(5)).unwrap(),
        |s| {
            let mut send = s.send_many(0..5);
            assert_eq!(block_on(poll_once(&mut send)), None);
            send.sent()
        },
    ];
    for send in sends {
        let (s, r) = bounded(1);
        let waker = Waker::from(Arc::new(Takes(r.clone(), AtomicUsize::new(0))));
        let mut receives: Vec<_> = (0..3).map(|_| Box::pin(r.recv())).collect();
        for receive in &mut receives {
            assert!(poll_with(receive, &waker).is_pending());
        }
        assert_eq!((send(&s), r.try_recv()), (4, Ok(3)));
    }
}

/// A waker that panics when it is woken.
struct Fails;

impl Wake for Fails {
    fn wake(self: Arc<Self>) {
        panic!("woken");
    }
}

#[test]
fn a_waker_that_panics_loses_no_message_of_a_batch() {
    let (s, r) = bounded(2);
    let fails = Waker::from(Arc::new(Fails));
    let mut receive = Box::pin(r.recv());
    assert!(poll_with(&mut receive, &fails).is_pending());
    let mut from = numbers(3);
    assert!(catch_unwind(AssertUnwindSafe(|| s.try_send_many(&mut from))).is_err());
    assert_eq!((&from, s.len()), (&[2].into(), 2));
    let mut send = Box::pin(s.send(9));
    assert!(poll_with(&mut send, &fails).is_pending());
    let mut into = Vec::new();
    assert!(catch_unwind(AssertUnwindSafe(|| r.try_recv_many(&mut into, 2))).is_err());
    assert_eq!((&into, r.len()), (&vec![0, 1], 0));
    let mut receive = Box::pin(r.recv());
    assert!(poll_with(&mut receive, &fails).is_pending());
    let mut many = s.send_many(numbers(3));
    assert!(catch_unwind(AssertUnwindSafe(|| block_on(poll_once(&mut many)))).is_err());
    assert_eq!((many.sent(), many.into_unsent(), s.len()), (2, [2].into(), 2));
    let mut send = Box::pin(s.send(9));
    assert!(poll_with(&mut send, &fails).is_pending());
    assert!(catch_unwind(AssertUnwindSafe(|| block_on(r.recv_many(&mut into, 2)))).is_err());
    assert_eq!((into, r.len()), (vec![0, 1, 0, 1], 0));
}

#[test]
fn a_list_of_messages_may_use_the_channel() {
    let (s, r) = unbounded();
    let echo = std::iter::from_fn(|| r.try_recv().ok().map(|message: u8| message + 1));
    s.try_send_many(&mut [1, 2].into()).unwrap();
    assert_eq!(block_on(s.send_many(echo)), Ok(()));
    assert!(r.try_iter().eq([2, 3]));
}

#[test]
fn one_to_one_by_batches_in_order() {
    const COUNT: usize = 2_000;
    for (s, r) in [bounded(1), bounded(7), bounded(128), unbounded()] {
        for by_futures in [false, true] {
            let (s, r) = (s.clone(), r.clone());
            thread::scope(|scope| {
                let send = move |part: std::ops::Range<usize>| match by_futures {
                    true => block_on(s.send_many(part)),
                    false => s.send_many_blocking(part),
                };
                scope.spawn(move || {
                    for first in (0..COUNT).step_by(50) {
                        send(first..first + 50).unwrap();
                    }
                });
                let mut into = Vec::new();
                while into.len() < COUNT {
                    let count = match by_futures {
                        true => block_on(r.recv_many(&mut into, 32)),
                        false => r.recv_many_blocking(&mut into, 32),
                    };
                    assert!((1..=32).contains(&count));
                }
                assert!(into.into_iter().eq(0..COUNT));
            });
        }
    }
}

#[test]
fn many_to_many_by_batches_lose_nothing() {
    const SIDE: usize = 3;
    const EACH: usize = 1_000;
    for (s, r) in [bounded(1), bounded(20), unbounded()] {
        let taken: Vec<_> = (0..SIDE * EACH).map(|_| AtomicUsize::new(0)).collect();
        thread::scope(|scope| {
            for part in 0..SIDE {
                let (s, r, taken) = (s.clone(), r.clone(), &taken);
                scope.spawn(move || {
                    for first in (part * EACH..(part + 1) * EACH).step_by(100) {
                        s.send_many_blocking(first..first + 100).unwrap();
                    }
                });
                scope.spawn(move || receive_in_haste(&r, taken));
            }
            drop((s, r));
        });
        assert!(taken.iter().all(|times| times.load(Ordering::Relaxed) == 1));
    }
}

/// Takes all messages in batches. A receive whose first poll gives nothing is given up.
fn receive_in_haste(r: &Receiver<usize>, taken: &[AtomicUsize]) {
    let mut into = Vec::new();
    loop {
        let hasty = block_on(poll_once(r.recv_many(&mut into, 16)));
        if hasty.unwrap_or_else(|| r.recv_many_blocking(&mut into, 16)) == 0 {
            return;
        }
        for message in into.drain(..) {
            taken[message].fetch_add(1, Ordering::Relaxed);
        }
    }
}

#[test]
fn a_thread_that_sends_many_gets_the_rest_back_once_the_channel_is_closed() {
    let (s, r) = bounded(2);
    thread::scope(|scope| {
        let send = scope.spawn(move || s.send_many_blocking(0..9));
        assert_eq!(r.recv_blocking(), Ok(0));
        while r.len() < 2 {
            thread::yield_now();
        }
        // So that it blocks most likely.
        thread::sleep(Duration::from_millis(20));
        r.close();
        let left = send.join().unwrap().unwrap_err().into_inner();
        assert!(r.try_iter().chain(left).eq(1..9));
    });
}

#[test]
fn handles_and_lists_may_be_used_while_a_pending_operation_is_in_scope() {
    let (s, r) = unbounded::<u8>();
    let mut into = vec![1];
    {
        let mut receive = pin!(r.recv_many(&mut into, 1));
        assert!(poll_pinned(&mut receive, &Log::default().waker(0)).is_pending());
        into.push(2);
        drop(r);
        assert!(s.is_closed());
    }
    let (s, r) = bounded(1);
    {
        let mut send = pin!(s.send_many([1, 2]));
        assert!(poll_pinned(&mut send, &Log::default().waker(0)).is_pending());
        drop(s);
        assert!(r.is_closed());
    }
    assert_eq!((into, r.try_recv()), (vec![1, 2], Ok(1)));
}

/// Messages of which the third one can't be made.
fn fails_at_the_third(kept: &Arc<()>) -> impl Iterator<Item = Arc<()>> + '_ {
    (0..9).map(|number| {
        assert!(number < 2, "no message");
        kept.clone()
    })
}

#[test]
fn a_list_of_messages_that_panics_sends_none() {
    let (kept, (s, r)) = (Arc::new(()), unbounded());
    for one_at_most in [false, true] {
        let messages = || {
            let hint = if one_at_most { Some(1) } else { None };
            Hinted(fails_at_the_third(&kept), hint)
        };
        assert!(catch_unwind(AssertUnwindSafe(|| drop(s.send_many(messages())))).is_err());
        assert!(catch_unwind(AssertUnwindSafe(|| s.send_many_blocking(messages()))).is_err());
        assert_eq!((Arc::strong_count(&kept), r.len(), s.try_send(kept.clone())), (1, 0, Ok(())));
        assert!(r.try_recv().is_ok());
    }
}

/// Messages that say how many they are at the most.
struct Hinted<I>(I, Option<usize>);

impl<I: Iterator> Iterator for Hinted<I> {
    type Item = I::Item;

    fn next(&mut self) -> Option<I::Item> {
        self.0.next()
    }

    fn size_hint(&self) -> (usize, Option<usize>) {
        (0, self.1)
    }
}

#[test]
fn an_iterator_promises_no_message() {
    let (s, r) = unbounded();
    for count in [0, 1, 3] {
        s.try_send_many(&mut numbers(count)).unwrap();
        assert_eq!(r.try_iter().size_hint(), (0, None));
    }
}

#[test]
fn traits_and_texts() {
    fn can_all<T: Send + Sync + Unpin>(_: &T) {}
    let ((s, r), mut into) = (unbounded::<u8>(), Vec::new());
    let (send, iter): (SendMany<'_, u8>, TryIter<'_, u8>) = (s.send_many([1]), r.try_iter());
    let receive: RecvMany<'_, u8> = r.recv_many(&mut into, 1);
    can_all(&send);
    can_all(&receive);
    can_all(&iter);
    let texts = format!("{send:?} {receive:?} {iter:?}");
    assert_eq!(texts, "SendMany { .. } RecvMany { .. } TryIter { .. }");
    assert_eq!(format!("{send:#?} {receive:#?} {iter:#?}"), texts);
    assert_eq!(format!("{send:>30?} {receive:>30?} {iter:>30?}"), texts);
    /// A message that isn't asked for a text or a copy.
    struct Plain;
    let ((s, r), mut into) = (unbounded(), Vec::new());
    let texts = (format!("{:?}", s.send_many([Plain])), format!("{:?}", r.try_iter()));
    assert_eq!(texts, ("SendMany { .. }".to_owned(), "TryIter { .. }".to_owned()));
    assert_eq!(format!("{:?}", r.recv_many(&mut into, 1)), "RecvMany { .. }");
}

/// How many messages a poll of a batch moves before it lets other tasks run.
const POLL_LIMIT: usize = 8 * ROUND_LIMIT;

#[test]
fn a_send_of_very_many_lets_others_run() {
    let (s, r) = unbounded();
    let mut send = Task::new(s.send_many(0..3 * POLL_LIMIT));
    for polls in 1..=2 {
        assert!(send.poll().is_pending());
        assert_eq!((r.len(), send.woken()), (polls * POLL_LIMIT, polls));
    }
    assert_eq!((send.poll(), r.len(), send.woken()), (Poll::Ready(Ok(())), 3 * POLL_LIMIT, 2));
    assert!(r.try_iter().eq(0..3 * POLL_LIMIT));
}

#[test]
fn a_receive_of_very_many_lets_others_run() {
    let (s, r) = unbounded();
    s.send_many_blocking(0..3 * POLL_LIMIT + 1).unwrap();
    let mut into = Vec::new();
    let mut receive = Task::new(r.recv_many(&mut into, 3 * POLL_LIMIT - 1));
    for polls in 1..=2 {
        assert!(receive.poll().is_pending());
        assert_eq!((s.len(), receive.woken()), ((3 - polls) * POLL_LIMIT + 1, polls));
    }
    assert_eq!(receive.poll(), Poll::Ready(3 * POLL_LIMIT - 1));
    // It is a new receive from here on.
    assert_eq!((receive.poll(), receive.woken()), (Poll::Ready(2), 2));
    assert!(receive.poll().is_pending());
    drop(receive);
    assert!(into.into_iter().eq(0..=3 * POLL_LIMIT));
}

#[test]
fn a_receive_of_very_many_that_is_dropped_leaves_what_came_in_the_list() {
    let (s, r) = unbounded();
    s.send_many_blocking(0..2 * POLL_LIMIT).unwrap();
    let mut into = Vec::new();
    assert!(Task::new(r.recv_many(&mut into, usize::MAX)).poll().is_pending());
    assert!(into.into_iter().chain(r.try_iter()).eq(0..2 * POLL_LIMIT));
}
