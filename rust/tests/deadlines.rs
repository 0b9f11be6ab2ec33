//! Calls that block for so long at the most: what they answer, and that one whose time is over leaves
//! nothing behind. How long they take isn't tested.

mod support;

use std::rc::Rc;
use std::thread;
use std::time::{Duration, Instant};

use support::{ends, Task};
use vamorilesh::{bounded, unbounded, RecvError, RecvTimeoutError, SendError, SendTimeoutError};

const SHORT: Duration = Duration::from_millis(20);
/// Nobody waits so long: the call ends by what comes meanwhile.
const LONG: Duration = Duration::from_secs(600);

#[test]
fn what_goes_on_at_once_goes_on_also_if_the_time_is_over() {
    ends(|| {
        let over = Instant::now();
        let (s, r) = bounded(2);
        assert_eq!(s.send_deadline(1, over), Ok(()));
        assert_eq!(s.send_timeout(2, Duration::ZERO), Ok(()));
        assert_eq!(s.send_deadline(3, over), Err(SendTimeoutError::Timeout(3)));
        assert_eq!(r.recv_deadline(over), Ok(1));
        assert_eq!(r.recv_timeout(Duration::ZERO), Ok(2));
        assert_eq!(r.recv_deadline(over), Err(RecvTimeoutError::Timeout));
    });
}

#[test]
fn the_message_of_a_send_comes_back() {
    ends(|| {
        let (s, r) = bounded(1);
        s.try_send(Rc::new(1)).unwrap();
        let message = Rc::new(2);
        assert_eq!(
            s.send_timeout(message.clone(), SHORT),
            Err(SendTimeoutError::Timeout(message.clone()))
        );
        assert_eq!(Rc::strong_count(&message), 1);
        s.close();
        let closed = s.send_timeout(message.clone(), LONG);
        assert_eq!(closed, Err(SendTimeoutError::Disconnected(message)));
        assert_eq!(r.recv_timeout(LONG), Ok(Rc::new(1)));
        assert_eq!(r.recv_timeout(LONG), Err(RecvTimeoutError::Disconnected));
    });
}

#[test]
fn one_whose_time_is_over_takes_no_notice_from_the_next() {
    ends(|| {
        let (s, r) = bounded(1);
        assert_eq!(r.recv_timeout(SHORT), Err(RecvTimeoutError::Timeout));
        let mut receive = Task::new(r.recv());
        assert!(receive.poll().is_pending());
        s.try_send(1).unwrap();
        assert_eq!(receive.woken(), 1);

        assert!(s.send_timeout(2, SHORT).unwrap_err().is_timeout());
        let mut send = Task::new(s.send(3));
        assert!(send.poll().is_pending());
        assert!(receive.poll().is_ready());
        assert_eq!(send.woken(), 1);
        assert!(send.poll().is_ready());
        assert_eq!(r.recv_timeout(LONG), Ok(3));
    });
}

#[test]
fn what_comes_in_time_is_taken() {
    ends(|| {
        // The longest time of all is no end.
        for timeout in [LONG, Duration::MAX] {
            let (s, r) = bounded(1);
            let (back_s, back_r) = bounded(1);
            let other = thread::spawn(move || {
                thread::sleep(SHORT);
                assert_eq!(s.send_timeout(1, timeout), Ok(()));
                assert_eq!(s.send_timeout(2, timeout), Ok(()));
                assert_eq!(back_r.recv_timeout(timeout), Ok(()));
                thread::sleep(SHORT);
            });
            assert_eq!(r.recv_timeout(timeout), Ok(1));
            thread::sleep(SHORT);
            assert_eq!(r.recv_timeout(timeout), Ok(2));
            assert_eq!(back_s.send_timeout((), timeout), Ok(()));
            // What wakes now is that the last sender goes.
            assert_eq!(r.recv_timeout(timeout), Err(RecvTimeoutError::Disconnected));
            other.join().unwrap();
        }
    });
}

#[test]
fn a_thread_blocks_without_an_end_after_one_that_had_an_end() {
    ends(|| {
        let (s, r) = unbounded();
        assert_eq!(r.recv_timeout(SHORT), Err(RecvTimeoutError::Timeout));
        let other = thread::spawn(move || {
            thread::sleep(2 * SHORT);
            s.try_send(1)
        });
        assert_eq!(r.recv_blocking(), Ok(1));
        assert_eq!(other.join().unwrap(), Ok(()));
    });
}

#[test]
fn errors_of_calls_without_an_end_are_those_of_a_closed_channel() {
    assert_eq!(SendTimeoutError::from(SendError(1)), SendTimeoutError::Disconnected(1));
    assert_eq!(RecvTimeoutError::from(RecvError), RecvTimeoutError::Disconnected);
}
