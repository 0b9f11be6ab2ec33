//! Requests and answers: each request carries the sender for its answer. The server waits for a
//! request and for its stop at once.

use std::thread;

use futures_lite::future::{block_on, or};
use vamorilesh::{bounded, Receiver, Sender};

/// A number, and the way back for its square.
struct Request {
    number: u64,
    answer: Sender<u64>,
}

/// Answers until the server is stopped, or nobody can ask any more.
async fn serve(requests: Receiver<Request>, stop: Receiver<()>) {
    let next = || {
        or(async { requests.recv().await.ok() }, async {
            // An error: whoever could stop the server dropped its sender, which stops it.
            let _ = stop.recv().await;
            None
        })
    };
    while let Some(Request { number, answer }) = next().await {
        // An error if whoever asked is gone. Then nobody misses the answer.
        let _ = answer.send(number * number).await;
    }
}

/// Asks, and answers `None` if the server has ended.
fn ask(server: &Sender<Request>, number: u64) -> Option<u64> {
    let (answer, answers) = bounded(1);
    server.send_blocking(Request { number, answer }).ok()?;
    answers.recv_blocking().ok()
}

fn main() {
    let (server, requests) = bounded(4);
    let (stop, stopped) = bounded(1);
    let serving = thread::spawn(move || block_on(serve(requests, stopped)));

    let clients = [2, 3, 4].map(|number| {
        let server = server.clone();
        thread::spawn(move || ask(&server, number))
    });
    let answers = clients.map(|client| client.join().unwrap());
    assert_eq!(answers, [Some(4), Some(9), Some(16)]);

    // Its receiver goes when the server ends: whoever asks now gets the request back.
    drop(stop);
    serving.join().unwrap();
    assert_eq!(ask(&server, 5), None);
    println!("all requests were answered");
}
