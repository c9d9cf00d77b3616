//! The lines alone: boxes in threads, and peers that misbehave byte by byte.

use std::{
    io::{Read, Write},
    net::{SocketAddr, TcpListener, TcpStream},
    thread,
    time::{Duration, Instant},
};

use nuzsdike_host::{
    transport::{head, read_head, Cause, LineError, Lines, Notice, Place, Trouble, Who, DONE, END, HEAD, HELLO, MESSAGE},
    Reason,
};

const TIMEOUT: Duration = Duration::from_millis(1500);
const ID: [u8; 16] = [7; 16];

fn who(n: usize, i: usize) -> Who {
    Who { n, i, l: 5, id: ID }
}

fn listeners(n: usize) -> (Vec<TcpListener>, Vec<SocketAddr>) {
    let listeners: Vec<_> = (0..n).map(|_| TcpListener::bind("127.0.0.1:0").unwrap()).collect();
    let addresses = listeners.iter().map(|listener| listener.local_addr().unwrap()).collect();
    (listeners, addresses)
}

/// Runs `each` for every box on a thread of its own.
fn boxes<T: Send>(n: usize, each: impl Fn(usize, Result<Lines, LineError>) -> T + Sync) -> Vec<T> {
    let (listeners, addresses) = listeners(n);
    thread::scope(|scope| {
        let start = |(i, listener): (usize, TcpListener)| {
            let (each, addresses) = (&each, &addresses);
            scope.spawn(move || each(i, Lines::connect(who(n, i), &listener, addresses, TIMEOUT)))
        };
        let threads: Vec<_> = listeners.into_iter().enumerate().map(start).collect();
        threads.into_iter().map(|thread| thread.join().unwrap()).collect()
    })
}

fn exchange(lines: &mut Lines, round: usize, messages: &[Vec<u8>], room: usize) -> Result<Vec<Vec<u8>>, LineError> {
    let outgoing: Vec<&[u8]> = messages.iter().map(|message| &message[..]).collect();
    let mut rooms = vec![vec![0; room]; messages.len()];
    let mut slots: Vec<&mut [u8]> = rooms.iter_mut().map(|room| &mut room[..]).collect();
    let lens = lines.exchange(round, &outgoing, &mut slots, &mut |_, _| ())?;
    rooms.iter_mut().zip(lens).for_each(|(room, len)| room.truncate(len));
    Ok(rooms)
}

/// Box 0 of two against `peer`, which has said hello as box 1 and then does as it likes. Gives what one round's exchange says to box 0.
fn against(round: usize, outgoing: Vec<u8>, peer: impl FnOnce(TcpStream) + Send) -> Result<Vec<Vec<u8>>, LineError> {
    let (listeners, addresses) = listeners(1);
    let begin = Instant::now();
    let result = thread::scope(|scope| {
        scope.spawn(|| {
            let mut stream = TcpStream::connect(addresses[0]).unwrap();
            stream.write_all(&who(2, 1).to_bytes()).unwrap();
            let mut hello = [0; HELLO];
            stream.read_exact(&mut hello).unwrap();
            assert_eq!(Who::from_bytes(&hello), Some(who(2, 0)));
            peer(stream);
        });
        let mut lines = Lines::connect(who(2, 0), &listeners[0], &[addresses[0], addresses[0]], TIMEOUT).unwrap();
        let result = exchange(&mut lines, round, &[vec![], outgoing], 100);
        if let Err(error) = &result {
            lines.end(error.notice(0));
        }
        result
    });
    assert!(begin.elapsed() < 2 * TIMEOUT, "it took {:?}", begin.elapsed());
    result
}

fn trouble(result: Result<Vec<Vec<u8>>, LineError>, round: usize) -> Trouble {
    let error = result.expect_err("an error");
    assert_eq!((error.peer, error.place), (Some(1), Place::Round(round)));
    assert!(error.to_string().starts_with(&format!("line to box 1 failed in round {round} (")), "{error}");
    error.trouble
}

/// Reads until the other end hangs up, so that it is not us who does.
fn drain(mut stream: TcpStream) {
    let _ = std::io::copy(&mut stream, &mut std::io::sink());
}

#[test]
fn messages_arrive_and_boxes_close() {
    for n in [2, 3, 8] {
        let results = boxes(n, |i, lines| {
            let mut lines = lines?;
            for round in 1..=3 {
                let messages: Vec<Vec<u8>> = (0..n).map(|k| vec![(16 * i + k) as u8; 10 * round + k]).collect();
                let got = exchange(&mut lines, round, &messages, 100)?;
                for (k, message) in got.iter().enumerate().filter(|(k, _)| *k != i) {
                    assert_eq!(*message, vec![(16 * k + i) as u8; 10 * round + i]);
                }
            }
            lines.close()
        });
        assert_eq!(results, vec![Ok(()); n]);
    }
}

/// Every box sends far more than a line holds before anyone reads: nobody may wait for the others to read first.
#[test]
fn long_messages_do_not_lock_up() {
    let len = 8 << 20;
    let results = boxes(3, |i, lines| {
        let mut lines = lines?;
        let got = exchange(&mut lines, 17, &vec![vec![i as u8; len]; 3], len)?;
        for (k, message) in got.iter().enumerate().filter(|(k, _)| *k != i) {
            assert!(message.len() == len && message.iter().all(|byte| *byte == k as u8));
        }
        lines.close()
    });
    assert_eq!(results, vec![Ok(()); 3]);
}

#[test]
fn an_empty_message_arrives() {
    let got = against(3, vec![], |mut stream| {
        stream.write_all(&head(MESSAGE, 3, 0)).unwrap();
        drain(stream);
    });
    assert_eq!(got.unwrap()[1], vec![]);
}

#[test]
fn a_message_of_the_next_round_can_wait() {
    let got = against(3, vec![1], |mut stream| {
        stream.write_all(&[&head(MESSAGE, 3, 1)[..], &[9], &head(MESSAGE, 4, 1), &[8]].concat()).unwrap();
        drain(stream);
    });
    assert_eq!(got.unwrap()[1], vec![9]);
}

#[test]
fn a_peer_that_hangs_up_is_named() {
    assert_eq!(trouble(against(6, vec![], drop), 6), Trouble::Closed { got: 0, want: 0 });
    let half = against(6, vec![], |mut stream| stream.write_all(&[&head(MESSAGE, 6, 50)[..], &[1; 20]].concat()).unwrap());
    assert_eq!(trouble(half, 6), Trouble::Closed { got: 20, want: 50 });
    let head_only = against(6, vec![], |mut stream| stream.write_all(&head(MESSAGE, 6, 50)[..5]).unwrap());
    assert_eq!(trouble(head_only, 6), Trouble::Closed { got: 5, want: 0 });
}

#[test]
fn a_silent_peer_is_named_in_time() {
    let silent = trouble(against(8, vec![], drain), 8);
    assert!(matches!(silent, Trouble::Silent { got: 0, want: 0, waited } if waited >= TIMEOUT), "{silent:?}");
    let half = against(8, vec![], |mut stream| {
        stream.write_all(&[&head(MESSAGE, 8, 50)[..], &[1; 20]].concat()).unwrap();
        drain(stream);
    });
    let half = trouble(half, 8);
    assert!(matches!(half, Trouble::Silent { got: 20, want: 50, .. }), "{half:?}");
}

/// A byte now and then does not put the end off.
#[test]
fn a_trickling_peer_is_named_in_time() {
    let trickle = against(8, vec![], |mut stream| {
        stream.write_all(&head(MESSAGE, 8, 90)).unwrap();
        while stream.write_all(&[0]).is_ok() {
            thread::sleep(Duration::from_millis(100));
        }
    });
    let trickle = trouble(trickle, 8);
    assert!(matches!(trickle, Trouble::Silent { got, want: 90, .. } if got > 5 && got < 30), "{trickle:?}");
}

/// It sends what is due, and takes nothing.
#[test]
fn a_peer_that_does_not_read_is_named_in_time() {
    let result = against(15, vec![0; 64 << 20], |mut stream| {
        stream.write_all(&head(MESSAGE, 15, 0)).unwrap();
        thread::sleep(TIMEOUT + Duration::from_millis(300));
    });
    let trouble = trouble(result, 15);
    assert!(matches!(trouble, Trouble::NotTaken { .. }), "{trouble:?}");
}

#[test]
fn a_frame_that_is_too_long_is_refused_by_its_head() {
    let long = against(10, vec![], |mut stream| {
        stream.write_all(&head(MESSAGE, 10, 101)).unwrap();
        drain(stream);
    });
    assert_eq!(trouble(long, 10), Trouble::TooLong { len: 101, most: 100 });
    let longest = against(10, vec![], |mut stream| {
        stream.write_all(&head(MESSAGE, 10, u32::MAX as usize)).unwrap();
        drain(stream);
    });
    assert_eq!(trouble(longest, 10), Trouble::TooLong { len: u32::MAX as usize, most: 100 });
}

#[test]
fn garbage_is_refused() {
    for garbage in [*b"GET / HT", [0; HEAD], *b"NZ\x00\x0a\0\0\0\0", *b"NZ\x04\x0a\0\0\0\0", *b"NZ\x03\x0a\x04\0\0\0"] {
        let result = against(10, vec![], |mut stream| {
            stream.write_all(&garbage).unwrap();
            drain(stream);
        });
        assert_eq!(trouble(result, 10), Trouble::Garbage(garbage));
    }
}

#[test]
fn a_message_of_another_round_is_refused() {
    for (kind, round, at) in [(MESSAGE, 9, Place::Round(9)), (MESSAGE, 11, Place::Round(11)), (DONE, 255, Place::Closing)] {
        let result = against(10, vec![], |mut stream| {
            stream.write_all(&head(kind, round, 0)).unwrap();
            drain(stream);
        });
        assert_eq!(trouble(result, 10), Trouble::OutOfStep { at });
    }
}

#[test]
fn a_notice_is_passed_on() {
    let notices = [
        ([1, 9, 1, 7, 2], Notice { origin: 1, place: Place::Round(9), cause: Cause::Refusal(Reason(7), 2) }),
        ([4, 0, 2, 0, 255], Notice { origin: 4, place: Place::Hello, cause: Cause::Line(None) }),
        ([1, 255, 2, 0, 3], Notice { origin: 1, place: Place::Closing, cause: Cause::Line(Some(3)) }),
        ([1, 3, 3, 0, 255], Notice { origin: 1, place: Place::Round(3), cause: Cause::Host }),
    ];
    for (bytes, notice) in notices {
        let result = against(10, vec![], |mut stream| {
            stream.write_all(&[&head(END, 10, 5)[..], &bytes].concat()).unwrap();
            drain(stream);
        });
        assert_eq!(trouble(result, 10), Trouble::Ended(notice));
    }
}

/// Who ends early tells why, as a frame, and hangs up.
#[test]
fn a_box_that_ends_says_why() {
    let mut heard = vec![];
    let _ = against(12, vec![5], |mut stream| {
        let mut message = [0; HEAD + 1];
        stream.read_exact(&mut message).unwrap();
        assert_eq!((read_head(message.first_chunk().unwrap()), message[HEAD]), (Some((MESSAGE, 12, 1)), 5));
        stream.write_all(&head(MESSAGE, 13, 0)).unwrap();
        stream.read_to_end(&mut heard).unwrap();
    });
    assert_eq!(read_head(heard.first_chunk().unwrap()), Some((END, 12, 5)));
    assert_eq!(heard[HEAD..], [0, 12, 2, 0, 1]);
}

/// With three boxes, one of which goes away after round 1: both others end, and name it or each other.
#[test]
fn when_one_box_goes_away_all_end() {
    let results = boxes(3, |i, lines| {
        let mut lines = lines?;
        for round in 1..=5 {
            if i == 1 && round == 2 {
                return Ok(());
            }
            if let Err(error) = exchange(&mut lines, round, &vec![vec![1; 30]; 3], 30) {
                lines.end(error.notice(i));
                return Err(error);
            }
        }
        panic!("a round without box 1");
    });
    for i in [0, 2] {
        let error = results[i].clone().unwrap_err();
        // It may be seen while the other one's message of round 1 is still awaited.
        assert!([Place::Round(1), Place::Round(2)].contains(&error.place), "{error}");
        let gone = matches!(error.trouble, Trouble::Closed { .. }) && error.peer == Some(1);
        let told = matches!(error.trouble, Trouble::Ended(Notice { cause: Cause::Line(Some(1)), .. }));
        assert!(gone || told, "{error}");
    }
}

/// A box that fails after the last round: nobody closes well.
#[test]
fn closing_takes_all() {
    let results = boxes(3, |i, lines| {
        let mut lines = lines?;
        exchange(&mut lines, 22, &vec![vec![1; 30]; 3], 30)?;
        if i == 2 {
            lines.end(Notice { origin: 2, place: Place::Round(22), cause: Cause::Refusal(Reason(12), 0) });
            return Ok(());
        }
        lines.close()
    });
    for i in [0, 1] {
        let error = results[i].clone().unwrap_err();
        assert_eq!(error.place, Place::Closing);
        assert!(matches!(error.trouble, Trouble::Ended(_)), "{error}");
    }
}

// ---- hello

/// Box 0 of n, called by those that say these hellos; what it makes of them.
fn greeted(n: usize, hellos: &[Vec<u8>]) -> Result<(), LineError> {
    let (listeners, addresses) = listeners(1);
    let begin = Instant::now();
    let result = thread::scope(|scope| {
        for (turn, hello) in hellos.iter().enumerate() {
            let address = addresses[0];
            scope.spawn(move || {
                thread::sleep(Duration::from_millis(60) * turn as u32);
                let mut stream = TcpStream::connect(address).unwrap();
                stream.write_all(hello).unwrap();
                drain(stream);
            });
        }
        Lines::connect(who(n, 0), &listeners[0], &vec![addresses[0]; n], TIMEOUT).map(drop)
    });
    assert!(begin.elapsed() < 2 * TIMEOUT, "it took {:?}", begin.elapsed());
    result
}

fn hello_trouble(result: Result<(), LineError>, peer: usize) -> Trouble {
    let error = result.expect_err("an error");
    assert_eq!((error.peer, error.place), (Some(peer), Place::Hello));
    error.trouble
}

#[test]
fn boxes_that_disagree_are_refused() {
    let ours = who(3, 0);
    for (on, theirs) in [
        ("n", Who { i: 1, n: 4, ..ours }),
        ("l", Who { i: 1, l: 6, ..ours }),
        ("the session", Who { i: 1, id: [8; 16], ..ours }),
        // n comes first
        ("n", Who { i: 1, n: 2, l: 6, id: [8; 16] }),
    ] {
        let trouble = hello_trouble(greeted(3, &[theirs.to_bytes().to_vec()]), 1);
        assert!(matches!(trouble, Trouble::Disagrees { on: what, .. } if what == on), "{trouble:?}");
    }
}

#[test]
fn a_number_is_taken_once() {
    let hello = |i| who(3, i).to_bytes().to_vec();
    assert_eq!(hello_trouble(greeted(3, &[hello(1), hello(1)]), 1), Trouble::SameNumber);
    assert_eq!(hello_trouble(greeted(3, &[hello(0)]), 0), Trouble::SameNumber);
    assert_eq!(hello_trouble(greeted(3, &[hello(3)]), 3), Trouble::OtherNumber { says: 3 });
}

#[test]
fn strangers_are_passed_over() {
    let hello = |i| who(3, i).to_bytes().to_vec();
    // Garbage, silence, and half a hello: the boxes get through.
    assert_eq!(greeted(3, &[b"GET / HTTP/1.1\r\n\r\n".repeat(9), vec![], hello(2)[..40].to_vec(), hello(1), hello(2)]), Ok(()));
    let trouble = hello_trouble(greeted(3, &[vec![0; HELLO], hello(1)]), 2);
    assert!(matches!(trouble, Trouble::NeverCalled { strangers: 1, .. }), "{trouble:?}");
}

#[test]
fn a_box_that_nobody_calls_ends_in_time() {
    let trouble = hello_trouble(greeted(3, &[]), 1);
    assert!(matches!(trouble, Trouble::NeverCalled { strangers: 0, .. }), "{trouble:?}");
}

/// Box 1 of two, calling someone who answers like this.
fn calling(answer: impl FnOnce(TcpStream) + Send) -> LineError {
    let (listeners, addresses) = listeners(2);
    thread::scope(|scope| {
        scope.spawn(|| answer(listeners[0].accept().unwrap().0));
        Lines::connect(who(2, 1), &listeners[1], &addresses, TIMEOUT).map(drop).unwrap_err()
    })
}

#[test]
fn the_box_called_has_to_be_the_one() {
    let other = calling(|mut stream| {
        stream.write_all(&Who { i: 1, ..who(2, 0) }.to_bytes()).unwrap();
        drain(stream);
    });
    assert_eq!(other.trouble, Trouble::SameNumber);
    let wrong = calling(|mut stream| {
        stream.write_all(&[b'x'; HELLO]).unwrap();
        drain(stream);
    });
    assert_eq!((wrong.peer, wrong.trouble), (Some(0), Trouble::NoHello));
    let gone = calling(drop);
    assert!(matches!(gone.trouble, Trouble::Closed { got: 0, .. } | Trouble::Broken(_)), "{gone}");
    let silent = calling(drain);
    assert!(matches!(silent.trouble, Trouble::Silent { got: 0, want: HELLO, .. }), "{silent}");
}

#[test]
fn a_box_that_is_not_there_is_named() {
    let (mut listeners, addresses) = listeners(2);
    let own = listeners.pop().unwrap();
    drop(listeners);
    let begin = Instant::now();
    let error = Lines::connect(who(2, 1), &own, &addresses, TIMEOUT).map(drop).unwrap_err();
    assert_eq!(error.peer, Some(0));
    assert!(matches!(error.trouble, Trouble::Unreachable { .. }), "{error}");
    assert!(begin.elapsed() < 2 * TIMEOUT);
}

/// A box that starts a little later is waited for.
#[test]
fn a_late_box_is_waited_for() {
    let (mut listeners, addresses) = listeners(2);
    let own = listeners.pop().unwrap();
    drop(listeners);
    thread::scope(|scope| {
        scope.spawn(|| {
            thread::sleep(Duration::from_millis(300));
            let listener = TcpListener::bind(addresses[0]).unwrap();
            Lines::connect(who(2, 0), &listener, &addresses, TIMEOUT).map(drop).unwrap();
        });
        Lines::connect(who(2, 1), &own, &addresses, TIMEOUT).map(drop).unwrap();
    });
}
