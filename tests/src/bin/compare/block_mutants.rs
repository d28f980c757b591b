//! Wrong variants of the blocks: of which one is taken and by whom, of what gives them back, of what is
//! done when none is free, and of the blocks in a lent state.

use crate::entry_points::{receive, Arrival, Receive};
use crate::mutants::{edit, edit_session, tail};
use reference::blocks::{lowest_free, needed, BLOCK, BLOCKS};
use reference::entry::hand_over;
use reference::frame::{priority_of, Stream};
use reference::receive::{Answer, Receiver, Transfer, PLACES};
use reference::session::{Piece, Session, Step, TIMEOUT};
use reference::state::{self, free_blocks, get_u32, get_u64, list_at, put_u64, FREE};

pub const ALL: [(&str, Receive); 32] = [
    ("highest-free-block", highest_free_block),
    ("block-kept-at-1", |call| kept(call, |word| word & 255 == 1)),
    ("block-kept-at-11", |call| kept(call, |word| word == 11)),
    ("block-kept-at-12", |call| kept(call, |word| word == 12)),
    ("block-kept-at-26", |call| kept(call, |word| word == 26)),
    ("block-kept-at-restart", |call| {
        kept(call, |word| matches!(word, 0 | 30))
    }),
    ("block-kept-by-lost-place", block_kept_by_lost_place),
    ("block-kept-by-emptied", block_kept_by_emptied),
    ("single-frame-takes-block", single_frame_takes_block),
    ("single-frame-empties", single_frame_empties),
    ("empties-at-two-seconds", |call| {
        emptied_before_26(call, |session, time| session.age(time) >= TIMEOUT)
    }),
    ("empties-all", |call| emptied_before_26(call, |_, _| true)),
    ("empties-one", empties_one),
    ("empties-with-nothing-in-hand", empties_with_nothing_in_hand),
    ("empties-with-blocks-free", empties_with_blocks_free),
    ("emptied-keeps-id", |call| {
        emptied_as(call, |after, before| after.expected_id = before.expected_id)
    }),
    ("emptied-sets-time", emptied_sets_time),
    ("emptied-loses-place", emptied_loses_place),
    ("26-before-11", no_block_before_too_long),
    ("12-before-26", checksum_before_no_block),
    ("end-needs-no-block", end_needs_no_block),
    ("end-writes-block", end_writes_block),
    ("26-takes-no-place", no_block_takes_no_place),
    ("26-keeps-time", |call| {
        no_block_leaves(call, |after, before| after.time = before.time)
    }),
    ("26-keeps-id", no_block_keeps_id),
    ("26-keeps-bytes", no_block_keeps_bytes),
    ("lost-place-freed-late", |call| freed_late(call, false)),
    ("restart-freed-late", |call| freed_late(call, true)),
    ("state-block-in-two-sessions", |call| {
        repaired(call, tell_apart)
    }),
    ("state-block-free-and-held", |call| {
        repaired(call, |state| set_free(state, |free, held| free & !held))
    }),
    ("state-block-too-many", |call| {
        repaired(call, |state| set_free(state, |free, held| free | !held))
    }),
    ("state-block-over-63", |call| repaired(call, below_64)),
];

/// A call that was received rightly: what it found, what it answered, what it left.
struct Done {
    bytes: Vec<u8>,
    out: Vec<u8>,
    before: Receiver,
    word: u64,
    after: Receiver,
    /// The place of the frame's stream, before and after.
    found: Option<usize>,
    left: Option<usize>,
}

/// Receives rightly. Then `wrong` may alter what was left, and gives the word if that is another one.
/// A state at fault is none of its business.
fn rightly(call: &mut Arrival, wrong: impl FnOnce(&mut Arrival, &Done) -> Option<u64>) -> u64 {
    let (bytes, out) = (call.state.content().to_vec(), call.out.content().to_vec());
    let word = receive(call);
    let receivers = (state::read(&bytes), state::read(call.state.content()));
    let (Some(before), Some(after)) = receivers else {
        return word;
    };
    let stream = Stream::of_id(call.id);
    let done = Done {
        found: before.place_of(&stream),
        left: after.place_of(&stream),
        bytes,
        out,
        before,
        word,
        after,
    };
    wrong(call, &done).unwrap_or(word)
}

impl Done {
    /// The frame's session as it was.
    fn session(&self) -> Option<&Session> {
        self.before.places[self.found?].as_ref()
    }

    fn none_free(&self) -> bool {
        lowest_free(&self.before.places).is_none()
    }

    /// The places of other streams that were emptied.
    fn emptied(&self) -> Vec<usize> {
        let emptied = |place: &usize| {
            let sessions = (&self.before.places[*place], &self.after.places[*place]);
            let (Some(before), Some(after)) = sessions else {
                return false;
            };
            let kept = before.stream == after.stream && self.left != Some(*place);
            kept && !before.gathered.is_empty() && after.gathered.is_empty()
        };
        (0..PLACES).filter(emptied).collect()
    }

    /// Whether a session in another place is old and has bytes in hand.
    fn old_in_hand(&self, time: u64) -> bool {
        let others = (0..PLACES).filter(|&place| self.left != Some(place));
        let mut sessions = others.filter_map(|place| self.before.places[place].as_ref());
        sessions.any(|one| one.is_old(time) && !one.gathered.is_empty())
    }

    /// Undoes all, and receives after a change.
    fn again(&self, call: &mut Arrival, change: impl FnOnce(&mut Receiver)) -> u64 {
        call.state.content_mut().copy_from_slice(&self.bytes);
        call.out.content_mut().copy_from_slice(&self.out);
        edit(call, change);
        receive(call)
    }
}

/// The blocks of a session as bits.
fn bits(session: Option<&Session>) -> u64 {
    let blocks = session.into_iter().flat_map(|one| &one.blocks);
    blocks.map(|block| 1 << block).sum()
}

fn highest_free_block(call: &mut Arrival) -> u64 {
    rightly(call, |call, done| {
        let free = free_blocks(&done.after.places);
        let had = bits(done.session());
        edit_session(call, |session| {
            if let (Some(last), true) = (session.blocks.last_mut(), free != 0) {
                let highest = (u64::BITS - 1 - free.leading_zeros()) as u8;
                if had >> *last & 1 == 0 {
                    *last = highest.max(*last);
                }
            }
        });
        None
    })
}

/// Marks free blocks as held.
fn keep(call: &mut Arrival, blocks: u64) {
    let state = call.state.content_mut();
    let free = get_u64(state, FREE);
    put_u64(state, FREE, free & !blocks);
}

/// Keeps the blocks that the frame's session gave back at an answer.
fn kept(call: &mut Arrival, when: fn(u64) -> bool) -> u64 {
    rightly(call, |call, done| {
        if let (true, Some(session), Some(left)) = (when(done.word), done.session(), done.left) {
            keep(
                call,
                bits(Some(session)) & !bits(done.after.places[left].as_ref()),
            );
        }
        None
    })
}

fn block_kept_by_lost_place(call: &mut Arrival) -> u64 {
    rightly(call, |call, done| {
        if let (None, Some(place)) = (done.found, done.left) {
            let [before, after] = [&done.before, &done.after].map(|one| one.places[place].as_ref());
            keep(call, bits(before) & !bits(after));
        }
        None
    })
}

fn block_kept_by_emptied(call: &mut Arrival) -> u64 {
    rightly(call, |call, done| {
        let free = free_blocks(&done.after.places);
        for place in done.emptied() {
            keep(call, bits(done.before.places[place].as_ref()) & free);
        }
        None
    })
}

/// Whether the frame is a transfer of its own, handed out by a session while no block was free.
fn single_without_block(call: &Arrival, done: &Done) -> bool {
    let handed_out = done.word & 255 == 1 && done.left.is_some();
    handed_out && tail(call).is_single() && done.none_free() && bits(done.session()) == 0
}

fn single_frame_takes_block(call: &mut Arrival) -> u64 {
    rightly(call, |call, done| {
        if !single_without_block(call, done) || done.old_in_hand(call.time) {
            return None;
        }
        call.out.content_mut().copy_from_slice(&done.out);
        Some(26)
    })
}

fn single_frame_empties(call: &mut Arrival) -> u64 {
    rightly(call, |call, done| {
        let time = call.time;
        if single_without_block(call, done) {
            edit(call, |receiver| empty(receiver, |one| one.is_old(time)));
        }
        None
    })
}

/// Empties sessions with bytes in hand.
fn empty(receiver: &mut Receiver, which: impl Fn(&Session) -> bool) {
    let sessions = receiver.places.iter_mut().flatten();
    for session in sessions.filter(|one| !one.gathered.is_empty() && which(one)) {
        session.end();
    }
}

/// Where 26 is due, empties other sessions and receives once more.
fn emptied_before_26(call: &mut Arrival, which: fn(&Session, u64) -> bool) -> u64 {
    rightly(call, |call, done| {
        let (time, stream) = (call.time, Stream::of_id(call.id));
        let others = |one: &Session| one.stream != stream && which(one, time);
        (done.word == 26).then(|| done.again(call, |receiver| empty(receiver, others)))
    })
}

fn empties_one(call: &mut Arrival) -> u64 {
    rightly(call, |call, done| {
        let first = *done.emptied().first()?;
        let word = done.again(call, |receiver| {
            receiver.places[first].iter_mut().for_each(Session::end);
        });
        Some(word)
    })
}

fn empties_with_nothing_in_hand(call: &mut Arrival) -> u64 {
    rightly(call, |call, done| {
        let time = call.time;
        if done.emptied().is_empty() {
            return None;
        }
        edit(call, |receiver| {
            for (place, before) in done.before.places.iter().enumerate() {
                let nothing = |one: &Session| one.is_old(time) && one.gathered.is_empty();
                if done.left != Some(place) && before.as_ref().is_some_and(nothing) {
                    receiver.places[place].iter_mut().for_each(Session::end);
                }
            }
        });
        None
    })
}

fn empties_with_blocks_free(call: &mut Arrival) -> u64 {
    rightly(call, |call, done| {
        let (time, stream) = (call.time, Stream::of_id(call.id));
        let old = |one: &Session| one.stream != stream && one.is_old(time);
        if done.word == 0 {
            edit(call, |receiver| empty(receiver, old));
        }
        None
    })
}

/// Leaves emptied sessions otherwise.
fn emptied_as(call: &mut Arrival, change: impl Fn(&mut Session, &Session)) -> u64 {
    rightly(call, |call, done| {
        edit(call, |receiver| {
            for place in done.emptied() {
                let sessions = (&mut receiver.places[place], &done.before.places[place]);
                if let (Some(after), Some(before)) = sessions {
                    change(after, before);
                }
            }
        });
        None
    })
}

fn emptied_sets_time(call: &mut Arrival) -> u64 {
    let time = call.time;
    emptied_as(call, |session, _| session.time = time)
}

fn emptied_loses_place(call: &mut Arrival) -> u64 {
    rightly(call, |call, done| {
        edit(call, |receiver| {
            for place in done.emptied() {
                receiver.places[place] = None;
            }
        });
        None
    })
}

fn no_block_before_too_long(call: &mut Arrival) -> u64 {
    rightly(call, |call, done| {
        (done.word == 11 && done.none_free() && !done.old_in_hand(call.time)).then_some(26)
    })
}

/// What the end of several frames that was answered 26 would be answered if blocks did not count.
fn answer_without_blocks(call: &Arrival, done: &Done) -> Option<Answer> {
    let (_, payload) = call.data.content().split_last()?;
    let tail = tail(call);
    let mut session = done.session()?.clone();
    let piece = Piece {
        tail,
        payload,
        interface: session.follows,
        time: call.time,
        signature: done.before.signature(&session.stream)?,
    };
    if done.word != 26 || !tail.end || tail.start {
        return None;
    }
    match session.add(&piece) {
        Step::Closed(payload) => Some(Answer::HandedOut(Transfer {
            payload,
            stream: session.stream,
            priority: priority_of(call.id),
            transfer_id: tail.transfer_id,
        })),
        _ => Some(Answer::ChecksumDiffers),
    }
}

fn checksum_before_no_block(call: &mut Arrival) -> u64 {
    rightly(call, |call, done| {
        let answer = answer_without_blocks(call, done)?;
        (answer == Answer::ChecksumDiffers).then_some(12)
    })
}

fn end_needs_no_block(call: &mut Arrival) -> u64 {
    rightly(call, |call, done| {
        let answer = answer_without_blocks(call, done)?;
        Some(hand_over(&answer, call.out.content_mut()))
    })
}

/// Puts the bytes of an end into the block in which the last of its transfer lie.
fn end_writes_block(call: &mut Arrival) -> u64 {
    rightly(call, |call, done| {
        let tail = tail(call);
        let several = tail.end && !tail.start && matches!(done.word & 255, 1 | 12);
        let session = done.session().filter(|_| several)?;
        let (_, payload) = call.data.content().split_last()?;
        let room = BLOCK * needed(session.gathered.len()) - session.gathered.len();
        let part = &payload[..payload.len().min(room)];
        let end = state::block_at(*session.blocks.last()?) + BLOCK;
        call.state.content_mut()[end - room..][..part.len()].copy_from_slice(part);
        None
    })
}

fn no_block_takes_no_place(call: &mut Arrival) -> u64 {
    rightly(call, |call, done| {
        if done.word == 26 && done.found.is_none() {
            call.state.content_mut().copy_from_slice(&done.bytes);
        }
        None
    })
}

/// Changes the session that a 26 leaves.
fn no_block_leaves(call: &mut Arrival, change: impl FnOnce(&mut Session, &Session)) -> u64 {
    rightly(call, |call, done| {
        let before = done.session().filter(|_| done.word == 26)?;
        edit_session(call, |after| change(after, before));
        None
    })
}

fn no_block_keeps_id(call: &mut Arrival) -> u64 {
    let transfer_id = tail(call).transfer_id;
    no_block_leaves(call, |after, _| after.expected_id = transfer_id)
}

/// The transfer goes on without the frame.
fn no_block_keeps_bytes(call: &mut Arrival) -> u64 {
    let start = tail(call).start;
    no_block_leaves(call, |after, before| {
        if !start {
            *after = before.clone();
        }
    })
}

/// Answers 26 to a start that takes a block which its own session or place gave back for it.
fn freed_late(call: &mut Arrival, session_there: bool) -> u64 {
    rightly(call, |call, done| {
        let start = done.word == 0 && tail(call).start && done.found.is_some() == session_there;
        if !start || !done.none_free() || done.old_in_hand(call.time) {
            return None;
        }
        edit_session(call, Session::end);
        Some(26)
    })
}

/// Receives on a state of which a fault was taken away.
fn repaired(call: &mut Arrival, repair: fn(&mut [u8])) -> u64 {
    let before = call.state.content().to_vec();
    let word = receive(call);
    if word != 20 || before.len() < state::SIZE {
        return word;
    }
    repair(call.state.content_mut());
    let word = receive(call);
    if word == 20 {
        call.state.content_mut().copy_from_slice(&before);
    }
    word
}

/// Where the numbers of blocks in use lie.
fn listed(state: &[u8]) -> Vec<usize> {
    let in_use = |place: &usize| get_u32(state, state::STREAM_KEYS + 4 * place) != 0;
    let numbers = (0..PLACES).filter(in_use).flat_map(|place| {
        let count = get_u32(state, state::CONTROLS + 4 * place) as usize & 0xFFFF;
        let first = list_at(place);
        first..first + needed(count).min(state::LIST)
    });
    numbers.collect()
}

fn set_free(state: &mut [u8], change: fn(u64, u64) -> u64) {
    let numbers = listed(state).into_iter().map(|at| state[at]);
    let held = numbers.filter(|&block| usize::from(block) < BLOCKS);
    let held = held.fold(0, |held, block| held | 1 << block);
    put_u64(state, FREE, change(get_u64(state, FREE), held));
}

/// Puts a free block where one stands for the second time.
fn tell_apart(state: &mut [u8]) {
    let mut met = Vec::new();
    for at in listed(state) {
        if met.contains(&state[at]) {
            take_free(state, at);
        }
        met.push(state[at]);
    }
}

fn below_64(state: &mut [u8]) {
    for at in listed(state) {
        if usize::from(state[at]) >= BLOCKS {
            take_free(state, at);
        }
    }
}

fn take_free(state: &mut [u8], at: usize) {
    let free = get_u64(state, FREE);
    if free != 0 {
        state[at] = free.trailing_zeros() as u8;
        put_u64(state, FREE, free & (free - 1));
    }
}
