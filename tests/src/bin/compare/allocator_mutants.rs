//! Wrong variants of the allocator's rules: of which ID is given, of what is dropped and kept, of
//! stages, timeout and order of checks, and of the table in lent bytes.

use crate::entry_points::{allocate, Allocate, Question};
use reference::allocator::{
    is_marked, preference, Allocator, Answer, Entry, Request, UniqueId, GATHERED, LAST_ID,
    LONGEST_REPLY, TIMEOUT, UNIQUE_ID,
};

pub const ALL: [(&str, Allocate); 25] = [
    ("id-given-twice", id_given_twice),
    ("marked-id-given", marked_id_given),
    ("own-id-given", own_id_given),
    ("preferred-126-as-it-is", preferred_126_as_it_is),
    ("preferred-0-as-1", preferred_0_as_1),
    ("search-down-first", search_down_first),
    ("lowest-below-given", lowest_below_given),
    ("entry-replaced", entry_replaced),
    ("marked-entry-replaced", marked_entry_replaced),
    ("timeout-at-500000", timeout_at_500_000),
    ("earlier-time-is-late", earlier_time_is_late),
    ("second-stage-first", second_stage_first),
    ("first-part-of-4-ignored", |call| {
        ignoring_first_part(call, 4)
    }),
    ("first-part-of-16-ignored", |call| {
        ignoring_first_part(call, UNIQUE_ID)
    }),
    ("none-free-keeps-gathered", none_free_keeps_gathered),
    ("none-free-sets-time", none_free_sets_time),
    ("too-small-changes-state", too_small_changes_state),
    ("room-asked-of-all", room_asked_of_all),
    ("ignored-keeps-late-bytes", ignored_keeps_late_bytes),
    ("ignored-sets-time", ignored_sets_time),
    ("named-source-drops-late-bytes", named_source_drops),
    ("named-source-before-15", named_source_before_15),
    ("source-cut-to-a-byte", source_cut_to_a_byte),
    ("entry-at-the-end", entry_at_the_end),
    ("completed-bytes-stored", completed_bytes_stored),
];

fn met(call: &Question) -> Option<Allocator> {
    Allocator::read(call.state.content())
}

/// Changes the allocator in a lent state that has no fault.
fn edit(call: &mut Question, change: impl FnOnce(&mut Allocator)) {
    if let Some(mut allocator) = met(call) {
        change(&mut allocator);
        allocator.write(call.state.content_mut());
    }
}

fn has_no_reply(word: u64) -> bool {
    word == 0
}

/// The unique ID that the call completes with a reply, and the allocator that it meets.
fn completed(call: &Question) -> Option<(UniqueId, Allocator)> {
    let before = met(call)?;
    let request = call.context.with_payload(call.payload.content());
    match before.clone().allocate(&request, call.out.length()) {
        Answer::Reply(reply) => Some((reply.get(1..)?.try_into().ok()?, before)),
        _ => None,
    }
}

/// Gives a new unique ID the node ID that `choose` wants, if any; `choose` gets the allocator
/// before the call and the ID that the message prefers.
fn giving(call: &mut Question, choose: fn(&Allocator, &Request, u8) -> Option<u8>) -> u64 {
    let found =
        completed(call).filter(|(unique_id, before)| before.node_id_of(unique_id).is_none());
    let word = allocate(call);
    let Some((unique_id, before)) = found else {
        return word;
    };
    let request = call.context.with_payload(call.payload.content());
    if let Some(node_id) = choose(&before, &request, request.payload[0] >> 1) {
        call.out.content_mut()[0] = node_id << 1;
        edit(call, |after| {
            let of_node = |entry: &&mut Entry| entry.unique_id == unique_id;
            let entry = after.table.iter_mut().find(of_node);
            entry.expect("the new entry").node_id = node_id;
        });
    }
    word
}

fn id_given_twice(call: &mut Question) -> u64 {
    giving(call, |_, request, preferred| {
        Allocator::default().choose(request, preference(preferred))
    })
}

fn marked_id_given(call: &mut Question) -> u64 {
    giving(call, |before, request, preferred| {
        let unmarked = Request {
            marks: [0; 2],
            ..*request
        };
        before.choose(&unmarked, preference(preferred))
    })
}

fn own_id_given(call: &mut Question) -> u64 {
    giving(call, |before, request, preferred| {
        let elsewhere = Request {
            own: 127,
            ..*request
        };
        before.choose(&elsewhere, preference(preferred))
    })
}

fn preferred_126_as_it_is(call: &mut Question) -> u64 {
    giving(call, |_, _, preferred| {
        (preferred > LAST_ID).then_some(preferred)
    })
}

fn preferred_0_as_1(call: &mut Question) -> u64 {
    giving(call, |before, request, preferred| {
        (preferred == 0).then(|| before.choose(request, 1))?
    })
}

fn search_down_first(call: &mut Question) -> u64 {
    giving(call, |before, request, preferred| {
        let free = |node_id: &u8| before.is_free(request, *node_id);
        (1..=preference(preferred)).rev().find(free)
    })
}

fn lowest_below_given(call: &mut Question) -> u64 {
    giving(call, |before, request, preferred| {
        let free = |node_id: &u8| before.is_free(request, *node_id);
        let none_above = !(preference(preferred)..=LAST_ID).any(|node_id| free(&node_id));
        none_above.then(|| (1..preference(preferred)).find(free))?
    })
}

/// Forgets the entry of the unique ID that the call completes.
fn forgetting(call: &mut Question, forgets: fn(&Allocator, &Request, &UniqueId) -> bool) -> u64 {
    let Some((unique_id, before)) = completed(call) else {
        return allocate(call);
    };
    let request = call.context.with_payload(call.payload.content());
    if forgets(&before, &request, &unique_id) {
        let others = |entry: &Entry| entry.unique_id != unique_id;
        edit(call, |allocator| allocator.table.retain(others));
    }
    allocate(call)
}

fn entry_replaced(call: &mut Question) -> u64 {
    forgetting(call, |_, _, _| true)
}

fn marked_entry_replaced(call: &mut Question) -> u64 {
    forgetting(call, |before, request, unique_id| {
        let node_id = before.node_id_of(unique_id);
        node_id.is_some_and(|node_id| is_marked(request.marks, node_id))
    })
}

/// Takes an age of just the timeout for one more.
fn timeout_at_500_000(call: &mut Question) -> u64 {
    let time = call.context.time;
    let at_edge = met(call).is_some_and(|before| time.checked_sub(before.time) == Some(TIMEOUT));
    if !at_edge {
        return allocate(call);
    }
    call.context.time = time.saturating_add(1);
    let word = allocate(call);
    if !has_no_reply(word) && word & 255 == 0 {
        edit(call, |after| after.time = time);
    }
    word
}

fn earlier_time_is_late(call: &mut Question) -> u64 {
    let (time, anonymous) = (call.context.time, call.context.source == 0);
    if met(call).is_some_and(|before| anonymous && time < before.time) {
        edit(call, |before| before.gathered.clear());
    }
    allocate(call)
}

/// Reads a second stage as a first one where nothing is gathered.
fn second_stage_first(call: &mut Question) -> u64 {
    let empty = met(call).is_some_and(|before| before.gathered.is_empty());
    if !empty || call.payload.length() != 7 {
        return allocate(call);
    }
    let said = call.payload.content()[0];
    call.payload.content_mut()[0] = said | 1;
    let word = allocate(call);
    call.payload.content_mut()[0] = said;
    word
}

fn ignoring_first_part(call: &mut Question, length: usize) -> u64 {
    let payload = call.payload.content();
    let first_part = payload.len() == 1 + length && payload[0] & 1 == 1;
    let (state, out) = (call.state.content().to_vec(), call.out.content().to_vec());
    let word = allocate(call);
    if !first_part || word & 255 != 0 {
        return word;
    }
    call.state.content_mut().copy_from_slice(&state);
    call.out.content_mut().copy_from_slice(&out);
    0
}

fn none_free_keeps_gathered(call: &mut Question) -> u64 {
    let state = call.state.content().to_vec();
    let word = allocate(call);
    if word == 21 {
        call.state.content_mut().copy_from_slice(&state);
    }
    word
}

fn none_free_sets_time(call: &mut Question) -> u64 {
    let (word, time) = (allocate(call), call.context.time);
    if word == 21 {
        edit(call, |after| after.time = time);
    }
    word
}

fn too_small_changes_state(call: &mut Question) -> u64 {
    let word = allocate(call);
    if let (8, Some(mut state)) = (word, met(call)) {
        let request = call.context.with_payload(call.payload.content());
        state.allocate(&request, LONGEST_REPLY);
        state.write(call.state.content_mut());
    }
    word
}

fn room_asked_of_all(call: &mut Question) -> u64 {
    let state = call.state.content().to_vec();
    let word = allocate(call);
    if has_no_reply(word) && call.out.length() < LONGEST_REPLY {
        call.state.content_mut().copy_from_slice(&state);
        return 8;
    }
    word
}

fn ignored_keeps_late_bytes(call: &mut Question) -> u64 {
    let state = call.state.content().to_vec();
    let word = allocate(call);
    if has_no_reply(word) {
        call.state.content_mut().copy_from_slice(&state);
    }
    word
}

fn ignored_sets_time(call: &mut Question) -> u64 {
    let (word, time) = (allocate(call), call.context.time);
    if has_no_reply(word) && call.context.source == 0 {
        edit(call, |after| after.time = time);
    }
    word
}

fn named_source_drops(call: &mut Question) -> u64 {
    let (word, time) = (allocate(call), call.context.time);
    if has_no_reply(word) {
        edit(call, |after| {
            if after.is_late(time) {
                after.gathered.clear();
            }
        });
    }
    word
}

fn named_source_before_15(call: &mut Question) -> u64 {
    match allocate(call) {
        15 | 16 if call.context.source != 0 => 0,
        word => word,
    }
}

fn source_cut_to_a_byte(call: &mut Question) -> u64 {
    call.context.source &= 255;
    allocate(call)
}

/// Puts a new entry after all others.
fn entry_at_the_end(call: &mut Question) -> u64 {
    let found =
        completed(call).filter(|(unique_id, before)| before.node_id_of(unique_id).is_none());
    let word = allocate(call);
    if let Some((unique_id, _)) = found {
        edit(call, |after| {
            let of_node = |entry: &Entry| entry.unique_id == unique_id;
            let place = after.table.iter().position(of_node).expect("the new entry");
            after.table[place..].rotate_left(1);
        });
    }
    word
}

/// Stores the whole unique ID where bytes are gathered.
fn completed_bytes_stored(call: &mut Question) -> u64 {
    let found = completed(call);
    let word = allocate(call);
    if let Some((unique_id, _)) = found {
        call.state.content_mut()[GATHERED..][..UNIQUE_ID].copy_from_slice(&unique_id);
    }
    word
}
