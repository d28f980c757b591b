//! Receivers at random, none with a fault: subscriptions, streams and sessions.

use crate::random::Random;
use reference::blocks::{needed, BLOCK, BLOCKS};
use reference::crc::transfer_checksum;
use reference::frame::{Stream, TransferType};
use reference::receive::{Receiver, Subscription, INTERFACES, MOST_SUBSCRIPTIONS, PLACES};
use reference::session::{Session, MOST_GATHERED, SWITCH_DELAY, TIMEOUT};
use reference::state::LIST;

/// A receiver as C may lend it: sessions of any kind, whatever the setup. A crowded one has used up
/// its blocks, or all but one.
pub fn receiver(random: &mut Random, clock: u64, crowded: bool) -> Receiver {
    let mut receiver = empty(random);
    let filled = match crowded {
        true => random.pick(&[8, 24, 31, 32, 32, 32]),
        false => random.pick(&[1, 8, 24, 31, 32, 32]),
    };
    let common_time = random.once_in(3).then(|| time_near(random, clock));
    let on_the_brim = random.coin();
    let mut free = blocks_to_give(random, crowded);
    for place in 0..filled {
        let mut session = session(random, &receiver, clock);
        if let Some(time) = common_time {
            session.time = time.saturating_add(random.below(3));
        }
        if on_the_brim && !random.once_in(4) {
            session.time = clock.saturating_sub(random.below(1000));
            session.gathered = brim(random, receiver.signature(&session.stream));
        }
        if receiver.place_of(&session.stream).is_none() {
            give_blocks(&mut session, &mut free);
            receiver.places[place] = Some(session);
        }
    }
    if crowded {
        use_up(random, &mut receiver, &mut free);
        set_times(random, &mut receiver, clock);
    }
    let turn = random.index(PLACES);
    receiver.places.rotate_left(turn);
    receiver
}

/// Blocks that sessions may have, in any order. Some stay free whatever the sessions need.
fn blocks_to_give(random: &mut Random, crowded: bool) -> Vec<u8> {
    let mut blocks: Vec<u8> = (0..BLOCKS as u8).collect();
    for last in (1..BLOCKS).rev() {
        blocks.swap(last, random.index(last + 1));
    }
    if random.once_in(4) {
        let highest = blocks
            .iter()
            .position(|&block| usize::from(block) == BLOCKS - 1);
        blocks.swap(0, highest.expect("each block is there"));
    }
    let kept = if crowded {
        random.pick(&[0, 0, 0, 1])
    } else {
        random.pick(&[0, 1, 2, 20])
    };
    blocks.split_off(kept)
}

/// Gives the blocks that are left to sessions, with bytes that the next frame may make too many for
/// them.
fn use_up(random: &mut Random, receiver: &mut Receiver, free: &mut Vec<u8>) {
    let (busy, idle): (Vec<&mut Session>, Vec<&mut Session>) = receiver
        .places
        .iter_mut()
        .flatten()
        .partition(|session| !session.gathered.is_empty());
    for session in busy.into_iter().chain(idle) {
        let wanted = (session.blocks.len() + random.index(5)).min(LIST);
        if free.is_empty() || wanted == session.blocks.len() {
            continue;
        }
        let count = (BLOCK * wanted - random.index(8)).min(MOST_GATHERED);
        free.append(&mut session.blocks);
        session.gathered = random.bytes(count);
        give_blocks(session, free);
    }
}

/// At times, sessions with nothing in hand are old, and of the others none is, or one, or some.
fn set_times(random: &mut Random, receiver: &mut Receiver, clock: u64) {
    let sessions: Vec<&mut Session> = receiver.places.iter_mut().flatten().collect();
    let (choice, alone) = (random.below(4), random.index(sessions.len()));
    if choice == 0 {
        return;
    }
    for (index, session) in sessions.into_iter().enumerate() {
        let chosen = match choice {
            1 => false,
            2 => index == alone,
            _ => random.once_in(4),
        };
        let age = match session.gathered.is_empty() || chosen {
            true => TIMEOUT + 1 + random.below(3),
            false if random.once_in(16) => TIMEOUT,
            false => random.below(TIMEOUT / 2),
        };
        session.time = clock.saturating_sub(age);
    }
}

/// Gives a session the blocks that its bytes need; where there are too few, bytes are cut off.
fn give_blocks(session: &mut Session, free: &mut Vec<u8>) {
    let count = needed(session.gathered.len()).min(free.len());
    session.blocks = free.split_off(free.len() - count);
    session.gathered.truncate(BLOCK * count);
    session.toggle &= count > 0;
}

/// Gathered bytes that the next frame may make too many, or the fewest: half of the checksum of
/// nothing.
fn brim(random: &mut Random, signature: Option<u64>) -> Vec<u8> {
    match (!random.once_in(3), signature) {
        (true, Some(signature)) => vec![transfer_checksum(signature, &[]) as u8],
        _ => {
            let count = random.between(507, MOST_GATHERED as u64);
            random.bytes(count as usize)
        }
    }
}

/// A receiver fresh from setup.
pub fn empty(random: &mut Random) -> Receiver {
    let own = if random.once_in(16) {
        0
    } else {
        random.pick(&[1, 2, 63, 126, 127])
    };
    Receiver::setup(own, subscriptions(random)).expect("kinds and types that differ")
}

pub fn subscriptions(random: &mut Random) -> Vec<Subscription> {
    let most = match random.below(8) {
        0 => random.below(3),
        1 => MOST_SUBSCRIPTIONS as u64,
        2 => random.between(0, 64),
        _ => random.between(2, 9),
    };
    let mut list: Vec<Subscription> = Vec::new();
    while (list.len() as u64) < most {
        let one = subscription(random);
        if !list.iter().any(|other| other.same_type(&one)) {
            list.push(one);
        }
    }
    list
}

fn subscription(random: &mut Random) -> Subscription {
    let service = random.once_in(3);
    let type_id = match random.below(4) {
        0 if !service => random.below(4),
        1 => random.pick(&[0, 255]),
        2 if !service => random.pick(&[256, 341, 16383, 65535]),
        _ => random.below(if service { 256 } else { 65536 }),
    };
    Subscription {
        service,
        type_id: type_id as u16,
        signature: random.next(),
    }
}

/// A stream with a named source, most often one that the receiver hears.
pub fn stream(random: &mut Random, receiver: &Receiver) -> Stream {
    let known = !receiver.subscriptions.is_empty() && !random.once_in(12);
    let subscription = if known {
        random.pick(&receiver.subscriptions)
    } else {
        subscription(random)
    };
    let heard = receiver.own != 0 && !random.once_in(12);
    let destination = if heard {
        receiver.own
    } else {
        random.between(1, 127) as u8
    };
    let few_sources = random.coin();
    Stream {
        transfer_type: match (subscription.service, random.coin()) {
            (false, _) => TransferType::Message,
            (true, true) => TransferType::Request,
            (true, false) => TransferType::Response,
        },
        type_id: subscription.type_id,
        source: random.between(1, if few_sources { 12 } else { 127 }) as u8,
        destination: if subscription.service { destination } else { 0 },
    }
}

fn session(random: &mut Random, receiver: &Receiver, clock: u64) -> Session {
    let count = match random.below(6) {
        0 => 0,
        1 => 7 * random.between(1, 73),
        2 => random.between(1, 8),
        3 => random.between(1, MOST_GATHERED as u64),
        // seven bytes more need another block, or just not
        _ => BLOCK as u64 * random.pick(&[1, 1, 1, 2, 2, 3, 8, 8]) - random.below(8),
    };
    Session {
        stream: stream(random, receiver),
        expected_id: transfer_id(random),
        gathered: random.bytes(count as usize),
        blocks: Vec::new(),
        toggle: count > 0 && random.coin(),
        time: time_near(random, clock),
        follows: interface(random),
    }
}

/// One of the interfaces that there are.
pub fn interface(random: &mut Random) -> u8 {
    random.below(u64::from(INTERFACES)) as u8
}

pub fn transfer_id(random: &mut Random) -> u8 {
    match random.below(4) {
        0 => random.pick(&[0, 31]),
        _ => random.below(32) as u8,
    }
}

/// A time that a frame at `clock` may find in a session: recent, at an edge, old, or later.
pub fn time_near(random: &mut Random, clock: u64) -> u64 {
    match random.below(14) {
        0 => random.next(),
        1 => random.pick(&[0, u64::MAX]),
        2 => clock.saturating_add(random.below(TIMEOUT)),
        3..=5 => clock.saturating_sub(TIMEOUT + random.below(3)),
        6 => clock.saturating_sub(random.below(3 * TIMEOUT)),
        7 | 8 => clock.saturating_sub(SWITCH_DELAY - 1 + random.below(3)),
        _ => clock.saturating_sub(random.below(TIMEOUT)),
    }
}
