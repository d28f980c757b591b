//! Sending (RULES 7 and 8): frames, transfer IDs, refusals, and the map's bytes.

use crate::allocation_log::{ALLOCATION_LOG, UNIQUE_ID};
use reference::definitions;
use reference::entry;
use reference::frame::TransferType;
use reference::map::{Descriptor, Map, KEYS, NEXT_IDS, SIZE, UNUSED};
use reference::send::{frame_count, send, Outgoing, Refusal, SentFrame, MOST_FRAMES, RECORD};

const MOST_ROOM: usize = RECORD * MOST_FRAMES;

/// Message 500 from node 9, with priority 16.
fn message(payload: &[u8]) -> Outgoing<'_> {
    Outgoing {
        own: 9,
        transfer_type: 0,
        type_id: 500,
        destination: 0,
        priority: 16,
        payload,
        signature: 77,
        time: 0,
        transfer_id: u32::MAX,
        discriminator: u32::MAX,
    }
}

fn request(payload: &[u8]) -> Outgoing<'_> {
    Outgoing {
        transfer_type: 1,
        type_id: 7,
        destination: 5,
        ..message(payload)
    }
}

fn response(payload: &[u8]) -> Outgoing<'_> {
    Outgoing {
        transfer_type: 2,
        transfer_id: 31,
        ..request(payload)
    }
}

fn anonymous(payload: &[u8]) -> Outgoing<'_> {
    Outgoing {
        own: 0,
        type_id: 3,
        discriminator: 16383,
        ..message(payload)
    }
}

fn sent(map: &mut Map, outgoing: &Outgoing) -> Vec<SentFrame> {
    let sent = send(map, outgoing, MOST_ROOM).expect("sent");
    for frame in &sent.frames {
        assert_eq!(frame.data.last().unwrap() & 31, sent.transfer_id);
    }
    sent.frames
}

/// The transfer ID a send was given.
fn drawn(map: &mut Map, outgoing: &Outgoing) -> u8 {
    sent(map, outgoing)[0].data.last().unwrap() & 31
}

#[test]
fn frame_counts() {
    let counts = [(0, 1), (7, 1), (8, 2), (12, 2), (13, 3), (512, 74)];
    for (payload, count) in counts {
        assert_eq!(frame_count(payload), count);
        let bytes = vec![1; payload];
        assert_eq!(sent(&mut Map::default(), &message(&bytes)).len(), count);
    }
}

#[test]
fn allocation_log_is_reproduced() {
    let mut map = Map::default();
    let payloads = [
        [&[0], &UNIQUE_ID[..6]].concat(),
        [&[0], &UNIQUE_ID[..12]].concat(),
        [&[0xFA], &UNIQUE_ID[..]].concat(),
    ];
    let frames: Vec<SentFrame> = payloads
        .iter()
        .flat_map(|payload| {
            let outgoing = Outgoing {
                own: 1,
                type_id: 1,
                priority: 30,
                signature: definitions::allocation(),
                ..message(payload)
            };
            sent(&mut map, &outgoing)
        })
        .collect();
    let expected: Vec<SentFrame> = ALLOCATION_LOG
        .iter()
        .filter(|(_, id, _)| *id == 0x1E00_0101)
        .map(|&(_, id, data)| SentFrame {
            id,
            data: data.to_vec(),
        })
        .collect();
    assert_eq!(frames, expected);
}

#[test]
fn anonymous_frames_of_the_allocation_log() {
    let mut map = Map::default();
    let requests = ALLOCATION_LOG.iter().filter(|(_, id, _)| id & 127 == 0);
    for &(_, id, data) in requests {
        let outgoing = Outgoing {
            type_id: 1,
            priority: 30,
            discriminator: id >> 10 & 16383,
            ..anonymous(&data[..data.len() - 1])
        };
        let expected = SentFrame {
            id,
            data: data.to_vec(),
        };
        assert_eq!(sent(&mut map, &outgoing), [expected]);
    }
}

#[test]
fn ids_of_services() {
    let mut map = Map::default();
    assert_eq!(sent(&mut map, &request(&[]))[0].id, 0x1007_8589);
    let frames = sent(&mut map, &response(&[]));
    assert_eq!(frames[0].id, 0x1007_0589);
    assert_eq!(frames[0].data, [0xDF]);
}

#[test]
fn what_14_refuses() {
    let long = [0; 513];
    let refused = [
        Outgoing {
            own: 128,
            ..message(&[])
        },
        Outgoing {
            transfer_type: 3,
            ..message(&[])
        },
        Outgoing {
            type_id: 65536,
            ..message(&[])
        },
        Outgoing {
            type_id: 256,
            ..request(&[])
        },
        Outgoing {
            destination: 1,
            ..message(&[])
        },
        Outgoing {
            destination: 0,
            ..request(&[])
        },
        Outgoing {
            destination: 128,
            ..response(&[])
        },
        Outgoing {
            priority: 32,
            ..message(&[])
        },
        Outgoing {
            transfer_id: 32,
            ..response(&[])
        },
        Outgoing {
            discriminator: 16384,
            ..anonymous(&[])
        },
        Outgoing {
            type_id: 4,
            ..anonymous(&[])
        },
        Outgoing {
            own: 0,
            ..request(&[])
        },
        Outgoing {
            own: 0,
            ..response(&[])
        },
        anonymous(&[0; 8]),
        anonymous(&long),
        Outgoing {
            priority: 32,
            ..message(&long)
        },
    ];
    for (index, outgoing) in refused.iter().enumerate() {
        let mut map = Map::default();
        let answer = send(&mut map, outgoing, 0);
        assert_eq!(answer, Err(Refusal::OutOfRange), "call {index}");
        assert_eq!(map, Map::default());
    }
}

#[test]
fn values_at_the_edge_are_sent() {
    let allowed = [
        Outgoing {
            own: 127,
            type_id: 65535,
            priority: 31,
            ..message(&[])
        },
        Outgoing {
            type_id: 255,
            destination: 127,
            ..request(&[])
        },
        Outgoing {
            destination: 9,
            ..request(&[])
        },
        anonymous(&[0; 7]),
        response(&[]),
    ];
    for outgoing in &allowed {
        assert_eq!(sent(&mut Map::default(), outgoing).len(), 1);
    }
}

#[test]
fn lengths_and_room() {
    let mut map = Map::default();
    assert_eq!(
        send(&mut map, &message(&[0; 513]), 0),
        Err(Refusal::PayloadTooLong)
    );
    assert_eq!(
        send(&mut map, &message(&[0; 512]), MOST_ROOM - 1),
        Err(Refusal::OutputTooSmall)
    );
    assert_eq!(map, Map::default());
    assert!(send(&mut map, &message(&[0; 512]), MOST_ROOM).is_ok());
}

#[test]
fn transfer_ids_rise_and_wrap_for_each_descriptor() {
    let mut map = Map::default();
    for round in 0..70 {
        assert_eq!(drawn(&mut map, &message(&[])), round % 32);
    }
    assert_eq!(drawn(&mut map, &request(&[])), 0);
    let elsewhere = Outgoing {
        destination: 6,
        ..request(&[])
    };
    assert_eq!(drawn(&mut map, &elsewhere), 0);
    let other_own = Outgoing {
        own: 10,
        ..request(&[])
    };
    assert_eq!(drawn(&mut map, &other_own), 1);
    let unnamed = anonymous(&[]);
    assert_eq!(drawn(&mut map, &unnamed), 0);
    let named = Outgoing {
        type_id: 3,
        ..message(&[])
    };
    assert_eq!(drawn(&mut map, &named), 1);
}

#[test]
fn full_map_replaces_the_lowest_unused_for_two_seconds() {
    let mut map = Map::default();
    let of_type = |type_id, time| Outgoing {
        type_id,
        time,
        ..message(&[])
    };
    for type_id in 0..32 {
        drawn(&mut map, &of_type(type_id, 100 + u64::from(type_id != 3)));
    }
    let before = map.clone();
    let early = of_type(99, 99 + UNUSED);
    assert_eq!(send(&mut map, &early, 13), Err(Refusal::TableFull));
    assert_eq!(send(&mut map, &of_type(99, 0), 13), Err(Refusal::TableFull));
    assert_eq!(map, before);
    assert_eq!(drawn(&mut map, &of_type(99, 100 + UNUSED)), 0);
    assert_eq!(map.places[3].as_ref().unwrap().descriptor.type_id, 99);
    let late = of_type(5, 100 + 5 * UNUSED);
    assert_eq!(drawn(&mut map, &late), 1, "an entry long unused goes on");
    assert!(sent(&mut map, &response(&[])).len() == 1);
}

#[test]
fn bytes_of_the_map() {
    let mut bytes = vec![0xEE; SIZE + 4];
    assert_eq!(entry::map_setup(&mut bytes[..SIZE - 1]), 20);
    assert_eq!(bytes, [0xEE; SIZE + 4]);
    assert_eq!(entry::map_setup(&mut bytes), 0);
    assert_eq!(bytes[..SIZE], [0; SIZE]);
    assert_eq!(bytes[SIZE..], [0xEE; 4]);

    let mut out = [0xEE; 30];
    let outgoing = Outgoing {
        time: 0x0102,
        ..request(&[1; 8])
    };
    let word = entry::send(&mut bytes, &outgoing, &mut out);
    assert_eq!(word, 2 << 8);
    let again = entry::send(&mut bytes.clone(), &outgoing, &mut [0; 30]);
    assert_eq!(again, 2 << 8 | 1 << 55, "transfer ID 1");
    assert_eq!(bytes[..4], [5 * 2 + 1, 7, 0, 1]);
    assert_eq!(bytes[128..136], [2, 1, 0, 0, 0, 0, 0, 0]);
    assert_eq!(bytes[384], 1);
    assert_eq!(
        out[13..26],
        [0x89, 0x85, 0x07, 0x10, 4, 1, 1, 1, 0x60, 0, 0, 0, 0]
    );
    assert_eq!(out[26..], [0xEE; 4]);
}

#[test]
fn faults_of_the_map() {
    let mut map = Map::default();
    drawn(&mut map, &message(&[]));
    drawn(&mut map, &request(&[]));
    let mut bytes = vec![0; SIZE];
    map.write(&mut bytes);
    assert_eq!(Map::read(&bytes), Some(map));
    let request_key = Descriptor {
        transfer_type: TransferType::Request,
        type_id: 7,
        destination: 5,
    }
    .key()
    .to_le_bytes();
    let faults: [(usize, &[u8]); 8] = [
        (KEYS, &[0, 7, 0, 0]),
        (KEYS, &[11, 7, 0, 2]),
        (KEYS, &[11, 7, 0, 0]),
        (KEYS, &[1, 7, 0, 1]),
        (KEYS, &[11, 0, 1, 1]),
        (KEYS, &[11, 7, 0, 255]),
        (KEYS, &request_key),
        (NEXT_IDS, &[32]),
    ];
    for (index, (at, value)) in faults.into_iter().enumerate() {
        let mut bytes = bytes.clone();
        bytes[at..at + value.len()].copy_from_slice(value);
        assert_eq!(Map::read(&bytes), None, "fault {index}");
    }
    bytes[NEXT_IDS + 2] = 255;
    assert!(Map::read(&bytes).is_some(), "an empty place means nothing");
}
