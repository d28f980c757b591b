//! A bus with a vendor's own types, those of tests/show/types.

use crate::bus::{message, request, response, Bus, Topic};
use reference::dsdl::RULES;

const ZOOM: &[u8] = include_bytes!("../../../show/types/acme/20000.Zoom.uavcan");
const LENS: &[u8] = include_bytes!("../../../show/types/acme/Lens.uavcan");
const TURN: &[u8] = include_bytes!("../../../show/types/acme/200.Turn.uavcan");

pub fn log() -> Vec<u8> {
    let given: [(&[u8], &[u8]); 3] = [
        (b"acme.Zoom", ZOOM),
        (b"acme.Lens", LENS),
        (b"acme.Turn", TURN),
    ];
    let signed = RULES.signatures(&given).expect("they are in the grammar");
    let with = |topic: Topic, place: usize| Topic {
        signature: signed[place].signature,
        ..topic
    };
    let mut bus = Bus::default();
    for second in 0..3 {
        let payload: Vec<u8> = (0..21).map(|at| at * 3 + second).collect();
        let zoom = with(message(20_000, 16), 0);
        let time = 1000 * u64::from(second);
        let (frames, _) = bus.frames(time, 9, zoom, &payload, 0);
        bus.put(time, &frames);
        let turn = with(request(200, 9), 2);
        let (frames, id) = bus.frames(time + 100, 1, turn, b"\x05\x00because it is time", 0);
        bus.put(time + 100, &frames);
        let turned = with(response(200, 1), 2);
        let (frames, _) = bus.frames(time + 110, 9, turned, &[0x80], id);
        bus.put(time + 110, &frames);
    }
    bus.log()
}
