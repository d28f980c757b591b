/* Tecelume 0.2.0: UAVCAN v0 (DroneCAN) transfers from CAN 2.0B frames, frames from transfers, messages, node IDs, and signatures of types.
 * For C99 and later, and C++11 and later.
 *
 * The functions are in libtecelume.a, which is for x86-64 Linux only, and in tecelume.c, the same library as one file of portable C. This
 * header goes with both. At the start of your program compare tecelume_version() with TECELUME_VERSION.
 *
 * A receiver is a block of bytes that the caller lends to every call, and so are the map in which a sender counts its transfers and the
 * state of an allocator, which hands out node IDs. The library takes no memory from the system, has no globals and keeps no pointer after
 * a call. Every call accepts every input and ends; what it cannot take it answers by a number.
 *
 * A slice is two arguments, a pointer and a length in bytes. An empty slice may be (NULL, 0). No buffer needs an alignment, but for the rows
 * of 64-bit numbers in which callers in other languages have messages.
 *
 * Rules for the caller, which no call can check:
 *
 * - Pointer and length belong together: that many bytes may be read and, where the pointer is not const, written.
 * - The buffers of one call do not overlap. Only those that are const may, with each other: two lists of a message may be the same bytes.
 * - One call at a time on one state or map. Calls on different ones do not touch each other.
 * - From setup on, nothing but the library writes the state or the map. Neither holds pointers, so a copy of the whole works as well.
 *
 * Answer 20 helps where the last rule is broken. tecelume_receive, tecelume_receive_many, tecelume_send and tecelume_allocate first check that
 * the state or map is long enough, that no value in it is out of range, that no session has toggle 1 with nothing gathered, that no two
 * entries are alike, that each block of a receiver is free or in one session, and that an allocator's table is in order. If the check fails
 * they refuse and leave it as it was. So no call reaches outside the lent buffers, whatever was written there. A write that leaves all this
 * in order is not noticed: it counts as what was received, sent or handed out before. A stream recovers from it at its next start that is
 * taken; the own ID and the subscriptions do not recover, nor does an allocator's table. Memory of zeros that was never set up answers 20 as
 * a state; as a map it is one without entries, and as an allocator's state one with an empty table.
 *
 * docs/RULES.md in the repository has all rules in numbered sections; "RULES 4.5" below is one of them. */
#ifndef TECELUME_H
#define TECELUME_H

#include <stddef.h>
#include <stdint.h>
#include <string.h>

#ifdef __cplusplus
extern "C" {
#endif

/* ---- version ---- */

#define TECELUME_VERSION_MAJOR 0
#define TECELUME_VERSION_MINOR 2
#define TECELUME_VERSION_PATCH 0
#define TECELUME_VERSION (TECELUME_VERSION_MAJOR * 0x10000u + TECELUME_VERSION_MINOR * 0x100u + TECELUME_VERSION_PATCH)

/* The version of the library. Header and library go together only if it equals TECELUME_VERSION; equal sizes do not show it. */
uint32_t tecelume_version(void);

/* ---- sizes in bytes ---- */

#define TECELUME_RECEIVER_SIZE 5680    /* the state of a receiver */
#define TECELUME_OUTPUT_SIZE 512       /* the output buffer of tecelume_receive: the longest payload */
#define TECELUME_ARRIVAL_SIZE 24       /* a frame that came: time (8), ID (4), interface, data length, data (8), two bytes unused */
#define TECELUME_RESULT_SIZE 8         /* its result from tecelume_receive_many, low byte first */
#define TECELUME_MAP_SIZE 416          /* the transfer-ID map of a sender */
#define TECELUME_RECORD_SIZE 13        /* a frame from tecelume_send: ID (4, low byte first), data length (1), data (8) */
#define TECELUME_SUBSCRIPTION_SIZE 13  /* a subscription record: kind (1), type ID (4), signature (8), low bytes first */
#define TECELUME_ALLOCATOR_SIZE 2151   /* the state of an allocator */
#define TECELUME_REPLY_SIZE 17         /* the output buffer of tecelume_allocate: the longest reply */
#define TECELUME_UNIQUE_ID_SIZE 16     /* a node's unique ID */
#define TECELUME_LENGTHS_SIZE 8        /* of a type definition: the lengths of name (4) and text (4), low bytes first */
#define TECELUME_SIGNED_SIZE 12        /* a record from tecelume_signatures: length of the form (4), signature (8), low bytes first */
#define TECELUME_STAMPED_SIZE 21       /* a record of a capture: time (8, low byte first), then a frame as from tecelume_send */
#define TECELUME_TRAILER_SIZE 16       /* the trailer of a capture: distance (8), count (4), checksum (2), "CT" */

/* The output buffer of tecelume_send for a payload of n bytes, at most TECELUME_PAYLOAD_MAX. It is a constant if n is one, and evaluates n
 * more than once. */
#define TECELUME_SEND_SIZE(n) (TECELUME_RECORD_SIZE * ((size_t)(n) > 7 ? ((size_t)(n) + 8) / 7 : 1))

/* The output buffer of tecelume_capture for a log of n lines, and one that does for tecelume_uncapture of a capture of n records. */
#define TECELUME_CAPTURE_SIZE(n) (TECELUME_STAMPED_SIZE * (size_t)(n) + TECELUME_TRAILER_SIZE)
#define TECELUME_LOG_SIZE(n) (47 * (size_t)(n))

/* ---- limits ---- */

#define TECELUME_SUBSCRIPTIONS_MAX 64
#define TECELUME_SESSIONS_MAX 32     /* streams that a receiver follows at once */
#define TECELUME_BLOCKS 64           /* blocks of a receiver, for the bytes of unfinished transfers; each has */
#define TECELUME_BLOCK_SIZE 64       /* so many bytes */
#define TECELUME_RECORDS_MAX 65536   /* frames that one call of tecelume_receive_many uses up */
#define TECELUME_MAP_ENTRIES_MAX 32  /* topics that a map counts at once */
#define TECELUME_INTERFACES 3        /* buses that carry the same transfers; a frame comes by interface 0, 1 or 2 */
#define TECELUME_PAYLOAD_MAX 512
#define TECELUME_FRAMES_MAX 74       /* what a payload of that length is sent as */
#define TECELUME_ALLOCATIONS_MAX 125 /* nodes in an allocator's table; their IDs are 1 to 125 */
#define TECELUME_DEFINITIONS_MAX 8   /* type definitions in one call */
#define TECELUME_TEXT_MAX 4096       /* bytes of a definition's text */
#define TECELUME_NAME_MAX 80         /* characters of a type's full name */
#define TECELUME_STREAMS_MAX 64      /* streams with a named source in a capture that is judged */

/* ---- the numbers answered ---- */

/*  no.  meaning                                                                  what to do
 *
 *   0   setup, send, decode, encode, patch, capture, uncapture: success          -
 *       allocate: a reply is in out, or there is none, the message is ignored    send the reply, if it has a length
 *       judge: the capture passes                                                -
 *       receive: frame taken, its transfer is not finished                       go on with the next frame
 *       receive many: so many records were used up as the result says            look at their results; go on with the rest
 *   1   receive: a transfer is complete, its payload is in out                   use the payload before the next call
 *   2   receive: CAN ID of 2^29 or more                                          mask the driver's flags off: id & 0x1FFFFFFF
 *   3   receive: no data bytes or more than 8                                    give data frames of CAN 2.0B only
 *   4   receive: service with source or destination 0                            nothing: a faulty node or another protocol
 *   5   receive: the tail byte does not fit the frame. A start with toggle 1;    nothing: a faulty node, another protocol or
 *       anonymous, but not both start and end; no end, but under 8 bytes; an     another version of UAVCAN
 *       end without start that has the tail byte alone
 *   6   receive: service for another node                                        nothing: normal on a shared bus
 *   7   receive: no subscription                                                 nothing; if it is wanted, set up with it
 *   8   receive: out has under TECELUME_OUTPUT_SIZE bytes                        call again with more room
 *       send: out has under TECELUME_SEND_SIZE(payload_len) bytes                the same
 *       allocate: the reply is longer than out                                   the same; TECELUME_REPLY_SIZE bytes always do
 *       signatures: the forms are longer than out, or too few records            the same
 *       encode: the payload is longer than out                                   the same; see the sizes of messages, below
 *       decode into a row: the row has fewer places than the type has numbers    the same
 *       capture, uncapture: what is to be written is longer than out             the same; see TECELUME_CAPTURE_SIZE, TECELUME_LOG_SIZE
 *   9   receive: start of a new stream, 32 sessions in use and none is old       subscribe to less; a later start may be taken
 *       send: new topic, 32 entries in use, none unused for 2,000,000 or more    use fewer topics, or call again later
 *       capture: 2^32 lines or more                                              cut the log in two
 *       judge: the first frame of a 65th stream                                  capture less at once
 *  11   receive: payload over 512 bytes; the transfer is dropped                 nothing: too long for this library
 *       send: payload over 512 bytes                                             send less
 *       patch: more than 511 bytes after the one that is rewritten               nothing: no payload is so long
 *       judge: a transfer of more than 512 bytes                                 correct the sender
 *  12   receive: the checksum differs; the transfer is dropped                   nothing; after a 31 a frame was lost; if always
 *                                                                                for one type, correct its signature
 *       judge: the checksum of a transfer differs                                correct the sender, or its type's signature
 *  13   setup, judge: own ID or subscriptions not allowed                        correct the arguments
 *       allocate: own ID 0 or over 127                                           give the allocator's node an ID by hand
 *  14   send: a value out of range, or an anonymous transfer that cannot be      correct the arguments
 *  15   decode: the payload ends inside a field                                  nothing: cut short, or of another type
 *       allocate: the payload is empty, so no Allocation message                 nothing: a faulty node
 *       encode from a row: the row has fewer numbers than the type               give all of them
 *  16   decode: bytes or items too many                                          nothing: of another type, or of a later version of it
 *       allocate: the payload is over 17 bytes, so no Allocation message         nothing: a faulty node
 *  17   decode: the node name of a GetNodeInfo response is none                  nothing: a faulty node
 *       encode: a list too long or of another length, a node name that is none,  correct the value; a number never answers 17, it is
 *       or, from a row, what is given for a float has more than 32 bits          clipped: see messages, below
 *  18   capture: a line of the log is not well formed                            correct the line; often a carriage return
 *  19   receive: interface number of 3 or more                                   number your interfaces from 0; with one, give 0
 *  20   setup: state or map too short                                            lend more
 *       receive, send: state or map too short, or it holds a value out of        set it up again, and look for what wrote over it
 *       range, toggle 1 with nothing gathered, two like entries, or a block
 *       that is not either free or in one session
 *       allocate: state too short, or it holds a value out of range, a unique    take the last good copy of it. Setup would lose the
 *       or node ID twice, or unique IDs out of order                             table, and with it whose the node IDs are
 *  21   allocate: a new node, and none of the IDs 1 to 125 is free               clear marks of nodes that are gone; known nodes still
 *                                                                                get their IDs
 *  22   uncapture, judge: the trailer is wrong                                   nothing: cut short, damaged, or no capture
 *  23   uncapture: a record that no line of a log can carry                      nothing: the recorder wrote a time, length or bytes
 *                                                                                that a log has no form for
 *  24   judge: the frame is not one that may come next on its stream             correct the sender; or a frame before this one is
 *                                                                                not in the capture, or it is there twice
 *  25   decode: bits left over at the end are not zero                           nothing: damaged, of another type, or a faulty node
 *  26   receive: no block is free for the frame's bytes; the transfer is         let fewer long transfers be sent at once, or
 *       dropped                                                                  subscribe to less: see blocks, below
 *  27   decode: the tag of a parameter's value is one that no case has           nothing: of another type, or of a later version of it
 *       encode: the same                                                         correct the tag
 *  30   receive: passed over, no start and no transfer in hand. The start was    nothing, if it is rare or follows an 11; if often,
 *       lost, refused or is more than 2,000,000 back; or a repeat of the last    frames are lost before this call: look at the bus
 *       frame; or the rest of a transfer that 11 or 26 dropped                   and at the driver's queue; after 8, 9 or 26 see there
 *  31   receive: passed over, wrong toggle. A repeat of a frame already taken,   nothing, if the transfer is handed out all the
 *       or a frame before this one was lost                                      same; if it ends with 12 or not at all, as for 30
 *  32   receive: passed over, not the transfer ID that is expected. A start      nothing, if that transfer was handed out; else as
 *       that repeats the transfer before; or a part of a transfer whose start    for 30, and if it goes on, look for two nodes
 *       was lost                                                                 with the same ID
 *  33   receive: passed over, a repeat of the start of the transfer in hand      nothing, if the transfer is handed out; else its
 *                                                                                sender begins again and again, or two nodes have
 *                                                                                the same ID
 *  34   receive: passed over, by another interface than the one that the         nothing: normal with several cables; if a stream
 *       stream follows                                                           has no other answer, the cable that it follows
 *                                                                                has failed: see interfaces, below
 *  40   signatures: a definition is not in the grammar. The result has the       correct that line of the text
 *       definition and the line, or line 0 if the name is no full name
 *  41   signatures: a nested type is not among the definitions, or is a          give its definition as well
 *       service
 *  42   signatures: types are nested in a circle, or more than 4 deep            nothing: such types cannot be
 *  43   signatures: more than 8 definitions, a text over 4096 bytes, lengths     give fewer, cut comments, give each name once
 *       past the source, or a name twice
 *
 * tecelume_judge also gives 2 to 5 and 7 as tecelume_receive does, for the frame that it names. tecelume_receive_many itself gives 0 or 20; each
 * frame has a number as from tecelume_receive in its own result.
 *
 * Under 2 to 9, 13 to 20, 22, 23, 25, 27, 31 to 34 and 40 to 43 a call leaves state, map, records, structs and out byte for byte as they were.
 * Under 11, 12, 26 and 30 tecelume_receive leaves out as it was. Of the sessions it changes the one of the frame's stream, under 30 only an
 * old one; under 12 it may have emptied old ones for a block, and under 26 a new session may have got an old one's place. A tecelume_send that
 * answers 11 changes nothing; tecelume_patch and tecelume_judge are lent nothing to write to. Under 21 tecelume_allocate leaves out as it was
 * and drops the gathered bytes of the unique ID. 10 is no answer any more: version 0.1 gave it for 30 to 33. */
enum tecelume_answer {
    TECELUME_SUCCESS = 0, /* of every call but tecelume_receive */
    TECELUME_TAKEN = 0,   /* of tecelume_receive */
    TECELUME_HANDED_OUT = 1,
    TECELUME_ID_TOO_LARGE = 2,
    TECELUME_DATA_LENGTH = 3,
    TECELUME_SERVICE_UNNAMED = 4,
    TECELUME_TAIL = 5,
    TECELUME_OTHER_NODE = 6,
    TECELUME_NO_SUBSCRIPTION = 7,
    TECELUME_OUTPUT_TOO_SMALL = 8,
    TECELUME_TABLE_FULL = 9,
    TECELUME_PAYLOAD_TOO_LONG = 11,
    TECELUME_CHECKSUM_DIFFERS = 12,
    TECELUME_SETUP_REFUSED = 13,
    TECELUME_NOT_SENDABLE = 14,
    TECELUME_PAYLOAD_ENDS = 15,
    TECELUME_TOO_MANY = 16,
    TECELUME_NOT_ALLOWED = 17,
    TECELUME_LINE_NOT_WELL_FORMED = 18,
    TECELUME_NO_INTERFACE = 19,
    TECELUME_STATE_FAULT = 20,
    TECELUME_NONE_FREE = 21,
    TECELUME_NO_CAPTURE = 22,
    TECELUME_NOT_CARRIED = 23,
    TECELUME_RULE_BROKEN = 24,
    TECELUME_PADDING_NOT_ZERO = 25,
    TECELUME_NO_BLOCK = 26,
    TECELUME_NO_SUCH_CASE = 27,
    TECELUME_NO_TRANSFER = 30, /* this and the next four: passed over */
    TECELUME_WRONG_TOGGLE = 31,
    TECELUME_WRONG_TRANSFER = 32,
    TECELUME_REPEATED_START = 33,
    TECELUME_OTHER_INTERFACE = 34,
    TECELUME_NOT_IN_GRAMMAR = 40,
    TECELUME_NESTED_NOT_GIVEN = 41,
    TECELUME_NESTED_TOO_DEEP = 42,
    TECELUME_DEFINITIONS_TOO_LARGE = 43
};

/* One line for each number that is an answer. */
static inline const char *tecelume_text(uint32_t number)
{
    switch (number) {
    case 0: return "taken, transfer unfinished (other calls: success)";
    case 1: return "payload handed out";
    case 2: return "CAN ID of 2^29 or more";
    case 3: return "no data bytes or more than 8";
    case 4: return "service with source or destination 0";
    case 5: return "tail byte does not fit the frame";
    case 6: return "service for another node";
    case 7: return "no subscription";
    case 8: return "output buffer too small";
    case 9: return "table full";
    case 11: return "payload over 512 bytes";
    case 12: return "checksum differs";
    case 13: return "own ID or subscriptions not allowed";
    case 14: return "transfer to send not allowed";
    case 15: return "payload ends in a field";
    case 16: return "bytes or items too many";
    case 17: return "value not allowed";
    case 18: return "log line not well formed";
    case 19: return "interface number of 3 or more";
    case 20: return "state or map too short or at fault";
    case 21: return "no node ID is free";
    case 22: return "not a capture: its trailer is wrong";
    case 23: return "a record that no log line can carry";
    case 24: return "not a frame that may come next on its stream";
    case 25: return "padding not zero";
    case 26: return "no block is free for the transfer's bytes";
    case 27: return "a tag that no case of its union has";
    case 30: return "passed over, no transfer in hand: its start was lost, or it is over already";
    case 31: return "passed over, wrong toggle: a repeat of a frame already taken, or a frame before this one was lost";
    case 32: return "passed over, wrong transfer ID: a repeat of the transfer before, or the start of this one was lost";
    case 33: return "passed over: a repeat of the start of the transfer in hand";
    case 34: return "passed over: by another interface than the one that the stream follows";
    case 40: return "a type definition is not in the grammar";
    case 41: return "a nested type is not given, or is a service";
    case 42: return "types nested in a circle, or more than 4 deep";
    case 43: return "more than 8 type definitions, a text over 4096 bytes, lengths past the source, or a name twice";
    default: return "unknown number";
    }
}

/* ---- results ---- */

/* What tecelume_receive, tecelume_receive_many, tecelume_send, tecelume_patch, tecelume_allocate, tecelume_signatures, tecelume_capture,
 * tecelume_uncapture, tecelume_judge and the functions that encode messages give. It is a struct so that a comparison with a number does not
 * compile: the number answered is only a part of it. The functions below read it. */
typedef struct {
    uint64_t word;
} tecelume_result;

/* The number answered. */
static inline uint32_t tecelume_number(tecelume_result result)
{
    return (uint32_t)(result.word & 255);
}

/* The transfer ID, 0 to 31, after which a sender goes on with 0. Of tecelume_receive under 1: that of the transfer handed out. Of
 * tecelume_send under 0: that of the frames; a client finds the response to its request by it, as a response has its request's. 0 under any
 * other number. */
static inline uint32_t tecelume_transfer_id(tecelume_result result)
{
    return (uint32_t)(result.word >> 55 & 31);
}

/* ---- setup ---- */

enum tecelume_kind {
    TECELUME_KIND_MESSAGE = 0,
    TECELUME_KIND_SERVICE = 1  /* requests and responses share one subscription */
};

/* The signature of a standard type: messages 341 (NodeStatus), 1 (Allocation), 16370 (KeyValue), 16383 (LogMessage), 1092
 * (BatteryInfo) and 1030 (RawCommand), services 1 (GetNodeInfo), 11 (GetSet) and 10 (ExecuteOpcode). 0 for any other kind or type ID.
 *
 * Check for 0. Setup and send accept every signature, 0 too. Single frames then come through, but transfers of several frames fail with 12:
 * here, if a sender has the right signature, and at every receiver that has it. tecelume_signatures works out the signature of a
 * type of your own. */
uint64_t tecelume_signature(uint32_t kind, uint32_t type_id);

/* Writes a subscription record of TECELUME_SUBSCRIPTION_SIZE bytes and gives the place after it, where the next one goes. It checks
 * nothing: setup does, except for the signature. A kind over 255 becomes 255, which setup refuses as well; cut to a byte it might become
 * one that is allowed. */
static inline uint8_t *tecelume_subscription(uint8_t *record, uint32_t kind, uint32_t type_id, uint64_t signature)
{
    int i;
    *record++ = (uint8_t)(kind < 255 ? kind : 255);
    for (i = 0; i < 4; i++)
        *record++ = (uint8_t)(type_id >> (8 * i) & 255);
    for (i = 0; i < 8; i++)
        *record++ = (uint8_t)(signature >> (8 * i) & 255);
    return record;
}

/* The bytes of a receiver's state, TECELUME_RECEIVER_SIZE. */
uint64_t tecelume_receiver_size(void);

/* Sets a receiver up. To change the own ID or the subscriptions is a new setup: it loses all sessions, and with them what they have
 * gathered and which transfers they would know as repeats.
 *
 * Takes    state          at least TECELUME_RECEIVER_SIZE bytes, with any content
 *          own            the own node ID, 1 to 127, or 0 for none yet: then no service frame is for this node
 *          subscriptions  records one after another, at most TECELUME_SUBSCRIPTIONS_MAX, or none. Their order changes no answer; but
 *                         where proofs speak of equal setups (RULES 14.2), the order counts
 * Gives    0: the first TECELUME_RECEIVER_SIZE bytes of state are a receiver without sessions; bytes after them stay.
 * Refuses  20, state too short; then
 *          13, own over 127, a length that is no multiple of 13, too many records, a kind other than 0 and 1, a type ID over 65535
 *          (of a service over 255), or one kind and type twice, with equal or different signatures.
 * Costs    writes the whole state once and compares each two records. */
uint32_t tecelume_setup(uint8_t *state, size_t state_len, uint32_t own, const uint8_t *subscriptions, size_t subscriptions_len);

/* ---- time ---- */

/* tecelume_receive, tecelume_send and tecelume_allocate take the time in microseconds of any clock; every value is allowed. The age of a
 * session, a map entry or an allocator's gathered bytes is the call's time less the stored one, and 0 if the stored one is later. So a
 * clock that runs back makes them seem younger. What is proved of the delivery of a stream asks for a clock that does not run back
 * (RULES 14.6).
 *
 * A 32-bit timer of microseconds runs back when it wraps, after 71 minutes. What was stored before the wrap has age 0 for up to 71 minutes
 * after it, and what was stored in the last two seconds before it never grows old; for a stream this ends with its next start that is
 * taken, for a topic with its next send. Until then they keep their places, and streams their blocks, so that new streams and topics may
 * answer 9, and transfers 26, a start with the transfer ID of the stream's last transfer answers 32, however late it comes, and of a stream
 * whose cable has failed, what comes by another one answers 34. Count the wraps, and give the time in 64 bits. */

/* ---- reception ---- */

/* A stream is a transfer type, type ID, source and destination. A receiver follows each stream in a session of its own (RULES 4.3); only
 * anonymous messages need none. Single frames use sessions too, by which repeats are known. A session begins with a start and keeps its
 * place until it is old and the start of a new stream needs one. It is old once the last start taken of its stream is more than 2,000,000
 * microseconds back, at exactly 2,000,000 not yet; frames that are no start, and starts that were passed over, do not count.
 *
 * There are TECELUME_SESSIONS_MAX sessions. So if 40 nodes send a message each second, 32 of them are heard; the starts of the other 8
 * answer 9, and what follows a start 30. */

/* ---- blocks ---- */

/* The bytes of unfinished transfers, payload and two of checksum, lie in TECELUME_BLOCKS blocks of TECELUME_BLOCK_SIZE bytes, which all
 * sessions share (RULES 4.12). A session has just as many as its bytes need, nine for the longest payload, and gives all of them back when
 * its transfer is handed out or dropped, when it begins anew and when it loses its place. Single frames need none.
 *
 * When a frame needs a block and none is free, all old sessions drop the transfers that they have in hand. If none is free even then, the
 * answer is 26, which drops the frame's transfer and no other; its end may be so answered, too. A start so answered counts as the last start
 * of its stream: a repeat of it answers 32, and the rest of its transfer 30. The next transfer of the stream is taken as soon as there is a
 * block.
 *
 * There is always a block (RULES 4.13) for up to 7 transfers at once of any length, for 8 of up to 510 bytes, for 16 of up to 254, and for
 * 32, so for all sessions, of up to 126. Transfers that were begun more than 2,000,000 microseconds ago do not count. */

/* ---- interfaces ---- */

/* A node may be on up to TECELUME_INTERFACES buses, each with a cable of its own, that carry the same transfers. A frame comes with the
 * number of the interface that it came by, 0 to 2. A node with one cable gives 0 with every frame.
 *
 * A session follows the interface of the start that it began with, and frames of its stream by another one answer 34 (RULES 4.5, 4.6):
 * so a transfer that comes by all cables is handed out once. The session switches when a start comes by another interface more than
 * 1,000,000 microseconds after the last start taken, at exactly 1,000,000 not yet, if the start has the transfer ID that is expected next
 * or one of the 15 after it; the session then begins anew with that start. An old session follows the interface of the next frame of its
 * stream. So a stream whose cable fails is heard again by another: not in the second after the last start taken, and at the latest from
 * its first start after two seconds. An anonymous message has no session and is handed out as often as it comes, by each interface.
 *
 * On one cable all is as in version 0.1 but for the numbers 30 to 33 and one thing more. A start that repeats the transfer ID in hand more
 * than 1,000,000 microseconds after the start that was taken begins the transfer anew, and answers 0 (1, if it is a single frame); version
 * 0.1 passed it over. */

/* Receives one frame as a result word (RULES 13.3), for callers in other languages. C programs call tecelume_receive. */
uint64_t tecelume_receive_word(uint8_t *state, size_t state_len, uint32_t id, const uint8_t *frame, size_t frame_len,
                               uint32_t interface_number, uint64_t time, uint8_t *out, size_t out_len);

/* Receives one frame.
 *
 * Takes    state             as setup and earlier calls left it
 *          id                the 29-bit CAN ID without flags. Leave out remote frames, error frames and frames with an 11-bit ID, as no
 *                            call can tell them from others. From SocketCAN: can_id & CAN_EFF_MASK of the frames in which, of
 *                            CAN_EFF_FLAG, CAN_RTR_FLAG and CAN_ERR_FLAG, only CAN_EFF_FLAG is set
 *          frame             the data bytes, the tail byte last
 *          interface_number  which interface the frame came by, 0 to 2; 0 if there is one only: see above
 *          time              when the frame came, in microseconds: see above
 *          out               at least TECELUME_OUTPUT_SIZE bytes at every frame, as each may complete a transfer
 * Gives    a result, to be read by the functions above and below.
 *          1: the payload is at the front of out, bytes after it stay. The result also says whose it is.
 *          0: the frame was taken and its transfer goes on.
 * Refuses  20; then the first match of 2, 3, 19 and 4 to 8 (RULES 4.1); then 9 (4.3); then, of a start, the first match of 34, 32 and 33,
 *          and of any other frame that of 34, 30, 32 and 31 (4.3, 4.5, 4.6); then 11, 26 and 12 (4.8). All leave out as it was, and so does
 *          0.
 * Costs    the check for 20, which grows with the subscriptions and sessions in use; a look at the session; the checksum, once, at the
 *          end of a transfer of several frames. In libtecelume.a at most 2048 bytes of stack, besides what memcpy and its like take. */
static inline tecelume_result tecelume_receive(uint8_t *state, size_t state_len, uint32_t id, const uint8_t *frame, size_t frame_len,
                                               uint32_t interface_number, uint64_t time, uint8_t *out, size_t out_len)
{
    tecelume_result result;
    result.word = tecelume_receive_word(state, state_len, id, frame, frame_len, interface_number, time, out, out_len);
    return result;
}

/* ---- several frames in one call ---- */

/* Writes the record of a frame that came, TECELUME_ARRIVAL_SIZE bytes with low bytes first, and gives the place after it, where the next
 * one goes. The arguments are those of tecelume_receive. It checks nothing: tecelume_receive_many does. A length or an interface number
 * over 255 becomes 255, which is refused as well. A struct of uint64_t, uint32_t, two uint8_t and uint8_t[8] is such a record on a
 * little-endian machine whose compiler gives it this size. */
static inline uint8_t *tecelume_arrival(uint8_t *record, uint32_t id, const uint8_t *frame, size_t frame_len, uint32_t interface_number,
                                        uint64_t time)
{
    size_t i;
    for (i = 0; i < 8; i++)
        *record++ = (uint8_t)(time >> (8 * i) & 255);
    for (i = 0; i < 4; i++)
        *record++ = (uint8_t)(id >> (8 * i) & 255);
    *record++ = (uint8_t)(interface_number < 255 ? interface_number : 255);
    *record++ = (uint8_t)(frame_len < 255 ? frame_len : 255);
    for (i = 0; i < 10; i++)
        *record++ = (uint8_t)(i < 8 && i < frame_len ? frame[i] : 0);
    return record;
}

/* Receives several frames as a result word (RULES 13.3), for callers in other languages. C programs call tecelume_receive_many. */
uint64_t tecelume_receive_many_word(uint8_t *state, size_t state_len, const uint8_t *records, size_t records_len, uint8_t *results,
                                    size_t results_len, uint8_t *out, size_t out_len);

/* Receives frames one after the other, each as a call of tecelume_receive would, with one check of the state for all of them.
 *
 * Takes    state    as setup and earlier calls left it
 *          records  the frames in the order in which they came, as from tecelume_arrival. Bytes after the last whole record are not read
 *          results  TECELUME_RESULT_SIZE bytes for each record; with fewer, fewer records are used up
 *          out      at least TECELUME_OUTPUT_SIZE bytes, better more: see below. With fewer, records are used up all the same, and their
 *                   frames answer 8 where they get so far
 * Gives    a result: 0, and tecelume_used of it says how many records were used up, from the first on: at least one, if there is one and room
 *          for its result. tecelume_result_at gives the result of each, as tecelume_receive would have given it. The payloads of those that
 *          answer 1 are in out, one after the other from the front, each as long as its result says; bytes after them stay, and so do
 *          results after the last.
 *          The call ends with records left when a payload leaves fewer than TECELUME_OUTPUT_SIZE bytes of out: use the payloads, and call
 *          again with the rest. So with TECELUME_OUTPUT_SIZE bytes it ends at each payload that is not empty. To hear 32 single frames in
 *          one call, lend 32 * 7 bytes more. It also ends after TECELUME_RECORDS_MAX records.
 * Refuses  20: no record is used up, and nothing is written. What is wrong with a frame is in its own result.
 * Costs    the check for 20 once; then of each frame what tecelume_receive does after it. In libtecelume.a at most 2048 bytes of stack, besides
 *          what memcpy and its like take. */
static inline tecelume_result tecelume_receive_many(uint8_t *state, size_t state_len, const uint8_t *records, size_t records_len,
                                                    uint8_t *results, size_t results_len, uint8_t *out, size_t out_len)
{
    tecelume_result result;
    result.word = tecelume_receive_many_word(state, state_len, records, records_len, results, results_len, out, out_len);
    return result;
}

/* How many records tecelume_receive_many used up; 0 under a refusal. */
static inline size_t tecelume_used(tecelume_result result)
{
    return (size_t)(result.word >> 8);
}

/* The result of record i, of those used up. It is read as one of tecelume_receive is. */
static inline tecelume_result tecelume_result_at(const uint8_t *results, size_t i)
{
    const uint8_t *r = results + i * TECELUME_RESULT_SIZE;
    uint32_t low = (uint32_t)r[0] | (uint32_t)r[1] << 8 | (uint32_t)r[2] << 16 | (uint32_t)r[3] << 24;
    uint32_t high = (uint32_t)r[4] | (uint32_t)r[5] << 8 | (uint32_t)r[6] << 16 | (uint32_t)r[7] << 24;
    tecelume_result result;
    result.word = (uint64_t)high << 32 | low;
    return result;
}

/* ---- the transfer that tecelume_receive handed out: with a number other than 1 each gives 0 ---- */

enum tecelume_transfer {
    TECELUME_MESSAGE = 0,
    TECELUME_REQUEST = 1,
    TECELUME_RESPONSE = 2
};

/* Bytes of payload, 0 to 512. Also of a message that was encoded, under 0. */
static inline size_t tecelume_length(tecelume_result result)
{
    return (size_t)(result.word >> 8 & 1023);
}

/* TECELUME_MESSAGE, TECELUME_REQUEST or TECELUME_RESPONSE. */
static inline uint32_t tecelume_transfer_type(tecelume_result result)
{
    return (uint32_t)(result.word >> 18 & 3);
}

static inline uint32_t tecelume_type_id(tecelume_result result)
{
    return (uint32_t)(result.word >> 20 & 65535);
}

/* The sending node, 0 for an anonymous message. */
static inline uint32_t tecelume_source(tecelume_result result)
{
    return (uint32_t)(result.word >> 36 & 127);
}

/* The own ID for a request or response, 0 for a message. */
static inline uint32_t tecelume_destination(tecelume_result result)
{
    return (uint32_t)(result.word >> 43 & 127);
}

/* Of the frame that completed the transfer; 0 is the highest. */
static inline uint32_t tecelume_priority(tecelume_result result)
{
    return (uint32_t)(result.word >> 50 & 31);
}

/* ---- sending ---- */

/* The transfer-ID map counts the messages and requests that a node sends. It has TECELUME_MAP_ENTRIES_MAX entries, each for one topic:
 * transfer type, type ID and destination. The own ID is no part of it, and anonymous messages share the entry of named ones. An entry has
 * the next transfer ID and the time of the last send. A new topic takes the first empty entry, else the first that was unused for 2,000,000
 * microseconds or longer, exactly 2,000,000 included, and counts from 0; else the send answers 9. A topic that was replaced counts from 0
 * again when it comes back. One that still has its entry goes on, however long it was unused. Responses use no entry. */

/* The bytes of a transfer-ID map, TECELUME_MAP_SIZE. */
uint64_t tecelume_map_size(void);

/* Sets a map up.
 *
 * Takes    map  at least TECELUME_MAP_SIZE bytes, with any content
 * Gives    0: the first TECELUME_MAP_SIZE bytes of map are a map without entries; bytes after them stay.
 * Refuses  20, map too short; it stays as it was.
 * Costs    writes the map once. */
uint32_t tecelume_map_setup(uint8_t *map, size_t map_len);

/* Sends as a result word (RULES 13.3), for callers in other languages. C programs call tecelume_send. */
uint64_t tecelume_send_word(uint8_t *map, size_t map_len, uint32_t own, uint32_t transfer_type, uint32_t type_id, uint32_t destination,
                            uint32_t priority, const uint8_t *payload, size_t payload_len, uint64_t signature, uint64_t time,
                            uint32_t transfer_id, uint32_t discriminator, uint8_t *out, size_t out_len);

/* Turns a payload into the frames of a transfer. It puts nothing on a bus; a node on several puts the same frames on each.
 *
 * Takes    map            as setup and earlier sends left it
 *          own            the own node ID, 1 to 127, or 0 to send anonymously: then a message of type 0 to 3 with at most 7 bytes
 *          transfer_type  TECELUME_MESSAGE, TECELUME_REQUEST or TECELUME_RESPONSE
 *          type_id        0 to 65535, of a service 0 to 255
 *          destination    0 for a message, 1 to 127 for a service
 *          priority       0, the highest, to 31
 *          payload        at most TECELUME_PAYLOAD_MAX bytes
 *          signature      of the data type, in the checksum of a payload over 7 bytes. Not 0 from tecelume_signature: see there
 *          time           now, in microseconds: see above
 *          transfer_id    of a response: that of its request, 0 to 31. Elsewhere ignored, as the map counts
 *          discriminator  of an anonymous message: any number of 14 bits, a random one is best. Elsewhere ignored
 *          out            at least TECELUME_SEND_SIZE(payload_len) bytes
 * Gives    a result: 0, with tecelume_frames of it records at the front of out, to be put on the bus in their order, and
 *          tecelume_transfer_id of it in their tail bytes. Bytes after the records stay.
 * Refuses  first match of 20, 14, 11, 8 and 9 (RULES 7.3). All leave map and out as they were, and no transfer ID is used up.
 * Costs    the check for 20, which grows with the entries in use; a search of the map; the checksum and a copy of the payload. In
 *          libtecelume.a at most 1024 bytes of stack, besides what memcpy and its like take. */
static inline tecelume_result tecelume_send(uint8_t *map, size_t map_len, uint32_t own, uint32_t transfer_type, uint32_t type_id,
                                            uint32_t destination, uint32_t priority, const uint8_t *payload, size_t payload_len,
                                            uint64_t signature, uint64_t time, uint32_t transfer_id, uint32_t discriminator, uint8_t *out,
                                            size_t out_len)
{
    tecelume_result result;
    result.word = tecelume_send_word(map, map_len, own, transfer_type, type_id, destination, priority, payload, payload_len, signature,
                                     time, transfer_id, discriminator, out, out_len);
    return result;
}

/* The number of records in out; with a number other than 0 it gives 0. */
static inline size_t tecelume_frames(tecelume_result result)
{
    return (size_t)(result.word >> 8 & 127);
}

/* ---- a record of tecelume_send ---- */

/* The CAN ID, below 2^29. */
static inline uint32_t tecelume_record_id(const uint8_t *record)
{
    return (uint32_t)record[0] | (uint32_t)record[1] << 8 | (uint32_t)record[2] << 16 | (uint32_t)record[3] << 24;
}

/* How many data bytes the frame has, 1 to 8. */
static inline size_t tecelume_record_length(const uint8_t *record)
{
    return record[4];
}

/* The data bytes; of the eight, those that the frame does not have are zero. */
static inline const uint8_t *tecelume_record_data(const uint8_t *record)
{
    return record + 5;
}

/* ---- messages ---- */

/* The standard types (RULES 10) as structs, with the names of the public definitions. For each there is a function that reads a payload, as
 * tecelume_receive hands it out, into a struct, and one that writes the payload of a struct, for tecelume_send:
 *
 *     uint32_t tecelume_decode_node_status(const uint8_t *payload, size_t payload_len, tecelume_node_status *message);
 *     tecelume_result tecelume_encode_node_status(const tecelume_node_status *message, uint8_t *out, size_t out_len);
 *
 * Reading gives the number answered. 0: all of the struct is filled. Otherwise the struct stays as it was, and the number is that of the first
 * field that fails, 15, 16, 25, 27 or 17 (RULES 9.6).
 *
 * Writing gives a result. 0: tecelume_length of it bytes are at the front of out, bytes after them stay. Otherwise out stays as it was, and
 * the number is the first match of 27, 17 and 8 (RULES 9.7). SIZE bytes of out, by the constants below, do for every message of a type. A byte of
 * several fields is put together bit by bit: if out was never set, a memory checker may complain of it later, without cause.
 *
 * - A number that its field does not hold is written as the nearest that it holds (RULES 9.14): health 5 as 3, node ID 200 as 127. Members
 *   have 32 bits or more, so that C cuts no number of 32 bits before that. C makes a large number of one below 0 in an unsigned member:
 *   health -1 is written as 3, too.
 * - A list of bytes is a pointer and a length; no call copies it, and no zero ends it. Reading points into the payload, so what it gives is
 *   good as long as the payload is: of one from tecelume_receive, until the next call with the same out. In writing an empty list may be
 *   (NULL, 0), and no list may overlap out: what was read is not written back into the payload's own buffer.
 * - A float of 16 bits is read exactly and written as the nearest there is, at most 65504; each NaN is read as the bits 0x7FC00000 and written
 *   as 0x7E00 (RULES 9.12). A float of 32 bits keeps its bits both ways, those of a NaN too.
 *
 * All are reentrant and need no state. On a Cortex-M4 they take up to 1,400 bytes of stack, most of them under 500. A linker leaves out what is
 * not called (-Wl,--gc-sections). */

/* Data type IDs. A message and a service may have the same: tecelume_transfer_type tells them apart. */
enum tecelume_type {
    TECELUME_NODE_STATUS = 341,
    TECELUME_ALLOCATION = 1,
    TECELUME_KEY_VALUE = 16370,
    TECELUME_LOG_MESSAGE = 16383,
    TECELUME_BATTERY_INFO = 1092,
    TECELUME_RAW_COMMAND = 1030,
    TECELUME_GET_NODE_INFO = 1, /* this and the next two: services */
    TECELUME_GET_SET = 11,
    TECELUME_EXECUTE_OPCODE = 10
};

/* The longest payloads, in bytes. */
#define TECELUME_NODE_STATUS_SIZE 7
#define TECELUME_GET_NODE_INFO_RESPONSE_SIZE 376 /* the request is empty */
#define TECELUME_ALLOCATION_SIZE 17
#define TECELUME_KEY_VALUE_SIZE 62
#define TECELUME_LOG_MESSAGE_SIZE 122
#define TECELUME_BATTERY_INFO_SIZE 54
#define TECELUME_RAW_COMMAND_SIZE 35
#define TECELUME_GET_SET_REQUEST_SIZE 223
#define TECELUME_GET_SET_RESPONSE_SIZE 370
#define TECELUME_EXECUTE_OPCODE_REQUEST_SIZE 7
#define TECELUME_EXECUTE_OPCODE_RESPONSE_SIZE 7

/* The most commands of a RawCommand. */
#define TECELUME_COMMANDS_MAX 20

/* ---- constants of the public definitions ---- */

enum tecelume_health {
    TECELUME_HEALTH_OK = 0,
    TECELUME_HEALTH_WARNING = 1,
    TECELUME_HEALTH_ERROR = 2,
    TECELUME_HEALTH_CRITICAL = 3
};

enum tecelume_mode {
    TECELUME_MODE_OPERATIONAL = 0,
    TECELUME_MODE_INITIALIZATION = 1,
    TECELUME_MODE_MAINTENANCE = 2,
    TECELUME_MODE_SOFTWARE_UPDATE = 3,
    TECELUME_MODE_OFFLINE = 7
};

enum tecelume_node_status_times {
    TECELUME_MAX_BROADCASTING_PERIOD_MS = 1000,
    TECELUME_MIN_BROADCASTING_PERIOD_MS = 2,
    TECELUME_OFFLINE_TIMEOUT_MS = 3000
};

enum tecelume_allocation_times {
    TECELUME_MAX_REQUEST_PERIOD_MS = 1000,
    TECELUME_MIN_REQUEST_PERIOD_MS = 600,
    TECELUME_MAX_FOLLOWUP_DELAY_MS = 400,
    TECELUME_MIN_FOLLOWUP_DELAY_MS = 0,
    TECELUME_FOLLOWUP_TIMEOUT_MS = 500
};

#define TECELUME_MAX_LENGTH_OF_UNIQUE_ID_IN_REQUEST 6
#define TECELUME_ANY_NODE_ID 0

enum tecelume_optional_field_flag {
    TECELUME_OPTIONAL_FIELD_FLAG_VCS_COMMIT = 1,
    TECELUME_OPTIONAL_FIELD_FLAG_IMAGE_CRC = 2
};

enum tecelume_log_level {
    TECELUME_LOG_LEVEL_DEBUG = 0,
    TECELUME_LOG_LEVEL_INFO = 1,
    TECELUME_LOG_LEVEL_WARNING = 2,
    TECELUME_LOG_LEVEL_ERROR = 3
};

enum tecelume_battery_status_flag {
    TECELUME_STATUS_FLAG_IN_USE = 1,
    TECELUME_STATUS_FLAG_CHARGING = 2,
    TECELUME_STATUS_FLAG_CHARGED = 4,
    TECELUME_STATUS_FLAG_TEMP_HOT = 8,
    TECELUME_STATUS_FLAG_TEMP_COLD = 16,
    TECELUME_STATUS_FLAG_OVERLOAD = 32,
    TECELUME_STATUS_FLAG_BAD_BATTERY = 64,
    TECELUME_STATUS_FLAG_NEED_SERVICE = 128,
    TECELUME_STATUS_FLAG_BMS_ERROR = 256,
    TECELUME_STATUS_FLAG_RESERVED_A = 512,
    TECELUME_STATUS_FLAG_RESERVED_B = 1024
};

#define TECELUME_STATE_OF_HEALTH_UNKNOWN 127

enum tecelume_opcode {
    TECELUME_OPCODE_SAVE = 0,
    TECELUME_OPCODE_ERASE = 1
};

/* The cases of a parameter's value. Of a numeric value only the first three are cases. */
enum tecelume_param_tag {
    TECELUME_PARAM_EMPTY = 0,
    TECELUME_PARAM_INTEGER_VALUE = 1,
    TECELUME_PARAM_REAL_VALUE = 2,
    TECELUME_PARAM_BOOLEAN_VALUE = 3,
    TECELUME_PARAM_STRING_VALUE = 4
};

/* ---- structs ---- */

/* A list of bytes that the struct does not own. */
typedef struct {
    const uint8_t *at;
    size_t len;
} tecelume_bytes;

static inline tecelume_bytes tecelume_list(const void *at, size_t len)
{
    tecelume_bytes list;
    list.at = (const uint8_t *)at;
    list.len = len;
    return list;
}

/* Message 341. Reading answers 15 and 16. The sub-mode is read as 0, and written as 0 whatever it is. */
typedef struct {
    uint32_t uptime_sec;
    uint32_t health; /* enum tecelume_health, 0 to 3 */
    uint32_t mode;   /* enum tecelume_mode, 0 to 7 */
    uint32_t sub_mode;
    uint32_t vendor_specific_status_code;
} tecelume_node_status;

typedef struct {
    uint32_t major, minor;
    uint32_t optional_field_flags; /* enum tecelume_optional_field_flag: which of the next two are given */
    uint32_t vcs_commit;
    uint64_t image_crc;
} tecelume_software_version;

typedef struct {
    uint32_t major, minor;
    tecelume_bytes unique_id;                   /* exactly TECELUME_UNIQUE_ID_SIZE bytes */
    tecelume_bytes certificate_of_authenticity; /* up to 255 bytes */
} tecelume_hardware_version;

/* Service 1, the response. Reading answers 15, 16, and 17 for a name that is none. */
typedef struct {
    tecelume_node_status status;
    tecelume_software_version software_version;
    tecelume_hardware_version hardware_version;
    tecelume_bytes name; /* 1 to 80 bytes, each of a-z, 0-9, dot, dash and underscore */
} tecelume_get_node_info_response;

/* Message 1. Reading answers 15 and 16. */
typedef struct {
    uint32_t node_id;                 /* 0 to 127, TECELUME_ANY_NODE_ID */
    uint32_t first_part_of_unique_id; /* 0 or 1 */
    tecelume_bytes unique_id;         /* up to 16 bytes */
} tecelume_allocation;

/* Message 16370. Reading answers 15 and 16. */
typedef struct {
    float value;
    tecelume_bytes key; /* up to 58 bytes */
} tecelume_key_value;

/* Message 16383. Reading answers 15 and 16. */
typedef struct {
    uint32_t level;        /* enum tecelume_log_level, 0 to 7 */
    tecelume_bytes source; /* up to 31 bytes */
    tecelume_bytes text;   /* up to 90 bytes */
} tecelume_log_message;

/* Message 1092. Reading answers 15 and 16. The floats have 16 bits in the payload. */
typedef struct {
    float temperature;             /* kelvin */
    float voltage;                 /* volt */
    float current;                 /* ampere */
    float average_power_10sec;     /* watt */
    float remaining_capacity_wh;   /* watt hours */
    float full_charge_capacity_wh; /* watt hours */
    float hours_to_full_charge;
    uint32_t status_flags;              /* enum tecelume_battery_status_flag, 11 bits */
    uint32_t state_of_health_pct;       /* 0 to 127, TECELUME_STATE_OF_HEALTH_UNKNOWN */
    uint32_t state_of_charge_pct;       /* 0 to 127 */
    uint32_t state_of_charge_pct_stdev; /* 0 to 127 */
    uint32_t battery_id;
    uint32_t model_instance_id;
    tecelume_bytes model_name; /* up to 31 bytes */
} tecelume_battery_info;

/* Message 1030. Reading answers 16 and 25; it leaves the places past the count 0. Writing ignores these, and answers 17 for more than 20. */
typedef struct {
    size_t count;
    int32_t cmd[TECELUME_COMMANDS_MAX]; /* -8192 to 8191 */
} tecelume_raw_command;

/* The value of a parameter: the member that the tag names, and no other. Reading leaves the others 0 or empty; writing does not look at them,
 * so they need not be set. A tag that no case has answers 27, in writing before any other refusal. */
typedef struct {
    uint32_t tag; /* enum tecelume_param_tag */
    int64_t integer_value;
    float real_value;
    uint32_t boolean_value;
    tecelume_bytes string_value; /* up to 128 bytes */
} tecelume_param_value;

typedef struct {
    uint32_t tag; /* TECELUME_PARAM_EMPTY, TECELUME_PARAM_INTEGER_VALUE or TECELUME_PARAM_REAL_VALUE */
    int64_t integer_value;
    float real_value;
} tecelume_param_numeric_value;

/* Service 11, the request. Reading answers 15, 16 and 27. An empty value asks for a parameter, any other sets it; with an empty name it is
 * found by its index. */
typedef struct {
    uint32_t index; /* 0 to 8191 */
    tecelume_param_value value;
    tecelume_bytes name; /* up to 92 bytes */
} tecelume_get_set_request;

/* Service 11, the response. Reading answers 15, 16 and 27. */
typedef struct {
    tecelume_param_value value;
    tecelume_param_value default_value;
    tecelume_param_numeric_value max_value;
    tecelume_param_numeric_value min_value;
    tecelume_bytes name; /* up to 92 bytes */
} tecelume_get_set_response;

/* Service 10, the request. Reading answers 15 and 16. */
typedef struct {
    uint32_t opcode;  /* enum tecelume_opcode */
    int64_t argument; /* of 48 bits */
} tecelume_execute_opcode_request;

/* Service 10, the response. Reading answers 15, 16 and 25. */
typedef struct {
    int64_t argument; /* of 48 bits */
    uint32_t ok;      /* 0 or 1 */
} tecelume_execute_opcode_response;

/* ---- rows ---- */

/* The entries below are for callers in other languages, and for the functions on structs; C programs call these. A message is a row of numbers
 * of 64 bits (RULES 13.5), as many as FIELDS says, one or more for each field, in the order of the definition:
 *
 * - a number: itself; a signed one in two's complement. In writing, one that the field does not hold is clipped.
 * - a float, of 16 or 32 bits: the 32 bits of a float32. In writing, one of more than 32 bits answers 17.
 * - a list of bytes: its place in the payload, from 0, and its length. In writing neither is looked at: each list is a slice of its own.
 * - the list of RawCommand: its count, and 20 numbers, those past the count 0. In writing these are not looked at.
 * - the value of a parameter: its tag; the integer, float or boolean of its case, or 0; of a Value, not of a NumericValue, then the place and
 *   the length of its text.
 *
 * Reading gives the number alone, as above, then 8 if there are fewer places than FIELDS. Writing gives a result word (RULES 13.3), as above;
 * 15, before all else, if there are fewer numbers than FIELDS. Places and numbers past FIELDS are not touched. */

#define TECELUME_NODE_STATUS_FIELDS 5
#define TECELUME_GET_NODE_INFO_REQUEST_FIELDS 0
#define TECELUME_GET_NODE_INFO_RESPONSE_FIELDS 18
#define TECELUME_ALLOCATION_FIELDS 4
#define TECELUME_KEY_VALUE_FIELDS 3
#define TECELUME_LOG_MESSAGE_FIELDS 5
#define TECELUME_BATTERY_INFO_FIELDS 15
#define TECELUME_RAW_COMMAND_FIELDS (1 + TECELUME_COMMANDS_MAX)
#define TECELUME_GET_SET_REQUEST_FIELDS 7
#define TECELUME_GET_SET_RESPONSE_FIELDS 14
#define TECELUME_EXECUTE_OPCODE_REQUEST_FIELDS 2
#define TECELUME_EXECUTE_OPCODE_RESPONSE_FIELDS 2

uint32_t tecelume_decode_node_status_fields(const uint8_t *payload, size_t payload_len, uint64_t *fields, size_t fields_len);
uint64_t tecelume_encode_node_status_fields(const uint64_t *fields, size_t fields_len, uint8_t *out, size_t out_len);
uint32_t tecelume_decode_get_node_info_request_fields(const uint8_t *payload, size_t payload_len, uint64_t *fields, size_t fields_len);
uint64_t tecelume_encode_get_node_info_request_fields(const uint64_t *fields, size_t fields_len, uint8_t *out, size_t out_len);
uint32_t tecelume_decode_get_node_info_response_fields(const uint8_t *payload, size_t payload_len, uint64_t *fields, size_t fields_len);
uint64_t tecelume_encode_get_node_info_response_fields(const uint64_t *fields, size_t fields_len, const uint8_t *unique_id,
                                                       size_t unique_id_len, const uint8_t *certificate_of_authenticity,
                                                       size_t certificate_of_authenticity_len, const uint8_t *name, size_t name_len,
                                                       uint8_t *out, size_t out_len);
uint32_t tecelume_decode_allocation_fields(const uint8_t *payload, size_t payload_len, uint64_t *fields, size_t fields_len);
uint64_t tecelume_encode_allocation_fields(const uint64_t *fields, size_t fields_len, const uint8_t *unique_id, size_t unique_id_len,
                                           uint8_t *out, size_t out_len);
uint32_t tecelume_decode_key_value_fields(const uint8_t *payload, size_t payload_len, uint64_t *fields, size_t fields_len);
uint64_t tecelume_encode_key_value_fields(const uint64_t *fields, size_t fields_len, const uint8_t *key, size_t key_len, uint8_t *out,
                                          size_t out_len);
uint32_t tecelume_decode_log_message_fields(const uint8_t *payload, size_t payload_len, uint64_t *fields, size_t fields_len);
uint64_t tecelume_encode_log_message_fields(const uint64_t *fields, size_t fields_len, const uint8_t *source, size_t source_len,
                                            const uint8_t *text, size_t text_len, uint8_t *out, size_t out_len);
uint32_t tecelume_decode_battery_info_fields(const uint8_t *payload, size_t payload_len, uint64_t *fields, size_t fields_len);
uint64_t tecelume_encode_battery_info_fields(const uint64_t *fields, size_t fields_len, const uint8_t *model_name, size_t model_name_len,
                                             uint8_t *out, size_t out_len);
uint32_t tecelume_decode_raw_command_fields(const uint8_t *payload, size_t payload_len, uint64_t *fields, size_t fields_len);
uint64_t tecelume_encode_raw_command_fields(const uint64_t *fields, size_t fields_len, uint8_t *out, size_t out_len);
uint32_t tecelume_decode_get_set_request_fields(const uint8_t *payload, size_t payload_len, uint64_t *fields, size_t fields_len);
uint64_t tecelume_encode_get_set_request_fields(const uint64_t *fields, size_t fields_len, const uint8_t *string_value,
                                                size_t string_value_len, const uint8_t *name, size_t name_len, uint8_t *out,
                                                size_t out_len);
uint32_t tecelume_decode_get_set_response_fields(const uint8_t *payload, size_t payload_len, uint64_t *fields, size_t fields_len);
uint64_t tecelume_encode_get_set_response_fields(const uint64_t *fields, size_t fields_len, const uint8_t *string_value,
                                                 size_t string_value_len, const uint8_t *default_string_value,
                                                 size_t default_string_value_len, const uint8_t *name, size_t name_len, uint8_t *out,
                                                 size_t out_len);
uint32_t tecelume_decode_execute_opcode_request_fields(const uint8_t *payload, size_t payload_len, uint64_t *fields, size_t fields_len);
uint64_t tecelume_encode_execute_opcode_request_fields(const uint64_t *fields, size_t fields_len, uint8_t *out, size_t out_len);
uint32_t tecelume_decode_execute_opcode_response_fields(const uint8_t *payload, size_t payload_len, uint64_t *fields, size_t fields_len);
uint64_t tecelume_encode_execute_opcode_response_fields(const uint64_t *fields, size_t fields_len, uint8_t *out, size_t out_len);

/* A float has 32 bits, as the rules ask. */
typedef char tecelume_float_has_32_bits[sizeof(float) == 4 ? 1 : -1];

/* From a row and to it: a float by its bits, which are never in a register of floats, as some of these change a NaN; a signed number in two's
 * complement; a list of the payload by its place and length. */
static inline void tecelume_float_of(uint64_t number, float *value)
{
    uint32_t bits = (uint32_t)number;
    memcpy(value, &bits, sizeof bits);
}

static inline uint64_t tecelume_bits_of(const float *value)
{
    uint32_t bits;
    memcpy(&bits, value, sizeof bits);
    return bits;
}

static inline int64_t tecelume_signed_of(uint64_t number)
{
    int64_t value;
    memcpy(&value, &number, sizeof value);
    return value;
}

static inline tecelume_bytes tecelume_list_of(const uint8_t *payload, const uint64_t *fields)
{
    return tecelume_list(payload + fields[0], (size_t)fields[1]);
}

/* ---- NodeStatus ---- */

static inline void tecelume_node_status_of(const uint64_t *fields, tecelume_node_status *message)
{
    message->uptime_sec = (uint32_t)fields[0];
    message->health = (uint32_t)fields[1];
    message->mode = (uint32_t)fields[2];
    message->sub_mode = 0; /* as fields[3] is; four alike are loaded as one, which waits for their stores */
    message->vendor_specific_status_code = (uint32_t)fields[4];
}

static inline void tecelume_node_status_to(const tecelume_node_status *message, uint64_t *fields)
{
    fields[0] = message->uptime_sec;
    fields[1] = message->health;
    fields[2] = message->mode;
    fields[3] = message->sub_mode;
    fields[4] = message->vendor_specific_status_code;
}

static inline uint32_t tecelume_decode_node_status(const uint8_t *payload, size_t payload_len, tecelume_node_status *message)
{
    uint64_t fields[TECELUME_NODE_STATUS_FIELDS];
    uint32_t number = tecelume_decode_node_status_fields(payload, payload_len, fields, TECELUME_NODE_STATUS_FIELDS);
    if (number == TECELUME_SUCCESS)
        tecelume_node_status_of(fields, message);
    return number;
}

static inline tecelume_result tecelume_encode_node_status(const tecelume_node_status *message, uint8_t *out, size_t out_len)
{
    uint64_t fields[TECELUME_NODE_STATUS_FIELDS];
    tecelume_result result;
    tecelume_node_status_to(message, fields);
    result.word = tecelume_encode_node_status_fields(fields, TECELUME_NODE_STATUS_FIELDS, out, out_len);
    return result;
}

/* ---- GetNodeInfo ---- */

/* Any byte answers 16. */
static inline uint32_t tecelume_decode_get_node_info_request(const uint8_t *payload, size_t payload_len)
{
    return tecelume_decode_get_node_info_request_fields(payload, payload_len, NULL, 0);
}

/* A payload of no bytes. */
static inline tecelume_result tecelume_encode_get_node_info_request(uint8_t *out, size_t out_len)
{
    tecelume_result result;
    result.word = tecelume_encode_get_node_info_request_fields(NULL, 0, out, out_len);
    return result;
}

static inline uint32_t tecelume_decode_get_node_info_response(const uint8_t *payload, size_t payload_len,
                                                              tecelume_get_node_info_response *message)
{
    uint64_t fields[TECELUME_GET_NODE_INFO_RESPONSE_FIELDS];
    uint32_t number =
        tecelume_decode_get_node_info_response_fields(payload, payload_len, fields, TECELUME_GET_NODE_INFO_RESPONSE_FIELDS);
    if (number == TECELUME_SUCCESS) {
        tecelume_node_status_of(fields, &message->status);
        message->software_version.major = (uint32_t)fields[5];
        message->software_version.minor = (uint32_t)fields[6];
        message->software_version.optional_field_flags = (uint32_t)fields[7];
        message->software_version.vcs_commit = (uint32_t)fields[8];
        message->software_version.image_crc = fields[9];
        message->hardware_version.major = (uint32_t)fields[10];
        message->hardware_version.minor = (uint32_t)fields[11];
        message->hardware_version.unique_id = tecelume_list_of(payload, fields + 12);
        message->hardware_version.certificate_of_authenticity = tecelume_list_of(payload, fields + 14);
        message->name = tecelume_list_of(payload, fields + 16);
    }
    return number;
}

static inline tecelume_result tecelume_encode_get_node_info_response(const tecelume_get_node_info_response *message, uint8_t *out,
                                                                     size_t out_len)
{
    const tecelume_software_version *software = &message->software_version;
    const tecelume_hardware_version *hardware = &message->hardware_version;
    uint64_t fields[TECELUME_GET_NODE_INFO_RESPONSE_FIELDS] = {0};
    tecelume_result result;
    tecelume_node_status_to(&message->status, fields);
    fields[5] = software->major;
    fields[6] = software->minor;
    fields[7] = software->optional_field_flags;
    fields[8] = software->vcs_commit;
    fields[9] = software->image_crc;
    fields[10] = hardware->major;
    fields[11] = hardware->minor;
    result.word = tecelume_encode_get_node_info_response_fields(
        fields, TECELUME_GET_NODE_INFO_RESPONSE_FIELDS, hardware->unique_id.at, hardware->unique_id.len,
        hardware->certificate_of_authenticity.at, hardware->certificate_of_authenticity.len, message->name.at, message->name.len, out,
        out_len);
    return result;
}

/* ---- Allocation ---- */

static inline uint32_t tecelume_decode_allocation(const uint8_t *payload, size_t payload_len, tecelume_allocation *message)
{
    uint64_t fields[TECELUME_ALLOCATION_FIELDS];
    uint32_t number = tecelume_decode_allocation_fields(payload, payload_len, fields, TECELUME_ALLOCATION_FIELDS);
    if (number == TECELUME_SUCCESS) {
        message->node_id = (uint32_t)fields[0];
        message->first_part_of_unique_id = (uint32_t)fields[1];
        message->unique_id = tecelume_list_of(payload, fields + 2);
    }
    return number;
}

static inline tecelume_result tecelume_encode_allocation(const tecelume_allocation *message, uint8_t *out, size_t out_len)
{
    uint64_t fields[TECELUME_ALLOCATION_FIELDS] = {0};
    tecelume_result result;
    fields[0] = message->node_id;
    fields[1] = message->first_part_of_unique_id;
    result.word = tecelume_encode_allocation_fields(fields, TECELUME_ALLOCATION_FIELDS, message->unique_id.at, message->unique_id.len,
                                                    out, out_len);
    return result;
}

/* ---- KeyValue ---- */

static inline uint32_t tecelume_decode_key_value(const uint8_t *payload, size_t payload_len, tecelume_key_value *message)
{
    uint64_t fields[TECELUME_KEY_VALUE_FIELDS];
    uint32_t number = tecelume_decode_key_value_fields(payload, payload_len, fields, TECELUME_KEY_VALUE_FIELDS);
    if (number == TECELUME_SUCCESS) {
        tecelume_float_of(fields[0], &message->value);
        message->key = tecelume_list_of(payload, fields + 1);
    }
    return number;
}

static inline tecelume_result tecelume_encode_key_value(const tecelume_key_value *message, uint8_t *out, size_t out_len)
{
    uint64_t fields[TECELUME_KEY_VALUE_FIELDS] = {0};
    tecelume_result result;
    fields[0] = tecelume_bits_of(&message->value);
    result.word = tecelume_encode_key_value_fields(fields, TECELUME_KEY_VALUE_FIELDS, message->key.at, message->key.len, out, out_len);
    return result;
}

/* ---- LogMessage ---- */

static inline uint32_t tecelume_decode_log_message(const uint8_t *payload, size_t payload_len, tecelume_log_message *message)
{
    uint64_t fields[TECELUME_LOG_MESSAGE_FIELDS];
    uint32_t number = tecelume_decode_log_message_fields(payload, payload_len, fields, TECELUME_LOG_MESSAGE_FIELDS);
    if (number == TECELUME_SUCCESS) {
        message->level = (uint32_t)fields[0];
        message->source = tecelume_list_of(payload, fields + 1);
        message->text = tecelume_list_of(payload, fields + 3);
    }
    return number;
}

static inline tecelume_result tecelume_encode_log_message(const tecelume_log_message *message, uint8_t *out, size_t out_len)
{
    uint64_t fields[TECELUME_LOG_MESSAGE_FIELDS] = {0};
    tecelume_result result;
    fields[0] = message->level;
    result.word = tecelume_encode_log_message_fields(fields, TECELUME_LOG_MESSAGE_FIELDS, message->source.at, message->source.len,
                                                     message->text.at, message->text.len, out, out_len);
    return result;
}

/* ---- BatteryInfo ---- */

static inline uint32_t tecelume_decode_battery_info(const uint8_t *payload, size_t payload_len, tecelume_battery_info *message)
{
    uint64_t fields[TECELUME_BATTERY_INFO_FIELDS];
    uint32_t number = tecelume_decode_battery_info_fields(payload, payload_len, fields, TECELUME_BATTERY_INFO_FIELDS);
    if (number == TECELUME_SUCCESS) {
        tecelume_float_of(fields[0], &message->temperature);
        tecelume_float_of(fields[1], &message->voltage);
        tecelume_float_of(fields[2], &message->current);
        tecelume_float_of(fields[3], &message->average_power_10sec);
        tecelume_float_of(fields[4], &message->remaining_capacity_wh);
        tecelume_float_of(fields[5], &message->full_charge_capacity_wh);
        tecelume_float_of(fields[6], &message->hours_to_full_charge);
        message->status_flags = (uint32_t)fields[7];
        message->state_of_health_pct = (uint32_t)fields[8];
        message->state_of_charge_pct = (uint32_t)fields[9];
        message->state_of_charge_pct_stdev = (uint32_t)fields[10];
        message->battery_id = (uint32_t)fields[11];
        message->model_instance_id = (uint32_t)fields[12];
        message->model_name = tecelume_list_of(payload, fields + 13);
    }
    return number;
}

static inline tecelume_result tecelume_encode_battery_info(const tecelume_battery_info *message, uint8_t *out, size_t out_len)
{
    uint64_t fields[TECELUME_BATTERY_INFO_FIELDS] = {0};
    tecelume_result result;
    fields[0] = tecelume_bits_of(&message->temperature);
    fields[1] = tecelume_bits_of(&message->voltage);
    fields[2] = tecelume_bits_of(&message->current);
    fields[3] = tecelume_bits_of(&message->average_power_10sec);
    fields[4] = tecelume_bits_of(&message->remaining_capacity_wh);
    fields[5] = tecelume_bits_of(&message->full_charge_capacity_wh);
    fields[6] = tecelume_bits_of(&message->hours_to_full_charge);
    fields[7] = message->status_flags;
    fields[8] = message->state_of_health_pct;
    fields[9] = message->state_of_charge_pct;
    fields[10] = message->state_of_charge_pct_stdev;
    fields[11] = message->battery_id;
    fields[12] = message->model_instance_id;
    result.word = tecelume_encode_battery_info_fields(fields, TECELUME_BATTERY_INFO_FIELDS, message->model_name.at,
                                                      message->model_name.len, out, out_len);
    return result;
}

/* ---- RawCommand ---- */

static inline uint32_t tecelume_decode_raw_command(const uint8_t *payload, size_t payload_len, tecelume_raw_command *message)
{
    uint64_t fields[TECELUME_RAW_COMMAND_FIELDS];
    uint32_t number = tecelume_decode_raw_command_fields(payload, payload_len, fields, TECELUME_RAW_COMMAND_FIELDS);
    if (number == TECELUME_SUCCESS) {
        size_t i;
        message->count = (size_t)fields[0];
        for (i = 0; i < TECELUME_COMMANDS_MAX; i++)
            message->cmd[i] = (int32_t)tecelume_signed_of(fields[1 + i]);
    }
    return number;
}

static inline tecelume_result tecelume_encode_raw_command(const tecelume_raw_command *message, uint8_t *out, size_t out_len)
{
    uint64_t fields[TECELUME_RAW_COMMAND_FIELDS] = {0};
    tecelume_result result;
    size_t i;
    fields[0] = message->count;
    for (i = 0; i < TECELUME_COMMANDS_MAX && i < message->count; i++)
        fields[1 + i] = (uint64_t)(int64_t)message->cmd[i];
    result.word = tecelume_encode_raw_command_fields(fields, TECELUME_RAW_COMMAND_FIELDS, out, out_len);
    return result;
}

/* ---- GetSet ---- */

static inline void tecelume_param_numeric_value_of(const uint64_t *fields, tecelume_param_numeric_value *value)
{
    value->tag = (uint32_t)fields[0];
    value->integer_value = value->tag == TECELUME_PARAM_INTEGER_VALUE ? tecelume_signed_of(fields[1]) : 0;
    tecelume_float_of(value->tag == TECELUME_PARAM_REAL_VALUE ? fields[1] : 0, &value->real_value);
}

static inline void tecelume_param_value_of(const uint8_t *payload, const uint64_t *fields, tecelume_param_value *value)
{
    value->tag = (uint32_t)fields[0];
    value->integer_value = value->tag == TECELUME_PARAM_INTEGER_VALUE ? tecelume_signed_of(fields[1]) : 0;
    tecelume_float_of(value->tag == TECELUME_PARAM_REAL_VALUE ? fields[1] : 0, &value->real_value);
    value->boolean_value = value->tag == TECELUME_PARAM_BOOLEAN_VALUE ? (uint32_t)fields[1] : 0;
    value->string_value = tecelume_list_of(payload, fields + 2);
}

/* Of a value whose number is neither an integer nor a real, 0. */
static inline void tecelume_param_number_to(uint32_t tag, int64_t integer_value, const float *real_value, uint64_t *fields)
{
    fields[0] = tag;
    fields[1] = tag == TECELUME_PARAM_INTEGER_VALUE ? (uint64_t)integer_value : 0;
    if (tag == TECELUME_PARAM_REAL_VALUE)
        fields[1] = tecelume_bits_of(real_value);
}

static inline void tecelume_param_value_to(const tecelume_param_value *value, uint64_t *fields)
{
    tecelume_param_number_to(value->tag, value->integer_value, &value->real_value, fields);
    if (value->tag == TECELUME_PARAM_BOOLEAN_VALUE)
        fields[1] = value->boolean_value;
}

/* Of a value that is no text, no bytes. */
static inline tecelume_bytes tecelume_param_text(const tecelume_param_value *value)
{
    return value->tag == TECELUME_PARAM_STRING_VALUE ? value->string_value : tecelume_list(NULL, 0);
}

static inline uint32_t tecelume_decode_get_set_request(const uint8_t *payload, size_t payload_len, tecelume_get_set_request *message)
{
    uint64_t fields[TECELUME_GET_SET_REQUEST_FIELDS];
    uint32_t number = tecelume_decode_get_set_request_fields(payload, payload_len, fields, TECELUME_GET_SET_REQUEST_FIELDS);
    if (number == TECELUME_SUCCESS) {
        message->index = (uint32_t)fields[0];
        tecelume_param_value_of(payload, fields + 1, &message->value);
        message->name = tecelume_list_of(payload, fields + 5);
    }
    return number;
}

static inline tecelume_result tecelume_encode_get_set_request(const tecelume_get_set_request *message, uint8_t *out, size_t out_len)
{
    const tecelume_bytes text = tecelume_param_text(&message->value);
    uint64_t fields[TECELUME_GET_SET_REQUEST_FIELDS] = {0};
    tecelume_result result;
    fields[0] = message->index;
    tecelume_param_value_to(&message->value, fields + 1);
    result.word = tecelume_encode_get_set_request_fields(fields, TECELUME_GET_SET_REQUEST_FIELDS, text.at, text.len, message->name.at,
                                                         message->name.len, out, out_len);
    return result;
}

static inline uint32_t tecelume_decode_get_set_response(const uint8_t *payload, size_t payload_len, tecelume_get_set_response *message)
{
    uint64_t fields[TECELUME_GET_SET_RESPONSE_FIELDS];
    uint32_t number = tecelume_decode_get_set_response_fields(payload, payload_len, fields, TECELUME_GET_SET_RESPONSE_FIELDS);
    if (number == TECELUME_SUCCESS) {
        tecelume_param_value_of(payload, fields, &message->value);
        tecelume_param_value_of(payload, fields + 4, &message->default_value);
        tecelume_param_numeric_value_of(fields + 8, &message->max_value);
        tecelume_param_numeric_value_of(fields + 10, &message->min_value);
        message->name = tecelume_list_of(payload, fields + 12);
    }
    return number;
}

static inline tecelume_result tecelume_encode_get_set_response(const tecelume_get_set_response *message, uint8_t *out, size_t out_len)
{
    const tecelume_bytes text = tecelume_param_text(&message->value), default_text = tecelume_param_text(&message->default_value);
    const tecelume_param_numeric_value *max = &message->max_value, *min = &message->min_value;
    uint64_t fields[TECELUME_GET_SET_RESPONSE_FIELDS] = {0};
    tecelume_result result;
    tecelume_param_value_to(&message->value, fields);
    tecelume_param_value_to(&message->default_value, fields + 4);
    tecelume_param_number_to(max->tag, max->integer_value, &max->real_value, fields + 8);
    tecelume_param_number_to(min->tag, min->integer_value, &min->real_value, fields + 10);
    result.word = tecelume_encode_get_set_response_fields(fields, TECELUME_GET_SET_RESPONSE_FIELDS, text.at, text.len, default_text.at,
                                                          default_text.len, message->name.at, message->name.len, out, out_len);
    return result;
}

/* ---- ExecuteOpcode ---- */

static inline uint32_t tecelume_decode_execute_opcode_request(const uint8_t *payload, size_t payload_len,
                                                              tecelume_execute_opcode_request *message)
{
    uint64_t fields[TECELUME_EXECUTE_OPCODE_REQUEST_FIELDS];
    uint32_t number =
        tecelume_decode_execute_opcode_request_fields(payload, payload_len, fields, TECELUME_EXECUTE_OPCODE_REQUEST_FIELDS);
    if (number == TECELUME_SUCCESS) {
        message->opcode = (uint32_t)fields[0];
        message->argument = tecelume_signed_of(fields[1]);
    }
    return number;
}

static inline tecelume_result tecelume_encode_execute_opcode_request(const tecelume_execute_opcode_request *message, uint8_t *out,
                                                                     size_t out_len)
{
    uint64_t fields[TECELUME_EXECUTE_OPCODE_REQUEST_FIELDS];
    tecelume_result result;
    fields[0] = message->opcode;
    fields[1] = (uint64_t)message->argument;
    result.word = tecelume_encode_execute_opcode_request_fields(fields, TECELUME_EXECUTE_OPCODE_REQUEST_FIELDS, out, out_len);
    return result;
}

static inline uint32_t tecelume_decode_execute_opcode_response(const uint8_t *payload, size_t payload_len,
                                                               tecelume_execute_opcode_response *message)
{
    uint64_t fields[TECELUME_EXECUTE_OPCODE_RESPONSE_FIELDS];
    uint32_t number =
        tecelume_decode_execute_opcode_response_fields(payload, payload_len, fields, TECELUME_EXECUTE_OPCODE_RESPONSE_FIELDS);
    if (number == TECELUME_SUCCESS) {
        message->argument = tecelume_signed_of(fields[0]);
        message->ok = (uint32_t)fields[1];
    }
    return number;
}

static inline tecelume_result tecelume_encode_execute_opcode_response(const tecelume_execute_opcode_response *message, uint8_t *out,
                                                                      size_t out_len)
{
    uint64_t fields[TECELUME_EXECUTE_OPCODE_RESPONSE_FIELDS];
    tecelume_result result;
    fields[0] = (uint64_t)message->argument;
    fields[1] = message->ok;
    result.word = tecelume_encode_execute_opcode_response_fields(fields, TECELUME_EXECUTE_OPCODE_RESPONSE_FIELDS, out, out_len);
    return result;
}

/* ---- correcting a checksum in passing ---- */

/* A relay that passes frames on and rewrites a byte of a payload must correct the transfer's checksum, which is in the first two data bytes of
 * the start, low byte first; a transfer of one frame has none. tecelume_patch works it out from the checksum as it came, the byte as it
 * was and as it is now, and the number of payload bytes after it. It needs neither the other bytes nor the signature.
 *
 * So a relay has to know the old byte and how many bytes follow before it lets the start go: it holds the transfer's frames back from the start
 * to the one that has the byte, and to the end if the length of the type is not fixed. Only with a fixed length and a byte among the first
 * five, which come with the start, does nothing wait.
 *
 * Several bytes are several calls, in any order, each with the checksum that the last one gave. A checksum that was wrong when it came is
 * wrong by the same bits afterwards: damage before the relay is still found behind it, which it would not be with a checksum worked out
 * afresh. An old byte that is not the one the checksum was made for is not noticed here; the transfer then ends with 12. */

/* Corrects a checksum as a result word (RULES 13.3), for callers in other languages. C programs call tecelume_patch. */
uint64_t tecelume_patch_word(uint32_t checksum, uint32_t old_byte, uint32_t new_byte, uint64_t bytes_after);

/* Corrects a checksum.
 *
 * Takes    checksum     that of the payload with old_byte; of a larger number than 65535 the low 16 bits
 *          old_byte     the byte as it was, and
 *          new_byte     as it is now; of a larger number than 255 the low 8 bits
 *          bytes_after  how many payload bytes come after it, at most 511
 * Gives    a result: 0, with tecelume_checksum of it the checksum of the payload with new_byte, as worked out afresh under the same
 *          signature.
 * Refuses  11, bytes_after over 511.
 * Costs    the same for every number of bytes: 24 steps of a bit. */
static inline tecelume_result tecelume_patch(uint32_t checksum, uint32_t old_byte, uint32_t new_byte, uint64_t bytes_after)
{
    tecelume_result result;
    result.word = tecelume_patch_word(checksum, old_byte, new_byte, bytes_after);
    return result;
}

/* The corrected checksum; with a number other than 0 it gives 0. */
static inline uint32_t tecelume_checksum(tecelume_result result)
{
    return (uint32_t)(result.word >> 8 & 65535);
}

/* ---- handing out node IDs ---- */

/* An allocator is the one node on a bus that gives other nodes their IDs (RULES 16). A node without an ID, the allocatee, sends its unique
 * ID of TECELUME_UNIQUE_ID_SIZE bytes in three anonymous Allocation messages, of 6, 6 and 4 bytes, and the allocator confirms each with
 * all bytes so far; the last reply has the node ID. Call tecelume_allocate with each Allocation message that tecelume_receive hands out,
 * message 1, those of named sources too, and send each reply as message 1 from the own ID, for one with the priority of its request.
 *
 * A node that is in the table gets the same ID again, always: the table only grows. Any other gets the lowest ID from the one that its last
 * message prefers up to 125 that is free, or else the highest free one below; who prefers 0, 126 or 127 gets the highest free one. An ID of
 * 1 to 125 is free if it is not in the table, not the own one and not marked. Mark the IDs of static nodes, which have theirs by hand: all
 * that were heard of, from their NodeStatus, but for those in the table. The marks are given with each call, and the library keeps none;
 * so after a start listen for a few seconds before the first call, as nodes send their NodeStatus each second.
 *
 * After a message that got a reply an allocatee has 500,000 microseconds for the next one, exactly 500,000 included; a later message finds
 * what was gathered dropped. While bytes of one node are gathered, the first message of another is ignored; that node asks again. In that
 * time a copy of a message that got a reply is ignored, so messages may come by several cables.
 *
 * The state may be kept in a file, as it is, and used again after a start: the table is all that counts in it if it was kept when a reply
 * of TECELUME_REPLY_SIZE bytes was given, as nothing is gathered then. Keep it whenever tecelume_allocations of it has risen, and send the
 * reply only when it is safely kept: an ID that was told and forgotten would be given to another node. To see whether what a file holds is a
 * state, call tecelume_allocate with it, a source other than 0 and a payload of one byte: it changes nothing, and answers 20 if it is not. */

/* The bytes of an allocator's state, TECELUME_ALLOCATOR_SIZE. */
uint64_t tecelume_allocator_size(void);

/* Sets an allocator up, with an empty table.
 *
 * Takes    state  at least TECELUME_ALLOCATOR_SIZE bytes, with any content
 * Gives    0: the first TECELUME_ALLOCATOR_SIZE bytes of state are an allocator without entries; bytes after them stay.
 * Refuses  20, state too short; it stays as it was.
 * Costs    writes the state once. */
uint32_t tecelume_allocator_setup(uint8_t *state, size_t state_len);

/* Marks a node ID as taken by a static node: in marks[0] those up to 63, in marks[1] the others. Begin with both 0. An ID that is never
 * given has no effect: 0, 126 and above. */
static inline void tecelume_mark(uint64_t marks[2], uint32_t node_id)
{
    if (node_id < 128)
        marks[node_id / 64] |= (uint64_t)1 << node_id % 64;
}

/* Answers an Allocation message as a result word (RULES 13.3), for callers in other languages. C programs call tecelume_allocate. */
uint64_t tecelume_allocate_word(uint8_t *state, size_t state_len, uint32_t own, uint64_t marks_low, uint64_t marks_high, uint32_t source,
                                const uint8_t *payload, size_t payload_len, uint64_t time, uint8_t *out, size_t out_len);

/* Answers an Allocation message.
 *
 * Takes    state                  as setup and earlier calls left it
 *          own                    the own node ID, 1 to 127
 *          marks_low, marks_high  the marks of static nodes: see tecelume_mark; 0 and 0 for none
 *          source                 tecelume_source of the message; any other than 0 is named
 *          payload                the message
 *          time                   when the message came, in microseconds: see above
 *          out                    TECELUME_REPLY_SIZE bytes do for every reply; a message that gets none needs no room
 * Gives    a result: 0, with tecelume_reply_length of it bytes at the front of out, the payload of an Allocation message to be sent. Bytes
 *          after it stay. A length of 0 is no reply: the message is ignored. Ignored are messages of a named source, other lengths than an
 *          allocatee sends, and those out of turn. They leave the state as it was, but that an anonymous one drops gathered bytes that are
 *          too old.
 * Refuses  first match of 20, 13, 15, 16, 21 and 8 (RULES 16.3). All leave out as it was, and state too, but that 21 drops the gathered
 *          bytes.
 * Costs    the check for 20, which grows with the table; a search of the table; for a new node, a search for a free ID and moving the entries
 *          after it. In libtecelume.a at most 1024 bytes of stack, besides what memcpy and its like take. */
static inline tecelume_result tecelume_allocate(uint8_t *state, size_t state_len, uint32_t own, uint64_t marks_low, uint64_t marks_high,
                                                uint32_t source, const uint8_t *payload, size_t payload_len, uint64_t time, uint8_t *out,
                                                size_t out_len)
{
    tecelume_result result;
    result.word = tecelume_allocate_word(state, state_len, own, marks_low, marks_high, source, payload, payload_len, time, out, out_len);
    return result;
}

/* Bytes of the reply in out, 1 to 17; 0 if there is none, and with a number other than 0. */
static inline size_t tecelume_reply_length(tecelume_result result)
{
    return (size_t)(result.word >> 8 & 31);
}

/* ---- the table of an allocator (RULES 16.10), of a state that does not answer 20 ---- */

/* The number of entries, at most TECELUME_ALLOCATIONS_MAX. */
static inline size_t tecelume_allocations(const uint8_t *state)
{
    return state[9];
}

/* The unique ID of an entry, counted from 0. Entries are in the order of their unique IDs, so a new one may move others. */
static inline const uint8_t *tecelume_allocation_unique_id(const uint8_t *state, size_t entry)
{
    return state + 26 + entry * (TECELUME_UNIQUE_ID_SIZE + 1);
}

/* The node ID of an entry, 1 to 125. */
static inline uint32_t tecelume_allocation_node_id(const uint8_t *state, size_t entry)
{
    return tecelume_allocation_unique_id(state, entry)[TECELUME_UNIQUE_ID_SIZE];
}

/* ---- signatures of type definitions ---- */

/* A type definition is a full name, as uavcan.protocol.NodeStatus, and a text in the data structure description language (DSDL; RULES 17
 * has the grammar). Its normalized form is its name and what of the text matters for compatibility: no comments or constants, full names
 * of nested types, one spelling for all else. The signature is worked out from the form and from the signatures of the nested types, so
 * the definitions of these are given in the same call. Subscriptions and sends take it.
 *
 * Definitions are given as a source, which has the first name, the first text, the second name and so on with nothing between, and a list
 * of their lengths. */

/* Writes the lengths of a definition, TECELUME_LENGTHS_SIZE bytes, and gives the place after them. A length of 2^32 or more becomes
 * 2^32 - 1, which the call refuses, too. */
static inline uint8_t *tecelume_lengths(uint8_t *lengths, size_t name_len, size_t text_len)
{
    int i;
    const uint32_t most = 0xFFFFFFFFu;
    uint32_t name = name_len < most ? (uint32_t)name_len : most, text = text_len < most ? (uint32_t)text_len : most;
    for (i = 0; i < 4; i++)
        *lengths++ = (uint8_t)(name >> (8 * i) & 255);
    for (i = 0; i < 4; i++)
        *lengths++ = (uint8_t)(text >> (8 * i) & 255);
    return lengths;
}

/* Works out signatures as a result word (RULES 13.3), for callers in other languages. C programs call tecelume_signatures. */
uint64_t tecelume_signatures_word(const uint8_t *source, size_t source_len, const uint8_t *lengths, size_t lengths_len, uint8_t *out,
                                  size_t out_len, uint8_t *records, size_t records_len);

/* Reads type definitions, and works out the normalized form and the signature of each.
 *
 * Takes    source   names and texts; bytes after the last text are ignored
 *          lengths  TECELUME_LENGTHS_SIZE bytes a definition, at most TECELUME_DEFINITIONS_MAX; what is left over after the last whole one
 *                   is ignored. None is allowed
 *          out      room for all forms. A form may be longer than its text
 *          records  TECELUME_SIGNED_SIZE bytes a definition
 * Gives    a result: 0, with the forms one after another at the front of out, nothing between them, and a record for each definition,
 *          both in the order given. Bytes after them stay.
 * Refuses  first match of 43, 40, 41, 42 and 8 (RULES 17.12). All leave out and records as they were. 40 has the first definition at fault
 *          and its first line at fault: tecelume_definition and tecelume_line.
 * Costs    reads each text a few times, however often its type is nested; an array size of n digits takes work as n times n. */
static inline tecelume_result tecelume_signatures(const uint8_t *source, size_t source_len, const uint8_t *lengths, size_t lengths_len,
                                                  uint8_t *out, size_t out_len, uint8_t *records, size_t records_len)
{
    tecelume_result result;
    result.word = tecelume_signatures_word(source, source_len, lengths, lengths_len, out, out_len, records, records_len);
    return result;
}

/* The definition at fault, 1 for the first; 0 with a number other than 40. */
static inline uint32_t tecelume_definition(tecelume_result result)
{
    return tecelume_number(result) == TECELUME_NOT_IN_GRAMMAR ? (uint32_t)(result.word >> 8 & 15) : 0;
}

/* The line at fault, 1 for the first, empty lines and comments counted; 0 for the name, and with a number other than 40. */
static inline uint32_t tecelume_line(tecelume_result result)
{
    return tecelume_number(result) == TECELUME_NOT_IN_GRAMMAR ? (uint32_t)(result.word >> 16 & 65535) : 0;
}

/* Of a record: the length of the form in bytes. */
static inline size_t tecelume_form_length(const uint8_t *record)
{
    return (size_t)((uint32_t)record[0] | (uint32_t)record[1] << 8 | (uint32_t)record[2] << 16 | (uint32_t)record[3] << 24);
}

/* Of a record: the signature. */
static inline uint64_t tecelume_form_signature(const uint8_t *record)
{
    uint64_t signature = 0;
    int i;
    for (i = 11; i >= 4; i--)
        signature = signature << 8 | record[i];
    return signature;
}

/* ---- captures ---- */

/* A capture is a log in binary (RULES 18): records of TECELUME_STAMPED_SIZE bytes, each a time and a frame, and a trailer of
 * TECELUME_TRAILER_SIZE. What stands before the first record, a vendor's preface, is ignored. A log is lines as the log program reads them
 * (RULES 12.2). A log goes to a capture and back byte for byte, and so does a capture without a preface that is not refused. */

/* Turns a log into a capture, or a capture into a log, as a result word (RULES 13.3), for callers in other languages. C programs call
 * tecelume_capture and tecelume_uncapture. */
uint64_t tecelume_capture_word(const uint8_t *log, size_t log_len, uint8_t *out, size_t out_len);
uint64_t tecelume_uncapture_word(const uint8_t *capture, size_t capture_len, uint8_t *out, size_t out_len);

/* Turns a log into a capture.
 *
 * Takes    log  lines, each with its line feed; none is a log too
 *          out  TECELUME_CAPTURE_SIZE of the number of lines
 * Gives    a result: 0, with tecelume_output_length of it bytes at the front of out, the capture. Bytes after it stay.
 * Refuses  first match of 18, 9 and 8 (RULES 18.3); out stays as it was.
 * Costs    reads the log twice. */
static inline tecelume_result tecelume_capture(const uint8_t *log, size_t log_len, uint8_t *out, size_t out_len)
{
    tecelume_result result;
    result.word = tecelume_capture_word(log, log_len, out, out_len);
    return result;
}

/* Turns a capture into a log.
 *
 * Takes    capture  with a preface or without
 *          out      TECELUME_LOG_SIZE of the number of records, tecelume_capture_count, always does
 * Gives    a result: 0, with tecelume_output_length of it bytes at the front of out, the log. Bytes after it stay.
 * Refuses  first match of 22, 23 and 8 (RULES 18.4); out stays as it was.
 * Costs    reads the records three times. */
static inline tecelume_result tecelume_uncapture(const uint8_t *capture, size_t capture_len, uint8_t *out, size_t out_len)
{
    tecelume_result result;
    result.word = tecelume_uncapture_word(capture, capture_len, out, out_len);
    return result;
}

/* Bytes that tecelume_capture or tecelume_uncapture wrote to out; 0 with a number other than 0. */
static inline uint64_t tecelume_output_length(tecelume_result result)
{
    return result.word >> 8;
}

/* The number of records that the trailer of a capture tells; 0 if there are not enough bytes for a trailer. Nothing is checked. */
static inline uint32_t tecelume_capture_count(const uint8_t *capture, size_t capture_len)
{
    const uint8_t *count;
    if (capture_len < TECELUME_TRAILER_SIZE)
        return 0;
    count = capture + capture_len - 8;
    return (uint32_t)count[0] | (uint32_t)count[1] << 8 | (uint32_t)count[2] << 16 | (uint32_t)count[3] << 24;
}

/* ---- checking a sender ---- */

/* tecelume_judge tells from a capture of what a device sent whether it sends as it should (RULES 19). The capture passes if every frame passes
 * the checks of 2 to 5 and 7; if at most TECELUME_STREAMS_MAX streams with a named source are in it; and if the frames of each of these are
 * transfers as tecelume_send makes them, whole and one after another. Only the last may be cut short. The first transfer ID is any, and each
 * later one is one more, 0 after 31; it may be 0 if the start is 2,000,000 or more after the start before; in responses it is any. Of
 * anonymous frames nothing more is asked than the checks. A capture that has each frame twice, by two buses, fails.
 *
 * A failure names the first frame after which no continuation of the capture could pass. */

/* Judges a capture as a result word (RULES 13.3), for callers in other languages. C programs call tecelume_judge. */
uint64_t tecelume_judge_word(const uint8_t *subscriptions, size_t subscriptions_len, const uint8_t *capture, size_t capture_len);

/* Judges a capture.
 *
 * Takes    subscriptions  records as for tecelume_setup: the types that may be sent, with their signatures. Services for every node are judged
 *          capture        with a preface or without; the bytes of a record past its data do not count
 * Gives    0: the capture passes. Any beginning of it, cut after a record and with a trailer of its own, passes too.
 * Refuses  13, subscriptions that tecelume_setup would refuse; then 22; then, at the first frame after which no continuation could pass, the
 *          first match of 2 to 5, 7, 9, 11, 12 and 24 (RULES 19.7). The result tells that frame. Nothing is written.
 * Costs    reads the records twice, for the checksum and for the verdict; looks for the subscription and the stream of each frame. In
 *          libtecelume.a at most 8192 bytes of stack. */
static inline tecelume_result tecelume_judge(const uint8_t *subscriptions, size_t subscriptions_len, const uint8_t *capture, size_t capture_len)
{
    tecelume_result result;
    result.word = tecelume_judge_word(subscriptions, subscriptions_len, capture, capture_len);
    return result;
}

/* The frame that the number of tecelume_judge is for, counted from 0; 0 under 0, 13 and 22. */
static inline uint32_t tecelume_frame_at_fault(tecelume_result result)
{
    return (uint32_t)(result.word >> 8);
}

#ifdef __cplusplus
}
#endif

#endif
