/*
 * The loading-bay calendar engine, from C and C++: link libzagyvelon.a (`tools/built zagyvelon` makes it), which needs nothing
 * but memcpy, memmove and memset. x86-64 Linux.
 *
 * A step takes one input frame and gives the effects to perform, in order. docs/FRAMES.md has the bytes of every type, with its
 * fields, cases and limits, and examples. In short: fields stand one after the other; an enum starts with one byte, its case's
 * number from 0; an option with 0 or 1; a list with a count byte; text is a length byte and UTF-8; numbers are big-endian.
 *
 * Buffers. The caller owns every buffer and lends it for one call; the engine keeps no pointer and allocates nothing. Between
 * calls the whole state is the state buffer: it may be copied, moved, and saved and loaded as bytes on the same version of
 * the engine. Equal states have equal bytes.
 *
 * Pointers. No pointer may be null, not even with the length 0. Every pointer is valid for as many bytes as the length beside it
 * says, or for the one value that it points to. A buffer or value that a call writes may overlap no other that the call is
 * given. The bytes may be any bytes, and the lengths any lengths: nothing else is asked of the caller.
 *
 * Threads. There are no globals. Calls on different buffers may run at the same time; calls that read one state may, too,
 * while nobody writes it. A step needs its state, work and output for itself.
 *
 * Every function ends, touches no memory but what it is lent, and is proved to give exactly the results described here.
 */
#ifndef BAY_H
#define BAY_H

#include <stdbool.h>
#include <stddef.h>
#include <stdint.h>

#ifdef __cplusplus
extern "C" {
#endif

/*
 * The length of a state's buffer and of a step's work buffer, the least length of an output buffer, the length of a sender's buffer,
 * and for the two clerks the length of each line's buffer and of their work buffer.
 */
#define BAY_STATE_LENGTH 58543
#define BAY_OUTPUT_LENGTH 32768
#define BAY_SENDER_LENGTH 1582
#define BAY_CLERKS_LINE_LENGTH 940
#define BAY_CLERKS_WORK_LENGTH 882

/* The same numbers from the archive, for a program that checks at its start that header and archive belong together. */
size_t bay_state_length(void);
size_t bay_output_length(void);
size_t bay_sender_length(void);
size_t bay_clerks_line_length(void);
size_t bay_clerks_work_length(void);

/*
 * What every other function returns: 0, or the refusal. A step checks 1, 2, 3; the others are met as it goes.
 * After a refusal the bytes of the state, or of the sender, are as they were.
 */
enum {
    BAY_ACCEPTED = 0,
    BAY_LENGTH = 1,          /* a lent buffer's length is wrong */
    BAY_STATE = 2,           /* the bytes are not those of a well-formed state, or not those of a sender */
    BAY_FRAME = 3,           /* the bytes are not exactly one input frame, or not exactly one frame of two clerks */
    BAY_REQUEST_NUMBERS = 4, /* no request number is left */
    BAY_TABLE = 5,           /* a table would need one entry more than its limit */
    BAY_ATTENDEES = 6,       /* an owner's update, merged, would have over 8 attendees; an attendee's never has */
    BAY_EFFECTS = 7,         /* the effects would pass 32,768 bytes */
    BAY_ADDRESS_TWICE = 10,  /* an attendee list has the same address twice, capitals or not */
    BAY_MILL = 11,           /* a sender has no such mill */
    BAY_LANE = 12            /* the mill's lane at the sender holds 24 requests */
};

/*
 * Makes the buffer a fresh state: no records, no cursor, nothing waiting. Whatever it held is lost.
 * Returns BAY_ACCEPTED, or BAY_LENGTH if state_length is not BAY_STATE_LENGTH; the buffer is then untouched.
 */
uint8_t bay_fresh(uint8_t *state, size_t state_length);

/*
 * One step: takes the input in `frame`, brings the state up to date, and writes the effects back to back from the output's first
 * byte; *effects_length is how many bytes they take.
 *
 * state_length and work_length must be BAY_STATE_LENGTH and output_length at least BAY_OUTPUT_LENGTH, else BAY_LENGTH is
 * returned and no buffer is touched. What work and output hold before the call does not matter. After every other call the
 * work buffer is zero and the output is zero past the effects. After a refusal *effects_length is 0.
 */
uint8_t bay_step(uint8_t *state, size_t state_length,
                 uint8_t *work, size_t work_length,
                 uint8_t *output, size_t output_length,
                 const uint8_t *frame, size_t frame_length,
                 size_t *effects_length);

/*
 * The reading functions. Each returns BAY_ACCEPTED, BAY_LENGTH or BAY_STATE, and writes nothing but its results. After a
 * refusal *count and *number are 0 and *found is false. What is found stands in the state's own bytes, at a place and with a
 * length that end within the state, until the state is next written: the cursor's text is the cursor_length bytes from
 * state + cursor_at. Places mean nothing where *found is false.
 */

/* How many edits wait for the resource. Bytes that are no resource's name have none waiting. */
uint8_t bay_waiting_count(const uint8_t *state, size_t state_length,
                          const uint8_t *resource, size_t resource_length,
                          size_t *count);

/* The number of the request in flight at this place, from 0, in rising order; none past the last: *found is false. */
uint8_t bay_in_flight_at(const uint8_t *state, size_t state_length, size_t place,
                         bool *found, uint64_t *number);

/* Where the cursor's text is, if there is a cursor. */
uint8_t bay_cursor(const uint8_t *state, size_t state_length,
                   bool *found, size_t *cursor_at, size_t *cursor_length);

/*
 * Where the record at this place is, from 0, in byte order of their resources; none past the last: *found is false. Its
 * resource's name is text without a length byte; its event has the frame's form.
 */
uint8_t bay_record_at(const uint8_t *state, size_t state_length, size_t place,
                      bool *found, size_t *name_at, size_t *name_length,
                      size_t *event_at, size_t *event_length);

/*
 * The sender: eight mills on one account, numbered 0 to 7, share four calls at a time. It stands after the engines. Each mill's
 * requests enter its lane, up to 24, and go to the provider when they are granted: in turn, from the mill after the last granted
 * (at first from 0), while fewer than four are out. A mill's requests are granted in the order in which they entered. A lane with a
 * request waiting gets one of the next eight grants, unless a Resume of its mill empties it.
 *
 * The whole sender is its buffer, of BAY_SENDER_LENGTH bytes, as the whole state is the state buffer; docs/FRAMES.md has its bytes.
 * Each use ends with every grant then possible, which is one at most: *granted says whether there is one, and *granted_mill and
 * *granted_number which call may go out now; it may be another mill's. Without a grant both are 0.
 *
 * A use returns BAY_ACCEPTED or the first refusal met, in this order: BAY_LENGTH, BAY_STATE if no uses of a fresh sender lead to the
 * bytes, BAY_MILL for a mill above 7, and BAY_LANE for an entry into a lane that holds 24. After a refusal the buffer is as it was, and
 * nothing is granted.
 */

/* Makes the buffer a fresh sender: empty lanes, no call out. Returns BAY_ACCEPTED, or BAY_LENGTH; the buffer is then untouched. */
uint8_t bay_sender_fresh(uint8_t *sender, size_t sender_length);

/* A request enters its mill's lane. Its number may be any. */
uint8_t bay_sender_enter(uint8_t *sender, size_t sender_length, uint8_t mill, uint64_t number,
                         bool *granted, uint8_t *granted_mill, uint64_t *granted_number);

/* The reply to a call has come: one call of this mill and number is freed. Where none is out, nothing changes. */
uint8_t bay_sender_reply(uint8_t *sender, size_t sender_length, uint8_t mill, uint64_t number,
                         bool *granted, uint8_t *granted_mill, uint64_t *granted_number);

/*
 * The mill starts anew, as after a Resume of its engine: its lane is emptied, and its new requests enter after it. Its calls out
 * hold their share until their reply comes, so nothing is granted.
 */
uint8_t bay_sender_resume(uint8_t *sender, size_t sender_length, uint8_t mill);

/*
 * Two clerks, one booking: two parties start from one event of the provider's, and each writes one update. For each order of the writes
 * this gives the final event, and for each unit of it who can force it. A party can force a unit if for every value unlike the event's
 * it has an update that leaves that value in the end, whichever update the other chooses that gets neither merge refused. A reply has a
 * value only while its entry stands.
 *
 * The frame is the event, a ProviderEvent, and then for each party its role and the event that it wants, a NormalizedEvent.
 *
 * `one` takes the line of the order in which the frame's first party writes first, `two` the line of the other order. A line is the
 * final event, in the frame's form, and then a byte for each unit: 0 for nobody, or 1 or 2 for the party that can force it, its place in
 * the frame; if both can, the first to write. The units are title, times, recurrence, organizer; for each attendee entry the entry but
 * for its reply, and then the reply; location, description, status, transparency, visibility, reminders. The entries are the event's,
 * then those that the first party wants and the event has not, then those that the second wants and neither has. An entry goes by its
 * address, capitals or not. *one_line_length and *two_line_length are how many bytes the lines take.
 *
 * one_length and two_length must be BAY_CLERKS_LINE_LENGTH and work_length BAY_CLERKS_WORK_LENGTH, else BAY_LENGTH is returned and no
 * buffer is touched. What the three hold before the call does not matter. The other refusals come in this order: BAY_FRAME,
 * BAY_ADDRESS_TWICE for any of the three attendee lists, and BAY_ATTENDEES for a merge of either order. After every call with right
 * lengths the work buffer is zero, and `one` and `two` are zero past their lines. After a refusal there are no lines: both line lengths
 * are 0.
 */
uint8_t bay_two_clerks(const uint8_t *frame, size_t frame_length,
                       uint8_t *one, size_t one_length,
                       uint8_t *two, size_t two_length,
                       uint8_t *work, size_t work_length,
                       size_t *one_line_length, size_t *two_line_length);

#ifdef __cplusplus
}
#endif

#endif
