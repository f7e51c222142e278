/*
 * Document 01's example from C: takes its five frames one by one, and prints each result number and the effects' bytes. Then two mills share
 * an account's four calls, and two clerks write to one booking.
 */
#include <stdio.h>

#include "bay.h"

static uint8_t state[BAY_STATE_LENGTH];
static uint8_t work[BAY_STATE_LENGTH];
static uint8_t output[BAY_OUTPUT_LENGTH];
static uint8_t sender[BAY_SENDER_LENGTH];
static uint8_t one[BAY_CLERKS_LINE_LENGTH];
static uint8_t two[BAY_CLERKS_LINE_LENGTH];
static uint8_t clerks_work[BAY_CLERKS_WORK_LENGTH];

static const uint8_t sync_now[] = {0x00};
/* request 0 listed nothing, and is done at cursor "A" */
static const uint8_t listed[] = {0x02, 0, 0, 0, 0, 0, 0, 0, 0, 0x00, 0x00, 0x01, 0x01, 'A'};
static const uint8_t tick[] = {0x03, 0, 0, 0, 0, 0, 0, 0, 5};
/* edit "a" deletes "r", by the owner, expiring at 5 */
static const uint8_t edit[] = {0x01, 1, 'a', 1, 'r', 0x02, 0x00, 0x01, 0, 0, 0, 0, 0, 0, 0, 5};
static const uint8_t no_input[] = {0x05};

static const uint8_t booking[] = {
    /* the event "i": its attendee "a" has not replied, and all else is empty or 0 */
    0x00, 1, 'i', 0, 0, 0, 0, 0, 0, 0,
    0, 0, 0, 0, 0, 0, 0, 0, 0, 0, 0, 1, 1, 'a', 0, 0, 0, 0, 0, 0, 0, 0, 0, 0, 0, 0, 0, 0, 0, 0, 0,
    0, 0, 0, 0, 0, 0, 0, 0,
    /* the first party, attendee "A", wants to have accepted */
    0x01, 1, 'A',
    0, 0, 0, 0, 0, 0, 0, 0, 0, 0, 0, 1, 1, 'a', 0, 0, 0x01, 0, 0, 0, 0, 0, 0, 0, 0, 0, 0, 0, 0, 0, 0,
    /* the second, the owner, wants the title "t" and the attendee "b" alone */
    0x00,
    1, 1, 't', 0, 0, 0, 0, 0, 0, 0, 0, 0, 0, 1, 1, 'b', 0, 0, 0, 0, 0, 0, 0, 0, 0, 0, 0, 0, 0, 0, 0, 0, 0,
};
/* ten fields, and two units for each of "a" and "b" */
enum { BOOKING_UNITS = 10 + 2 * 2 };

static void step(const char *what, const uint8_t *frame, size_t frame_length)
{
    size_t length;
    uint8_t result = bay_step(state, sizeof state, work, sizeof work, output, sizeof output,
                              frame, frame_length, &length);
    printf("%s: result %u, effects ", what, result);
    for (size_t i = 0; i < length; i++)
        printf("%02x", output[i]);
    printf(length == 0 ? "none\n" : "\n");
}

static void print_cursor(void)
{
    bool found;
    size_t at, length;
    uint8_t result = bay_cursor(state, sizeof state, &found, &at, &length);
    if (result == BAY_ACCEPTED && found)
        printf("cursor: %.*s\n", (int)length, (const char *)state + at);
}

/* bay_sender_enter or bay_sender_reply */
typedef uint8_t call_use(uint8_t *, size_t, uint8_t, uint64_t, bool *, uint8_t *, uint64_t *);

static void use(const char *what, call_use *function, uint8_t mill, uint64_t number)
{
    bool granted;
    uint8_t to;
    uint64_t request;
    uint8_t result = function(sender, sizeof sender, mill, number, &granted, &to, &request);
    printf("%s: result %u", what, result);
    if (granted)
        printf(", mill %u may send request %llu", to, (unsigned long long)request);
    printf("\n");
}

/* The line's last bytes, one for each unit. */
static void print_names(const char *what, const uint8_t *line, size_t line_length)
{
    printf("%s: names ", what);
    for (size_t i = line_length - BOOKING_UNITS; i < line_length; i++)
        printf("%02x", line[i]);
    printf("\n");
}

static void clerks(const char *what, const uint8_t *frame, size_t frame_length)
{
    size_t one_line_length, two_line_length;
    uint8_t result = bay_two_clerks(frame, frame_length, one, sizeof one, two, sizeof two,
                                    clerks_work, sizeof clerks_work,
                                    &one_line_length, &two_line_length);
    printf("%s: result %u\n", what, result);
    if (result == BAY_ACCEPTED) {
        print_names("the attendee first", one, one_line_length);
        print_names("the owner first", two, two_line_length);
    }
}

int main(void)
{
    if (bay_state_length() != BAY_STATE_LENGTH || bay_output_length() != BAY_OUTPUT_LENGTH
        || bay_sender_length() != BAY_SENDER_LENGTH || bay_clerks_line_length() != BAY_CLERKS_LINE_LENGTH
        || bay_clerks_work_length() != BAY_CLERKS_WORK_LENGTH) {
        fprintf(stderr, "bay.h and libzagyvelon.a do not belong together\n");
        return 1;
    }
    if (bay_fresh(state, sizeof state) != BAY_ACCEPTED)
        return 1;
    step("sync", sync_now, sizeof sync_now);
    step("listed", listed, sizeof listed);
    step("tick", tick, sizeof tick);
    step("edit", edit, sizeof edit);
    step("no input", no_input, sizeof no_input);
    print_cursor();

    if (bay_sender_fresh(sender, sizeof sender) != BAY_ACCEPTED)
        return 1;
    for (uint64_t request = 0; request < 4; request++)
        use("mill 6 enters", bay_sender_enter, 6, request);
    use("mill 6 enters", bay_sender_enter, 6, 4);
    use("mill 1 enters", bay_sender_enter, 1, 70);
    use("reply to mill 6", bay_sender_reply, 6, 2);
    printf("mill 6 resumes: result %u\n", bay_sender_resume(sender, sizeof sender, 6));
    use("reply to mill 6", bay_sender_reply, 6, 0);
    use("mill 8 enters", bay_sender_enter, 8, 0);
    sender[BAY_SENDER_LENGTH - 1] = 8;
    use("no sender's bytes", bay_sender_enter, 6, 5);

    clerks("two clerks", booking, sizeof booking);
    clerks("a byte too few", booking, sizeof booking - 1);
    return 0;
}
