/* A first night through the C face: one seat with delay 1, two words, three frames, and the log of each.
 *
 *     examples/archive desk_face
 *     cc examples/first_night.c target/staticlib/libdesk_face.a -o first_night && ./first_night
 *
 * The archive is for Linux on x86-64.
 */
#include <stddef.h>
#include <stdint.h>
#include <stdio.h>

/* A list is a pointer and a length. Every function answers a number of docs/RULES.md, 0 for done. */
uint32_t desk_setup(uint32_t *state, size_t state_length, uint32_t *seats, size_t seats_length, uint32_t *slots, size_t slots_length,
                    uint32_t limit, uint32_t predictor, const uint32_t *delays, size_t delays_length);
uint32_t desk_take(const uint32_t *state, size_t state_length, uint32_t *seats, size_t seats_length, uint32_t *words,
                   size_t words_length, uint32_t seat, int32_t frame, uint32_t word, uint32_t *said, size_t said_length);
uint32_t desk_advance(uint32_t *state, size_t state_length, uint32_t *seats, size_t seats_length, const uint32_t *words,
                      size_t words_length, uint32_t *slots, size_t slots_length, uint32_t *served, size_t served_length,
                      uint32_t *statuses, size_t statuses_length, uint32_t *said, size_t said_length);
uint32_t desk_log(const uint32_t *state, size_t state_length, const uint32_t *seats, size_t seats_length, const uint32_t *slots,
                  size_t slots_length, int32_t frame, uint8_t *line, size_t line_length, uint32_t *said, size_t said_length);

/* The desk, in lists of the caller's; as long as the largest desk needs them. */
static uint32_t state[7], seats[32], words[512], slots[256];
static uint32_t served[4], statuses[4], said[3];
static uint8_t line[54];

#define LIST(list) (list), sizeof(list) / sizeof((list)[0])

int main(void) {
    const uint32_t delays[1] = {1}, sent[2] = {0x105, 0x1ff};
    uint32_t no = desk_setup(LIST(state), LIST(seats), LIST(slots), 2, 0, LIST(delays));
    for (int32_t frame = 0; frame < 3 && no == 0; frame++) {
        if (frame < 2)
            no = desk_take(LIST(state), LIST(seats), LIST(words), 0, frame, sent[frame], LIST(said));
        if (no == 0)
            no = desk_advance(LIST(state), LIST(seats), LIST(words), LIST(slots), LIST(served), LIST(statuses), LIST(said));
    }
    for (int32_t frame = 0; frame < 3 && no == 0; frame++) {
        no = desk_log(LIST(state), LIST(seats), LIST(slots), frame, LIST(line), LIST(said));
        if (no == 0)
            fwrite(line, 1, said[0], stdout);
    }
    if (no != 0)
        fprintf(stderr, "refused: %u\n", (unsigned)no);
    return no != 0;
}
