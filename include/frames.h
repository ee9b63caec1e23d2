/* The frames of the program `sheet`: the kind of a line, and the answer to it. docs/FRAMES.md has the formats of frames and answers.
 *
 * On x86-64 Linux, `rt lib` in crates/frames_c proves the crates and writes out/libframes_c.a there; a program is then built by
 *
 *     gcc -I include -o program program.c crates/frames_c/out/libframes_c.a
 *
 * with crates/sheet_c/out/libsheet_c.a behind it where it makes the calls of sheet.h too.
 *
 * A slice is a pointer and the number of its elements. The pointer is aligned for its element type and not null, also where the number is 0.
 * A slice that a call may write overlaps no other slice of that call: of frame_step that is every slice but the line.
 *
 * Coins. The words that tape frames bring are random (uniform and independent), secret, and used once: a step drops the words that it reads.
 * With 72 waiting words (five tape frames bring 80) an insert or a delete has enough, but for a share below 2^-134 of all tapes of that
 * length. One that is refused by cause 7 leaves all words waiting: send more tape frames and then the same frame again, so that it reads the
 * SAME words and more behind them. Do not replace them: that would favour the sheets that take few words. sheet.h says what is not claimed.
 */
#ifndef FRAMES_H
#define FRAMES_H

#include <stddef.h>
#include <stdint.h>

/* The kinds: the first byte of a frame, and what a line that is no frame has instead. */
#define FRAME_INSERT 1
#define FRAME_DELETE 2
#define FRAME_READ 3
#define FRAME_TAPE 4
#define FRAME_PRINT 5
#define FRAME_CLEAR 6
#define FRAME_PLACE 7
#define FRAME_NONE 255

/* The causes that only a line meets; the others, 1 to 7, are those of sheet.h. The cause stands in the second byte of the answer. */
#define FRAME_CAUSE_NO_FRAME 8
#define FRAME_CAUSE_TAPE_FULL 9

/* The tape's length in words, and how many bytes the longest answer has. */
#define FRAME_TAPE_WORDS 1024
#define FRAME_OUTPUT 69012

#ifdef __cplusplus
extern "C" {
#endif

/* The kind of a line of bytes without its LF, or FRAME_NONE where it is no frame. */
uint8_t frame_kind(const uint8_t *line, size_t line_len);

/* Answers a line of bytes without its LF: what the program `sheet` does with it. The store is that of sheet.h, where zeros are the empty
 * sheet. The tape has FRAME_TAPE_WORDS words, of which the first waiting[0] wait, the oldest first; waiting[0] is brought up to date. The
 * answer, its lines ended by LF, stands at the front of the output, which has at least FRAME_OUTPUT bytes and whose rest stays as it was; how
 * many bytes the answer has is returned. Where the output is shorter, the tape has another length, waiting is empty or waiting[0] is more
 * than FRAME_TAPE_WORDS, 0 is returned and nothing changes.
 *
 * A store of other lengths (cause 1), or one that is no sheet (cause 2), is refused in the answer, but not by every line: the frames 04 (tape)
 * and 06 (clear) and lines that are no frames do not look at the contents of the store. Clear meets cause 1 alone; the other two are answered
 * whatever the store is. N in an answer is count 1 of the store after the line, 0 where there is none.
 */
size_t frame_step(const uint8_t *line, size_t line_len, uint64_t *slots, size_t slots_len, uint16_t *counts, size_t counts_len,
                  uint16_t *tallies, size_t tallies_len, uint32_t *tape, size_t tape_len, uint64_t *waiting, size_t waiting_len,
                  uint8_t *output, size_t output_len);

#ifdef __cplusplus
}
#endif

#endif
