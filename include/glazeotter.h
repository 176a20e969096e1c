/* The script check of the lock-in module, for a console in C.
 *
 * Link with libc_interface.a, which `tests/build c_interface` writes to target/staticlib/.
 *
 * The check's own proofs are in Rattle (crates/c_interface, crates/script,
 * crates/extreme_courses, crates/demand3). They cover neither this header nor a caller in C:
 * that script has length bytes is the caller's part.
 */
#ifndef GLAZEOTTER_H
#define GLAZEOTTER_H

#include <stddef.h>
#include <stdint.h>

#ifdef __cplusplus
extern "C" {
#endif

/* The check as the library has it: script must not be NULL, even where length is 0. Call
 * glazeotter_check, which has no such rule. */
uint64_t glazeotter_check_bytes(const uint8_t *script, size_t length, uint32_t capacity);

/* Whether any bench with traces of this capacity can refuse a command of this script.
 *
 * script     the script's bytes: lines with an LF after each, or each but the last; no NUL is
 *            needed at the end. Where length is 0 it may be any pointer, NULL too, and is not used.
 * length     how many bytes; any number, 0 too.
 * capacity   the capacity of both traces; any number: one that is not 1 to 16383 is refusal 9.
 *
 * The bytes are only read, and only during the call: nothing is written to them and no
 * pointer to them is kept. Nobody else may write them meanwhile. Nothing is kept from one call to
 * the next, and no heap is used.
 *
 * The answer is 0 where no bench can refuse a command of the script. Else it holds the line, the place
 * and the refusal of the first command, or line, that is refused: read them by the three
 * functions below.
 */
static inline uint64_t glazeotter_check(const uint8_t *script, size_t length, uint32_t capacity)
{
    static const uint8_t no_byte = 0;

    return glazeotter_check_bytes(length == 0 ? &no_byte : script, length, capacity);
}

/* The refusals that the check gives. */
#define GLAZEOTTER_MALFORMED 1        /* no command: no such name, or the name or its arguments in another form */
#define GLAZEOTTER_OUT_OF_RANGE 2     /* an argument out of its range, or not whole where it must be */
#define GLAZEOTTER_NOT_ALLOWED 3      /* not allowed in a state that some bench can be in */
#define GLAZEOTTER_NO_RESET 7         /* the script does not begin with *RST */
#define GLAZEOTTER_LONG_SCRIPT_LINE 8 /* a line over 256 bytes; place 0 */
#define GLAZEOTTER_BAD_CAPACITY 9     /* a capacity that is not 1 to 16383; line 0, place 0 */

/* The line, counted from 1: bits 24 to 63 of the answer. It is 0 for refusal 9.
 * A line past 2^40 - 1 counts as 2^40 - 1; a script shorter than 2^40 bytes has no such line. */
static inline uint64_t glazeotter_line(uint64_t answer)
{
    return answer >> 24;
}

/* The place of the command in its line, counted from 1: bits 8 to 23. It is 0 for refusals 8
 * and 9, which name no command. A place past 65535 would count as 65535; a line of at most
 * 256 bytes has at most 257 commands. */
static inline uint32_t glazeotter_place(uint64_t answer)
{
    return (uint32_t)(answer >> 8 & 0xFFFFu);
}

/* The refusal's number: bits 0 to 7. It is 0 exactly where the whole answer is 0. */
static inline uint32_t glazeotter_refusal(uint64_t answer)
{
    return (uint32_t)(answer & 0xFFu);
}

#ifdef __cplusplus
}
#endif

#endif
