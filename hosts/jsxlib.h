/* JSX lowering over tapes: the entries of crates/jsxlib/out/libjsxlib.a (`rt lib` in crates/jsxlib), for x86-64 Linux.
 *
 * Every entry answers 0, or the number of a refusal, and stores the refusal's figure at `figure`:
 *
 *      1  text or tape over 65,535 bytes                              65,535
 *      2  the text is not UTF-8                                       start of the first ill-formed sequence
 *      3  command or operand not allowed here, or the tape ends       command's offset, or tape length
 *      4  span that ends beyond the text                              command's offset
 *      5  classic, and a pragma in force has a byte over 7F           that byte's offset in the text
 *      6  65th level of elements and fragments                        command's offset
 *      7  character reference in a string or a text                   command's offset
 *      8  line or column 4,294,967,295                                command's offset
 *      9  more than 8 bindings                                        8
 *     10  target (or state) has no room                               bytes that this entry would write
 *     11  notice target has no room                                   the same, of notices
 *     12  forged: no state's bytes, or no state of this text          0
 *     13  span that cuts a character                                  command's offset
 *     14  empty name                                                  command's offset
 *
 * Of several faults of one command the first of 3, 4, 13, 14, 6, 7, 8 is told, whichever of its spans has it. An opening is refused by 1, 2, then 3, 4 and 13 in tape
 * order, then 5; in jsx_open 10 comes next, for the state; 11 comes last, for the opening's notices.
 *
 * What a job tells without refusing it stands on its notice tape, S a start and a length as two bytes each, the low one first:
 *
 *      C0 S    a key without a value: its name                            from a root
 *      C1 S S  a namespaced tag, where the flags forbid it: both names    from a root
 *      C2 S    the first part of a pragma that is not valid               from the opening of a classic job, the pragma's before the fragment pragma's
 *
 * Where a pragma is not valid, calls go to React.createElement in its place, and for a fragment pragma the tag is React.Fragment; C2 says so. S is the first part between its
 * dots that fails: for `import` without `meta` next the root, and an empty S where a name is missing, as between the dots of `h..x` or in an empty option.
 *
 * What a refusal leaves: the state's bytes and every target as they were, in jsx_open, jsx_root, jsx_records, jsx_settings and jsx_source. jsx_roots and jsx_job lower the roots before the
 * one that is refused, and leave these: `taken` says how many. So after 10 or 11 from jsx_roots call it again with more room and with the list cut behind its first
 * `taken` roots; called with the whole list it would lower those a second time. jsx_job keeps no state and is called again as it was.
 *
 * What 12 says, and what it doesn't: bytes that packing never makes, fills beyond the targets, spans and pragma forms that the text does not bear out, records
 * numbered with a gap, twice, or of things that the settings can't bind are refused. A state that says something else in order is taken at its word: another flag, a
 * smaller fill, records of other roots. Keep states where only your own program writes.
 *
 * Stack: a call takes at most 210,000 bytes of it, for a root nested as deep as allowed (64 levels). Give a thread that calls these entries 256 KiB at the least.
 *
 * What a caller owes: each pointer points to as many bytes as the length behind it says and is not null, also where that is 0;
 * what an entry writes (no `const`) overlaps nothing else that it is given. The entries keep nothing between calls and no pointer.
 */
#ifndef JSXLIB_H
#define JSXLIB_H

#include <stddef.h>
#include <stdint.h>

#ifdef __cplusplus
extern "C" {
#endif

/* A job's state: exactly this many bytes, to be kept and copied as one likes. */
#define JSX_STATE_SIZE 102

/* No opening writes more bytes of notices: two C2. */
#define JSX_OPENING_NOTICES 10

/* Opens a job: reads the opening tape over the text, writes the state to the front of `state` and the opening's notices, if there are any, to the front of `notices`. On 0
 * the figure is JSX_STATE_SIZE; jsx_fills tells how far the notices are filled. The notices of the roots go behind them, so hand jsx_root and jsx_roots the same
 * target. Refused by 10 with JSX_STATE_SIZE where the state has no room, else by 11 with the size of the notices where these have none; a refusal leaves both as they
 * were. JSX_OPENING_NOTICES bytes are room enough. */
uint8_t jsx_open(const uint8_t *text, size_t text_len, const uint8_t *job, size_t job_len, uint8_t *state, size_t state_len, uint8_t *notices,
                 size_t notices_len, size_t *figure);

/* Lowers a root: its calls and notices go behind those of the opening and of the roots before it, as far as the state says the targets are filled.
 * `text` is the text of jsx_open, `state_len` is JSX_STATE_SIZE. On 0 the state is the one after the root, and the figure is 0. */
uint8_t jsx_root(const uint8_t *text, size_t text_len, uint8_t *state, size_t state_len, const uint8_t *tape, size_t tape_len, uint8_t *calls,
                 size_t calls_len, uint8_t *notices, size_t notices_len, size_t *figure);

/* Lowers the roots of a list in turn, up to the first that is refused. On the list each root stands behind its length, two bytes with the low one first.
 * `taken` is how many were lowered; the state and the targets are as these left them. On 0 that is all of them; else the number and the figure are the
 * refusal of the root with that index, counted from 0. A list that is cut short is refused by 3 with the list's length, behind its whole roots.
 * Text and state are tested once for the whole list, also for one without roots, while jsx_root tests them for each root. */
uint8_t jsx_roots(const uint8_t *text, size_t text_len, uint8_t *state, size_t state_len, const uint8_t *roots, size_t roots_len, uint8_t *calls,
                  size_t calls_len, uint8_t *notices, size_t notices_len, size_t *taken, size_t *figure);

/* Writes the record tape of the roots so far to the front of `target`. On 0 the figure is its length. */
uint8_t jsx_records(const uint8_t *text, size_t text_len, const uint8_t *state, size_t state_len, uint8_t *target, size_t target_len,
                    size_t *figure);

/* The settings as they stand after the comments, at the front of `target`. On 0 the figure is JSX_SETTINGS_SIZE, and the bytes are, numbers with the low byte first:
 *
 *      0   the flags, bit by bit as on the opening tape, after the comments
 *      1   five parts of the text, five bytes each: 1 and its start and length as two bytes each, or five zeros where there is none. They are the pragma, the
 *          fragment pragma, the import source, and the pragma and the fragment pragma that comments set for TypeScript
 *     26   whether calls are pure: 0 or 1
 *     27   how the job names what its calls need: 0 by imports (a module), 1 by requires (a script), 2 by pragmas (classic)
 *     28   the pragma of a classic job, what 98 00 stands for: a byte for its root (0 none that is valid: React.createElement; 1 `this`; 2 `import.meta`; 3 an
 *          identifier), and eight for how many names follow it. The names are those of the part above
 *     37   the same of the fragment pragma, what 98 01 stands for (0: React.Fragment)
 *
 * Refused as jsx_records is: 1, 2, 12, 10. */
#define JSX_SETTINGS_SIZE 46
uint8_t jsx_settings(const uint8_t *text, size_t text_len, const uint8_t *state, size_t state_len, uint8_t *target, size_t target_len,
                     size_t *figure);

/* The text of the source that a B0 of the record tape names, 0 the import source and 1 the runtime source (as any other number), at the front of `target`. On 0 the
 * figure is its length. Refused as jsx_records is: 1, 2, 12, 10. */
uint8_t jsx_source(const uint8_t *text, size_t text_len, const uint8_t *state, size_t state_len, uint8_t source, uint8_t *target, size_t target_len,
                   size_t *figure);

/* A whole job at once: its opening, the roots of a list (as for jsx_roots) and its records, with no state in between. `calls` and `notices` are filled from their
 * fronts as far as `call_fill` and `notice_fill` say, the opening's notices before those of the roots. On 0 `stage` is 2, and the figure is the length of the record
 * tape at the front of `records`. A refusal ends the job: `stage` is 0 where it is that of the opening (11 where its notices have no room, among others), 1 where it is that
 * of the root with the index `taken` or of a list that is cut short behind so many, 2 where the records have no room. The opening's notices stand and the roots before it
 * have been lowered, and the records are not written. Where the settings are wanted too, jsx_open and jsx_settings tell them. */
uint8_t jsx_job(const uint8_t *text, size_t text_len, const uint8_t *job, size_t job_len, const uint8_t *roots, size_t roots_len, uint8_t *calls,
                size_t calls_len, uint8_t *notices, size_t notices_len, uint8_t *records, size_t records_len, size_t *stage, size_t *taken,
                size_t *call_fill, size_t *notice_fill, size_t *figure);

/* How many bytes of the call target and of the notice target are filled; 0, or 12 (and two zeros) where the bytes are no state's. */
uint8_t jsx_fills(const uint8_t *state, size_t state_len, size_t *calls, size_t *notices);

/* As many bytes as the calls of a root can take at the most. A call target with that much room behind its fill, and a notice target with as much as the tape is
 * long, take a root in one pass; where there is less, it is measured first. */
size_t jsx_call_room(const uint8_t *tape, size_t tape_len);

#ifdef __cplusplus
}
#endif

#endif
