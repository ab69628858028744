/* The C interface of Virginalmimas, a verified netlist checker. Link libvirginalmimas.a, which `rt lib` in
   crates/virginalmimas proves and writes into its out/.

   Every entry takes any words, bytes and lengths and returns; none trusts its caller's checks. Its answer is one number: bits 63 to 48 are the
   number of the first fault (VM_NUMBER; 0: none), bits 47 to 0 its place, or what the entry says (VM_VALUE). A fault leaves every lent slice as it
   was; success changes nothing past what it writes. Faults 14 and 15 tell the room to allocate as their place.

   A slice of length 0 may have a null pointer. Slices that an entry writes must not overlap with any other of the call. There is no heap, no
   state between calls and no lock: threads may call at the same time on slices of their own. Tables are on the stack: VM_STACK bytes are
   enough for every entry. */
#ifndef VIRGINALMIMAS_H
#define VIRGINALMIMAS_H

#include <stddef.h>
#include <stdint.h>

/* The version of the entries: each higher one adds entries and changes no declaration of a lower one. 2 added the entries that take a mode; 3
   added vm_order. */
#define VM_VERSION 3
/* vm_order needs it, for its tables of 240 KB; 192 KB are enough for every other entry. */
#define VM_STACK (256 * 1024)

/* The parts of an answer. */
#define VM_NUMBER(answer) ((uint64_t)(answer) >> 48)
#define VM_VALUE(answer) ((uint64_t)(answer) & 0xFFFFFFFFFFFFu)
/* Of vm_verify, vm_counts and the same in a mode, without a fault: whether anything is asked, and the number of call words. */
#define VM_ASKED(answer) ((uint64_t)(answer) >> 47 & 1)
#define VM_WORDS(answer) ((uint64_t)(answer) & 0x7FFFFFFFFFFFu)
/* Of vm_order, without a fault: whether the slots are a loop's, and their number. */
#define VM_LOOPED(answer) ((uint64_t)(answer) >> 47 & 1)
#define VM_LENGTH(answer) ((uint64_t)(answer) & 0x7FFFFFFFFFFFu)

/* Faults. */
#define VM_LIST_ENDS 1        /* the list ends early, or words remain */
#define VM_WRONG_KIND 2       /* a word of the wrong kind; a mark above 2, or whose names the calls do not declare */
#define VM_NO_OPERATION 3
#define VM_ABOVE_BOUND 4
#define VM_COUNT_DIFFERS 5    /* a record's fields differ from its head's count */
#define VM_NO_SLOT 6
#define VM_NO_WIDTH 7
#define VM_NO_CONSTANT 8
#define VM_OFFSET_BEYOND 9
#define VM_READS_VOID 10
#define VM_CROSSES_END 11
#define VM_BAD_REPLACEMENT 12
#define VM_NOT_ASCENDING 13
#define VM_ROOM_FOR_WORDS 14  /* the place is the room needed, in words or marks */
#define VM_ROOM_FOR_TEXT 15   /* the place is the room needed, in bytes or trits */
#define VM_UNREADABLE 16
#define VM_OTHER_NAME 17
#define VM_UNKNOWN 18         /* the solver said unknown */
#define VM_MALFORMED 19       /* a malformed call list */
#define VM_BITS 20            /* bits or values too short, or bits above a width */
#define VM_NO_MODE 23         /* a mode other than 0 and 1 */

/* Modes: how the net of a Dff that is replaced by the net of a Dff is judged. Every other edit is judged alike in both. */
#define VM_MODE_PORTED 0u     /* as the original: the pasts are joined, current to current, and then the ordinary obligation too */
#define VM_MODE_INDUCTIVE 1u  /* by the induction step alone: the pasts are joined, and current to current */

/* Kinds of words: the top three bits. */
#define VM_KIND_NET 0u
#define VM_KIND_INVERTED 1u
#define VM_KIND_HEAD 2u
#define VM_KIND_NUMBER 3u
#define VM_KIND_TERM 4u

/* Trits and marks. */
#define VM_ZERO 0
#define VM_ONE 1
#define VM_X 2
#define VM_NOT_RECORDED 3
#define VM_MARK_NONE 0
#define VM_MARK_NOW 1         /* the n names */
#define VM_MARK_PAST 2        /* the p names */

#ifdef __cplusplus
extern "C" {
#endif

/* Reads a design list of len words: the number of slots, base + added. */
uint64_t vm_read(const uint32_t *list, size_t len);

/* Verifies a design list of len words: the words of its calls go into calls, which has room for c, and a mark for each slot into recorded, which
   has room for r. VM_WORDS is the number of call words. VM_ASKED is 1 where something is asked; where it is 0 there is no check among the calls,
   a solver has nothing to answer, and nothing is proved. A slice too short is 14 at the room needed, the call words before the slots. */
uint64_t vm_verify(const uint32_t *list, size_t len, uint32_t *calls, size_t c, uint8_t *recorded, size_t r);

/* What vm_verify would answer if its slices had room enough. The numbers of terms, temporaries and call words go into counts[0] to counts[2]; room
   for less than 3 is 14 at 3, after the list's own faults. */
uint64_t vm_counts(const uint32_t *list, size_t len, uint64_t *counts, size_t c);

/* The same in a mode; those above are in VM_MODE_PORTED. Another mode than the two is 23 at 0, before the list is looked at, and the slices stay. */
uint64_t vm_verify_mode(uint32_t mode, const uint32_t *list, size_t n, uint32_t *calls, size_t c, uint8_t *recorded, size_t r);
uint64_t vm_counts_mode(uint32_t mode, const uint32_t *list, size_t n, uint64_t *counts, size_t c);

/* Orders a design list of n words. Its nodes are the asserted cells but Input and IoBuf, and the replaced Voids, each by its first slot. Without
   a current loop all nodes go into slots, which has room for s: each after all that it reads currently, the lowest ready one always next. With
   one a loop goes there: each one's cell or Void reads the next, and the last reads the first. The loop is found by going from the lowest slot
   that never gets ready always to the lowest such slot read, and starts at the first met again. VM_LOOPED is 1 for a loop; VM_LENGTH is the
   number of slots written, none of them twice. Room for less than base + added is 14 at that number, after the list's own faults. The answer is
   the same in every mode. */
uint64_t vm_order(const uint32_t *list, size_t n, uint32_t *slots, size_t s);

/* Checks a call list of n words: 19 at its place, or the number of its terms. The numbers of terms and of declared names, by which values and bits
   are allocated, go into sizes[0] and sizes[1]; room for less than 2 is 14 at 2. */
uint64_t vm_check(const uint32_t *calls, size_t n, uint64_t *sizes, size_t s);

/* Evaluates a call list of n words under m numbers: the bits of its declared names, in the order of their declarations. The number of every term
   goes into values, which has room for v. The value is the number of false assertions, the query among them. */
uint64_t vm_evaluate(const uint32_t *calls, size_t n, const uint64_t *bits, size_t m, uint64_t *values, size_t v);

/* Writes the script of a call list of n words and its r recorded marks into a text of t bytes: the number of bytes. */
uint64_t vm_script(const uint32_t *calls, size_t n, const uint8_t *recorded, size_t r, uint8_t *text, size_t t);

/* Reads a solver's answer of t bytes against r recorded marks into a table of s entries: a trit or VM_NOT_RECORDED per mark, written only after
   sat. The value is 0 for unsat and 1 for sat; docs/UNSAT.md has what they say of the design. With a current loop unsat proves nothing: vm_order
   tells whether there is one. */
uint64_t vm_answer(const uint8_t *text, size_t t, const uint8_t *recorded, size_t r, uint8_t *trits, size_t s);

/* The same for long call lists, with tables lent by the caller: the places of the records of terms, their sorts, and the declared names. The answers
   are the same for every length of the tables. Time grows with the calls as long as places and sorts have an entry for each term and names have
   9 bytes for each index of a name; past a table a record is looked for. What the tables hold afterwards is free. The entries without tables
   have their own, which cover every list of 16,384 words. Past these they count on from the nearest place noted, of 4,096 in vm_check and
   vm_evaluate and 12,288 in vm_script (more in docs/PERFORMANCE.md). */
uint64_t vm_check_with(const uint32_t *calls, size_t n, uint64_t *sizes, size_t s, uint8_t *sorts, size_t terms, uint8_t *names, size_t bytes);
uint64_t vm_evaluate_with(const uint32_t *calls, size_t n, const uint64_t *bits, size_t m, uint64_t *values, size_t v,
                          uint8_t *sorts, size_t terms, uint8_t *names, size_t bytes);
uint64_t vm_script_with(const uint32_t *calls, size_t n, const uint8_t *recorded, size_t r, uint8_t *text, size_t t,
                        uint32_t *places, size_t records, uint8_t *sorts, size_t terms, uint8_t *names, size_t bytes);

#ifdef __cplusplus
}
#endif

#endif
