/* badolkhup.h: the calls of the engine, for C and for what can call C. x86-64 Linux. Link target/staticlib/libbadolkhup.a (`bash tools/build badolkhup`).

   A rule book holds Horn clauses in numbered groups; group 0 is the fixed core, which is always in force. A choice is a set of groups, as a number: group g adds 2^(g-1). An
   explanation is an inconsistent choice from which no group can be taken without becoming consistent, a repair a set of groups whose removal leaves a consistent choice, while giving
   back any one of them makes it inconsistent.

   BYTES OF A BOOK. Fields: a tag of one byte, a length of two bytes, a value. All numbers have the high byte first.
     Tag  Value
      1   variables (2 bytes), groups (2 bytes): the header; first, once
      2   a clause: group, head (0 for none), then body variables strictly rising, 2 bytes each
      0   empty: the end
   At most 65,535 bytes; 1 to 1,024 variables; 0 to 32 groups; at most 2,048 clauses, numbered from 1; at most 32 body variables.

   GROUP CNF TEXT. Lines, each ended by a line feed, which the last may lack. Blanks and tabs separate, and may end or begin a line. Numbers are decimal digits of any length.
     c...                       a comment: `c` is the first byte of the line, and any bytes follow
                                a blank line: nothing but blanks and tabs
     p gcnf 3 6 5               variables, clauses, groups: once, before the first clause
     {2} -1 3 0                 a clause: its group in braces with no blank inside, literals in any order, also repeated, and 0. A body variable has a minus, the head has none

   EVERY CALL takes every input: it answers, or it refuses by number and place. It keeps nothing between calls, allocates nothing and ends. Several threads may call at once, each
   with spaces of its own.

   WHAT A CALL GIVES. It returns 0 if it answered, else the number of the refusal. `answer` then holds
       answer[0]                 how many values follow
       answer[1], [2], [3]       the values; 0 behind the last of them
   Of a refusal there is one value, the place.

   SPACES. A space is a pointer and the number of elements behind it. The pointer is aligned for its type and not NULL, also where the number is 0; then nothing is read or written.
   The spaces of one call do not overlap. A refusal leaves all of them as they came, except `answer`. What is said of each call below holds where it answered; whatever is not named there
   stays as it came.

   WORKING SPACE: at least BADOLKHUP_WORK_WORDS words of 16 bits. They need not be cleared. After an answer the first BADOLKHUP_WORK_WORDS are 0 and the rest is as it came.

   RECORDS are pairs of 32-bit words: kind (BADOLKHUP_EXPLANATION or BADOLKHUP_REPAIR) and set, a choice.

   REFUSALS. Bytes, words and numbers are counted from 0, lines from 1: comments and blank lines too. "Field" is the first byte of the field, "index" the index in the plain form, "line"
   the number of the line in a text that is to become a book.
     No.  Condition                                                                                                                   Place
      1   book longer than 65,535 bytes, or would be when written                                                                     0
      2   a field is due and fewer than 3 bytes remain, or its length runs past the end                                               field
      3   unknown tag                                                                                                                 field
      4   first field is no header, or a header comes later                                                                           field
      5   header length not 4; end not 0; clause length under 4, odd or over 68. Writing: the 33rd body literal; text: 33 different   field; index; line
      6   clause 2,049                                                                                                                field; index of its group; line
      7   a number outside its limit (1 to 1,024 variables, 0 to 32 groups; text: 0 to 2,048 clauses) or outside the header's counts  field; index; line
      8   body not strictly rising; writing: also a negative after the head                                                           field; index
      9   bytes after the end                                                                                                         first such byte
     10   choice names a group the book lacks                                                                                         lowest such group
     11   lent space too small (not the record room)                                                                                  0
     12   plain form ends before its 0, or has under two numbers                                                                      its length
     13   second positive literal in a clause                                                                                         index
     14   count exceeds the whole records in the space; else kind not 1 or 2, or set beyond the groups                                words in the space; index of the lowest
                                                                                                                                      faulty word
     20   text: two different positive literals in a clause                                                                           line
     21   text: the clauses are not as many as the p line says                                                                        line of the p line
     22   text: a line of none of the forms, a clause before the p line, a second p line; there is no p line                          line; 0
   A book is read field by field, each field's refusals in the order 2 to 8, after 1 and before 9; then come 10, 14, 11. A plain form is taken number by number: at each header number
   that is there 7; at a group 6, 7; at a literal 7 (also -2147483648), 13, 8, 5; 12 where the numbers run out; at the end 1, 11. A text is taken line by line, each line's refusals in
   the order 22, 7, 20, 6, 5; at the end 22 at 0, 21, 1, 11. */
#ifndef BADOLKHUP_H
#define BADOLKHUP_H

#include <stddef.h>
#include <stdint.h>

#ifdef __cplusplus
extern "C" {
#endif

#define BADOLKHUP_WORK_WORDS 8192

/* The kinds of records. */
#define BADOLKHUP_EXPLANATION 1
#define BADOLKHUP_REPAIR 2

/* Whether some bytes are a rule book.
   Values: variables, groups, clauses. Refusals: 1 to 9. */
uint32_t badolkhup_check(const uint8_t *book, size_t book_len, uint64_t answer[4]);

/* A book in plain form: variables and groups; then of each clause its group, its body as negative numbers in rising order of variable, its head if any as a positive number, and 0.
   Value: how many numbers were written. `out` begins with them. Refusals: 1 to 9, 11. */
uint32_t badolkhup_read(const uint8_t *book, size_t book_len, int32_t *out, size_t out_len, uint64_t answer[4]);

/* A plain form as a book.
   Value: how many bytes were written. `out` begins with them. Refusals: 1, 5, 6, 7, 8, 11, 12, 13. */
uint32_t badolkhup_write(const int32_t *plain, size_t plain_len, uint8_t *out, size_t out_len, uint64_t answer[4]);

/* A group CNF text as a book: its clauses in the order of their lines, each literal once, bodies rising. A text may be longer than 65,535 bytes.
   Value: how many bytes were written. `out` begins with them. Refusals: 1, 5, 6, 7, 11, 20, 21, 22. */
uint32_t badolkhup_from_text(const uint8_t *text, size_t text_len, uint8_t *out, size_t out_len, uint64_t answer[4]);

/* A book as group CNF text: the p line; then of each clause its group in braces, its body with minuses in rising order of variable, its head if any, and 0. Single blanks separate, and a
   line feed ends each line. Turned into a book, the text gives the same bytes again.
   Value: how many bytes were written. `out` begins with them; there is no 0 byte behind them. Refusals: 1 to 9, 11. */
uint32_t badolkhup_to_text(const uint8_t *book, size_t book_len, uint8_t *out, size_t out_len, uint64_t answer[4]);

/* Whether a choice is consistent, and what it forces.
   Values: none if it is consistent; else one, the lowest number of a goal clause broken. `out` begins with one byte for each variable, 1 if forced and else 0, either way; `work`
   as above. Refusals: 1 to 9, 10, 11. */
uint32_t badolkhup_ask(const uint8_t *book, size_t book_len, uint32_t choice, uint8_t *out, size_t out_len, uint16_t *work, size_t work_len, uint64_t answer[4]);

/* One explanation within a choice: the one that is the smallest number.
   Values: none if the choice is consistent; else one, the smallest number among the inconsistent choices within it. It is 0, the empty set, if the core alone is inconsistent. `work` as
   above. Refusals: 1 to 9, 10, 11. */
uint32_t badolkhup_explain(const uint8_t *book, size_t book_len, uint32_t choice, uint16_t *work, size_t work_len, uint64_t answer[4]);

/* One round: adds the next record behind the `count` that stand in `records`, if a seed and room remain. The seed is the largest number among choices that contain no listed explanation
   and share a group with every listed repair. Of an inconsistent seed the record is the explanation within it that is the smallest number, of a consistent one the repair that is its
   complement.
   Values: the new count; and 1 for complete, 0 for stopped. It is complete exactly if no seed remains after the call, whether the room is full or not. Begun with a count of 0, the
   records are then all explanations and all repairs, each once. Records of another book are taken as they are if they are well formed: then complete does not mean that all are there.
   `records` holds the old records and the new one; a spare odd word and all unused words stay; `work` as above. Refusals: 1 to 9, 14, 11. */
uint32_t badolkhup_round(const uint8_t *book, size_t book_len, uint32_t *records, size_t records_len, size_t count, uint16_t *work, size_t work_len, uint64_t answer[4]);

/* A listing: rounds to the end of the room or until it is complete. The same as badolkhup_round, with as many new records as there are and as fit. A listing that stopped goes on where
   the same records stand in a larger space and their count is given. */
uint32_t badolkhup_list(const uint8_t *book, size_t book_len, uint32_t *records, size_t records_len, size_t count, uint16_t *work, size_t work_len, uint64_t answer[4]);

#ifdef __cplusplus
}
#endif

#endif
