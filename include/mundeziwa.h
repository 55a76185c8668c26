/* Mundeziwa: names compared under the collations of RFC 4790 and RFC 5051, every function proved.
 *
 * Each call of this header takes any octets, any two slices as a table, buffers and pages of any lengths, and ends with an answer.
 * Their twins without the check of the table, for callers that keep one table for many texts, are in mundeziwa_accepted.h.
 *
 * The library keeps nothing, allocates nothing and calls nothing but memcpy and memset: no locale, no errno, no global state. Any
 * number of threads may call it at once. All memory is the caller's, lent for the call alone.
 *
 * SLICES. A slice is a pointer and the number of its ELEMENTS (octets of a text, 32-bit numbers of a table, 64-bit numbers of
 * pages). Where the number is 0 the pointer may be anything that is aligned, but not NULL. Slices that are written (presence and
 * ranks; key buffers; entries and pool of mz_add_line; the records of mz_write_text and mz_write_key; store, partners and
 * positions of mz_find_shared; store, key_ends and valid of mz_prepare_many; row, repeats and partners of mz_match_keys; the
 * answer) must overlap no other argument, nor any of a call that another thread makes at the same time; those that are only read
 * may overlap each other.
 *
 * TABLE. entries holds MZ_ENTRY_WIDTH numbers for each entry: code point, titlecase (the code point itself if none), start of its
 * decomposition in the pool, number of code points there. Entries ascend by code point; a start is the sum of all earlier counts.
 * mz_add_line builds such a table from the lines of UnicodeData.txt; mz_check_table says whether one is accepted. Two empty
 * slices are an accepted table, in which every code point but the Hangul syllables maps to itself.
 *
 * HANGUL. The syllables, AC00 to D7A3 hex, map by the Unicode Standard's rule, whatever the table says: with s the distance from
 * AC00, a syllable decomposes into 1100 + s / 588, 1161 + s % 588 / 28 and, if s % 28 is not 0, 11A7 + s % 28 (base numbers hex).
 * These parts, its jamo, are then looked up as any other part is. So a Korean name in syllables has the key of the same name in
 * jamo (unless a table gives a jamo a titlecase, as no edition does), and a caller needs no lines for syllables: UnicodeData.txt
 * has but two, the ends of their range, which say nothing. A table with an entry for one is refused (4), and so is a line with a
 * mapping for one (25). Earlier libraries left syllables whole: keys of texts with syllables that they made must be made again.
 *
 * PAGES. A page is 64 code points in a row, and MZ_PAGES of them hold every code point. presence has a number for each page, with
 * a bit for each code point that has an entry, the lowest code point in the lowest bit; ranks has for each page the number of
 * entries before it. Entries are found by them. Each call that takes a collation and a table is lent both. Under
 * MZ_UNICODE_CASEMAP it checks the table and then fills them afresh, exactly MZ_PAGES numbers of each, whatever was there, and
 * leaves what lies beyond; also where no text is valid, or there is none. If either is under MZ_PAGES long the call is refused
 * (15). Under the other collations they are neither tested nor touched, whatever their lengths: two empty slices will do.
 *
 * So each of these calls under MZ_UNICODE_CASEMAP checks the whole table and fills 272 KiB, which takes a hundred microseconds or
 * more over the published table, however short the texts are. For many texts use mz_prepare_many or mz_find_shared, which pay it
 * once, or the calls of mundeziwa_accepted.h, which check nothing and read pages that one call has filled.
 *
 * KEYS. The key of a text stands at the start of the lent key buffer, and the octets after it stay as they were; but a key that
 * is the text itself (i;octet, and an invalid text under i;unicode-casemap) is not copied, and the buffer stays. Over an
 * accepted table a key has at most 128 octets for each character of its text. A buffer of MZ_KEY_PER_OCTET_MOST times the
 * text's length in octets is always long enough, and the call is then quickest. One as long as the text may be too short over any
 * table, also two empty slices: a Hangul syllable of 3 octets becomes 6 or 9.
 *
 * ANSWERS. Each call writes the whole of its answer row. answer[0] is the refusal number, 0 if the call was not refused;
 * answer[1] the place: 1 or 2, which text or list (a lone text is 1), 0 neither; answer[2] the detail, which the refusals below
 * name.
 * On a refusal no other lent slice changes, but for presence and ranks under MZ_UNICODE_CASEMAP: 8 comes after both were filled,
 * and leaves them so, while every other refusal comes before. All later fields of the row are 0 (but see mz_add_line). The checks
 * run in the order of the refusals below, and the first that applies is answered. A text is never refused for its content, and no
 * call fails in any other way.
 */
#ifndef MUNDEZIWA_H
#define MUNDEZIWA_H

#include <stddef.h>
#include <stdint.h>

#ifdef __cplusplus
extern "C" {
#endif

/* The interface that this header describes. A later one may give the same names other parameters, as this one, the first with
 * pages, does: a program that loads the library compares this number with mz_interface() before it makes any other call. */
#define MZ_INTERFACE 2

/* Collations. 1 and 2 do not read the table. */
#define MZ_OCTET 1           /* i;octet: the text is its key */
#define MZ_ASCII_CASEMAP 2   /* i;ascii-casemap: octets a to z raised to A to Z */
#define MZ_UNICODE_CASEMAP 3 /* i;unicode-casemap: the text prepared by RFC 5051 over the table, or itself if not valid UTF-8 */

/* Limits. */
#define MZ_TEXT_MOST 4096         /* octets of a text */
#define MZ_ENTRIES_MOST 16384     /* entries of a table */
#define MZ_ENTRY_WIDTH 4          /* numbers of an entry */
#define MZ_POOL_MOST 65536        /* numbers of a pool */
#define MZ_LINE_MOST 512          /* octets of a line of UnicodeData.txt */
#define MZ_KEY_PER_OCTET_MOST 128 /* octets of a key for each octet of its text */
#define MZ_NAMES_MOST 1024        /* names of a list */
#define MZ_ENDS_MOST 4294967295   /* texts or keys in one slice, told by their ends */
#define MZ_PAGES 17408            /* pages of 64 code points: the least length of presence and of ranks */

/* Kinds of record. */
#define MZ_KIND_TEXT 1 /* a text */
#define MZ_KIND_KEY 2  /* a key, with its collation, whether the text was valid under it, and the text's length */

/* Refusals of a call on texts, in their order; 3 to 7 are those of mz_check_table. The place is which text for 2 and 8, else 0.
 * The detail is for 2 the text's length; for 4, 5 and 7 the lowest such entry, counted from 0 (if no entry is at fault, the number
 * of entries: for 5 where the pool is too long, for 7 where a Hangul syllable is at fault); for 6 the lowest such index; for 8 the
 * length needed; else 0. */
#define MZ_REFUSED_COLLATION 1   /* the number is no collation's */
#define MZ_REFUSED_TEXT_LENGTH 2 /* a text is over MZ_TEXT_MOST */
#define MZ_REFUSED_TABLE_SIZE 3  /* entries not whole or over MZ_ENTRIES_MOST, or a pool over MZ_POOL_MOST */
#define MZ_REFUSED_CODE_POINT 4  /* a code point or titlecase is no scalar value; a code point is a syllable, or does not ascend */
#define MZ_REFUSED_ENTRY 5       /* a count over 32, a wrong start, parts past the pool, saying nothing; a pool too long */
#define MZ_REFUSED_POOL_NUMBER 6 /* a pool number is no Unicode scalar value */
#define MZ_REFUSED_LEVEL 7       /* an entry or a Hangul syllable does not unfold within 8 levels into at most 32 code points */
#define MZ_REFUSED_PAGES 15      /* under MZ_UNICODE_CASEMAP, presence or ranks is under MZ_PAGES long */
#define MZ_REFUSED_KEY_ROOM 8    /* a key that belongs in a buffer is longer than it */

/* Refusals of mz_add_line, in their order; place and detail are 0. */
#define MZ_REFUSED_STATE 28       /* a state that no line can have left */
#define MZ_REFUSED_LINE_LENGTH 20 /* a line over MZ_LINE_MOST */
#define MZ_REFUSED_FIELD_COUNT 21 /* not exactly 14 semicolons */
#define MZ_REFUSED_FIELD_0 22     /* field 0, the code point, is malformed */
#define MZ_REFUSED_FIELD_5 23     /* field 5, the decomposition, is malformed */
#define MZ_REFUSED_FIELD_12 29    /* field 12, the uppercase, is malformed, whatever field 14 has */
#define MZ_REFUSED_FIELD_14 24    /* field 14, the titlecase, is malformed */
#define MZ_REFUSED_SURROGATE 25   /* a mapping for a Hangul syllable, or with a surrogate in field 0 or 5 or as its titlecase */
#define MZ_REFUSED_ORDER 26       /* the code point is not above the last */
#define MZ_REFUSED_NO_ROOM 27     /* no room for the entry or its parts, or a limit of a table passed */

/* Refusals of calls on records; place is 0. Reading has 11, 12 and 13, writing 13 and 8, each in this order. The detail is for
 * 8 the length of the whole record, else 0. */
#define MZ_REFUSED_RECORD_LENGTH 11 /* fewer octets left than four or than the length says, or a length below 2 */
#define MZ_REFUSED_RECORD_KIND 12   /* the kind is unknown, or in a list no text's */
#define MZ_REFUSED_RECORD_BODY 13   /* an item that no record may hold: see RECORDS below */
#define MZ_REFUSED_RECORD_ROOM 8    /* no room for the whole record (the number is also that of MZ_REFUSED_KEY_ROOM) */

/* Refusals of a call on lists, in their order: 1; 11, 12, 13 of the first list's records, one after another, and of the second's,
 * where a record that is no text is refused with 12 whatever its body; 14; 3 to 7 and 15 as above; 8 for the store, 8 for the
 * arrays. The place is which list for 11 to 14, else 0. The detail is for 8 of the store the length of all keys together, for 8 of
 * an array the number of the first list's names, for 3 to 7 as above, else 0. */
#define MZ_REFUSED_NAME_COUNT 14 /* a list has over MZ_NAMES_MOST names */
#define MZ_REFUSED_LIST_ROOM 8   /* the store, or one of the arrays, is too short (the number is also those of the other rooms) */

/* Refusals of a call on many texts, in their order: 1; 14, 36; 2; 3 to 7 and 15 as above; 8 for the store, 8 for key_ends and
 * valid. Of a call on many keys: 14, 36; 37; 8 for row and repeats, 8 for partners. The place is 1 for 14, 36 and 2, else 0. The
 * detail is for 36 and 2 the lowest number, from 0, of a text or key that is at fault; for 37 the number of keys; for 8 of the
 * store the length of all keys together, for 8 of any other slice the elements needed; for 3 to 7 as above; else 0. */
#define MZ_REFUSED_END_COUNT 14   /* over MZ_ENDS_MOST ends (the number is also that of MZ_REFUSED_NAME_COUNT) */
#define MZ_REFUSED_END 36         /* an end is below the one before it, or past the octets */
#define MZ_REFUSED_FIRST_COUNT 37 /* the first list is said to have more names than there are keys */
#define MZ_REFUSED_MANY_ROOM 8    /* a slice to be written is too short (the number is also those of the other rooms) */

/* The number of the interface that the library has: MZ_INTERFACE of the header that it was built with. */
uint32_t mz_interface(void);

/* Whether a table is accepted (answer[0] is 0), or which of the refusals 3 to 7 it has.
 * answer: number, place (always 0), detail. */
void mz_check_table(const uint32_t *entries, size_t entries_length,
                    const uint32_t *pool, size_t pool_length,
                    uint64_t answer[3]);

/* Prepares a text: leaves its key at the start of the key buffer, if it belongs there.
 * answer: number, place, detail; 1 if the text is valid else 0 (always 1 under 1 and 2); the lookup count; the length of the
 * key; where it stands: 0 it is the text, 1 the start of the buffer. Refusals 1 to 7, 15, 8. */
void mz_prepare(uint32_t collation,
                const uint8_t *text, size_t text_length,
                const uint32_t *entries, size_t entries_length,
                const uint32_t *pool, size_t pool_length,
                uint64_t *presence, size_t presence_length,
                uint64_t *ranks, size_t ranks_length,
                uint8_t *key, size_t key_length,
                uint64_t answer[7]);

/* Whether two texts have equal keys. Leaves both keys, each in its own buffer, as mz_prepare does.
 * answer: number, place, detail; 1 match, 2 no-match, 0 refused. Refusals 1 to 7, 15, 8. */
void mz_equal(uint32_t collation,
              const uint8_t *first, size_t first_length,
              const uint8_t *second, size_t second_length,
              const uint32_t *entries, size_t entries_length,
              const uint32_t *pool, size_t pool_length,
              uint64_t *presence, size_t presence_length,
              uint64_t *ranks, size_t ranks_length,
              uint8_t *first_key, size_t first_key_length,
              uint8_t *second_key, size_t second_key_length,
              uint64_t answer[4]);

/* How the keys of two texts are ordered: octet by octet, unsigned; a proper prefix is less. Leaves both keys as mz_equal does.
 * answer: number, place, detail; 1 less, 2 equal, 3 greater, 0 refused. Refusals 1 to 7, 15, 8. */
void mz_order(uint32_t collation,
              const uint8_t *first, size_t first_length,
              const uint8_t *second, size_t second_length,
              const uint32_t *entries, size_t entries_length,
              const uint32_t *pool, size_t pool_length,
              uint64_t *presence, size_t presence_length,
              uint64_t *ranks, size_t ranks_length,
              uint8_t *first_key, size_t first_key_length,
              uint8_t *second_key, size_t second_key_length,
              uint64_t answer[4]);

/* Seeks the first text in the second. Leaves both keys as mz_equal does.
 * answer: number, place, detail; 1 match, 2 no-match, 0 refused; start and end of the lowest occurrence of the first key in the
 * second key; start and end of the smallest run of whole characters of the second text that covers it (of octets, under 1 and 2
 * and where the text is not valid). Ends are one past the last octet; all four are 0 where there is no match, and where the
 * first text is empty (a match). Refusals 1 to 7, 15, 8. */
void mz_substring(uint32_t collation,
                  const uint8_t *first, size_t first_length,
                  const uint8_t *second, size_t second_length,
                  const uint32_t *entries, size_t entries_length,
                  const uint32_t *pool, size_t pool_length,
                  uint64_t *presence, size_t presence_length,
                  uint64_t *ranks, size_t ranks_length,
                  uint8_t *first_key, size_t first_key_length,
                  uint8_t *second_key, size_t second_key_length,
                  uint64_t answer[8]);

/* Adds one line of UnicodeData.txt, without its line end, to a table that is being built. The state is three numbers, all 0 at
 * first: entries used, pool numbers used, and one more than the last code point. The table so far is the first
 * MZ_ENTRY_WIDTH * entries_used numbers of entries and the first pool_used numbers of pool. A line with a mapping appends one
 * entry and its parts; any other line only moves the third number. The titlecase is field 14's, field 12's where 14 is empty,
 * and none where both are.
 * answer: number, place (0), detail (0); the state afterwards: entries used, pool used, next. ON A REFUSAL THE LAST THREE ARE
 * THE STATE THAT CAME IN, not 0. Refusals 28, 20 to 23, 29, 24 to 27. A built table passes checks 3 to 6; mz_check_table
 * decides 7. */
void mz_add_line(uint64_t entries_used, uint64_t pool_used, uint64_t next,
                 const uint8_t *line, size_t line_length,
                 uint32_t *entries, size_t entries_length,
                 uint32_t *pool, size_t pool_length,
                 uint64_t answer[6]);

/* RECORDS. Texts and keys can be kept in files as records, one after another. A record is a length of four octets (of what
 * follows it), a kind of two octets, and a body; numbers have their low octet first. The body of a text (MZ_KIND_TEXT) is the
 * text: at most MZ_TEXT_MOST octets. The body of a key (MZ_KIND_KEY) is the collation (one octet: 1, 2 or 3), 1 if the text
 * was valid under it else 0 (one octet; always 1 under 1 and 2), the text's length (two octets; at most MZ_TEXT_MOST), and the
 * key: as long as the text where the flag is 0 and under 1 and 2, else at most MZ_KEY_PER_OCTET_MOST times as long. What a key
 * says of its text is not compared with any text, nor are the key's octets looked at.
 *
 * A position is the number of octets before it in the slice of records; the first record is at 0. Any position may be given. */

/* Reads the record at a position. The next one is at the end of its octets.
 * answer: number, place (0), detail (0); what is there: 0 the end of the slice (position is records_length), MZ_KIND_TEXT or
 * MZ_KIND_KEY; of a key the collation, the flag and the text's length, else 0, 0, 0; start and end in the slice of the octets of
 * the text or the key, 0 and 0 at the end of the slice. Refusals 11, 12, 13. */
void mz_read_record(const uint8_t *records, size_t records_length, uint64_t position,
                    uint64_t answer[9]);

/* Writes a text as a record at a position; the octets before and after the record stay.
 * answer: number, place (0), detail; the position after the record. Refusals 13, 8. */
void mz_write_text(const uint8_t *text, size_t text_length,
                   uint8_t *records, size_t records_length, uint64_t position,
                   uint64_t answer[4]);

/* Writes a key as a record at a position, as mz_write_text does. The three numbers may be any: those that no record can hold
 * are refused with 13. After mz_prepare they are its collation, answer[3], and the length of the text; the key is the first
 * answer[5] octets of the key buffer where answer[6] is 1, and else the text. */
void mz_write_key(uint32_t collation, uint64_t valid, uint64_t text_length,
                  const uint8_t *key, size_t key_length,
                  uint8_t *records, size_t records_length, uint64_t position,
                  uint64_t answer[4]);

/* LISTS. A list is a slice of records, each of them a text (MZ_KIND_TEXT), from its start to its end: its names, in their order.
 * An empty slice is a list of no names. Names are counted from 1. Two names are equal where their keys are; a partner of a name of
 * the first list is a name of the second that is equal to it. The calls on lists keep some 32 KiB on the caller's stack. */

/* Says which names two lists share. Leaves three things: at the start of store the keys of all names, one after another with
 * nothing between them, the first list's and then the second's, also those that are the text itself; in partners, for each name
 * of the first list in its turn, the lowest number of a name of the second list that is equal to it, 0 if there is none; in
 * positions the numbers of the first list's names in the order of their keys, equal ones in the order of their numbers. All
 * three stay as they were after that. Partners and positions need one element for each name of the first list. A store of
 * MZ_KEY_PER_OCTET_MOST times the octets of all names is always long enough, and the call is then quickest.
 * answer: number, place, detail; names in the first list; names in the second; equal pairs across the lists (equal names within
 * a list count separately); names of the first list that have any partner. Refusals 1, 11 to 14, 3 to 7, 15, 8. */
void mz_find_shared(uint32_t collation,
                    const uint8_t *first, size_t first_length,
                    const uint8_t *second, size_t second_length,
                    const uint32_t *entries, size_t entries_length,
                    const uint32_t *pool, size_t pool_length,
                    uint64_t *presence, size_t presence_length,
                    uint64_t *ranks, size_t ranks_length,
                    uint8_t *store, size_t store_length,
                    uint32_t *partners, size_t partners_length,
                    uint32_t *positions, size_t positions_length,
                    uint64_t answer[7]);

/* MANY. Many texts, or many keys, stand one after another in one slice of octets with nothing between them, and a second slice
 * says where each of them ends: number i, from 0, begins where the one before it ends, the first at 0, and ends before octet
 * ends[i]. (Apache Arrow lays strings out so: pass its offsets from the second on.) Octets after the last end belong to none.
 * Both calls take as many as there are, up to MZ_ENDS_MOST; the one checks the table and fills the pages once, and the other is
 * lent neither: they are the ones for work. */

/* Prepares many texts, each by itself. Leaves three things: at the start of store the keys of all texts, one after another with
 * nothing between them, also those that are the text itself; in key_ends where each of them ends; in valid 1 for each text that
 * is valid else 0 (always 1 under 1 and 2). All three stay as they were after that. key_ends and valid need one element for each
 * text. A store of MZ_KEY_PER_OCTET_MOST times the octets of all texts is always long enough, and the call is then quickest; a
 * shorter one costs a second walk. Called with no store, it says by 8 how long the keys are.
 * answer: number, place, detail; the octets of all keys together. Refusals 1, 14, 36, 2, 3 to 7, 15, 8. */
void mz_prepare_many(uint32_t collation,
                     const uint8_t *octets, size_t octets_length,
                     const size_t *ends, size_t ends_length,
                     const uint32_t *entries, size_t entries_length,
                     const uint32_t *pool, size_t pool_length,
                     uint64_t *presence, size_t presence_length,
                     uint64_t *ranks, size_t ranks_length,
                     uint8_t *store, size_t store_length,
                     size_t *key_ends, size_t key_ends_length,
                     uint8_t *valid, size_t valid_length,
                     uint64_t answer[4]);

/* Says which keys of two lists are equal: the keys of both as mz_prepare_many leaves them, the first list's before the second's
 * (prepare the texts of both in one call), of which the first first_names are the first list's. It takes any number of names up to
 * MZ_ENDS_MOST, and n log n comparisons of keys whatever they are. Leaves three things: in row the numbers of all keys, from 1, in
 * the order of the keys, equal ones in the order of their numbers, so that of equal keys the first list's come before the
 * second's; in repeats, for each place of the row, 1 if the key at the next place is equal to the one there, else 0, so that a 0
 * ends a group of equal names; in partners, for each key of the first list in its turn, the lowest number in the second list,
 * from 1, of a key that is equal to it, 0 if there is none. All three stay as they were after that. Row and repeats need one
 * element for each key, partners one for each of the first list.
 * answer: number, place, detail; equal pairs across the lists; names of the first list that have any partner.
 * Refusals 14, 36, 37, 8. */
void mz_match_keys(const uint8_t *store, size_t store_length,
                   const size_t *ends, size_t ends_length,
                   size_t first_names,
                   uint32_t *row, size_t row_length,
                   uint32_t *repeats, size_t repeats_length,
                   uint32_t *partners, size_t partners_length,
                   uint64_t answer[5]);

#ifdef __cplusplus
}
#endif

#endif
