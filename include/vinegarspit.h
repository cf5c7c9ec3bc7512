/* Checks cards, which are encoded Boolean grammars, and judges logs by them, in memory that the caller lends.
 *
 * A card is a row of 32-bit words, a log a row of events of one byte each. The letter of an event is its value modulo
 * 128: the top bit is the direction of an axle, which no call considers. Names, letters, rules, words, events and
 * places count from 0; name 0 is the start.
 *
 * Each call takes rows of any length, keeps nothing, allocates nothing and always returns. Pointers must not be null,
 * even where the length is 0 and nothing is read; rows must be aligned as their types ask; memory that is written must
 * not overlap anything else that is passed. A refused call changes no lent memory.
 *
 * Link with target/staticlib/libembed.a, which `tools/build_library` makes. What is proved of each call is in
 * docs/PROMISES.md. */
#ifndef VINEGARSPIT_H
#define VINEGARSPIT_H

#include <stddef.h>
#include <stdint.h>

#ifdef __cplusplus
extern "C" {
#endif

/* The limits, and how much memory each call must be lent. TABLE2 is for two events of lookahead, PLAIN and SPAN for the
 * plain judge, COSTLIEST for the search of the costliest log. */
enum {
    VINEGARSPIT_TABLE_WORDS = 864,
    VINEGARSPIT_MEMO_ENTRIES = 13216,
    VINEGARSPIT_CARD_WORDS = 2048,
    VINEGARSPIT_LOG_EVENTS = 412,
    VINEGARSPIT_SPAN_WORDS = 1225,
    VINEGARSPIT_PLAIN_LOG_EVENTS = 48,
    VINEGARSPIT_CLIENTS = 8,
    VINEGARSPIT_TABLE2_WORDS = 1888,
    VINEGARSPIT_TABLE2_LETTERS = 7,
    VINEGARSPIT_COSTLIEST_LOGS = 4096
};

/* A kept log: how many marks it has, how many numbers its state has, and the number of a mark that is not set. */
enum {
    VINEGARSPIT_LOG_MARKS = 8,
    VINEGARSPIT_LOG_STATE = 9
};
#define VINEGARSPIT_NOT_SET UINT16_C(65535)

/* The verdict of an answer. */
enum {
    VINEGARSPIT_REFUSED = 0,
    VINEGARSPIT_PASSED = 1,
    VINEGARSPIT_REJECTED = 2,
    VINEGARSPIT_ACCEPTED = 3
};

/* An entry of the table without a rule; in the memo table a call that failed, and one that was not made. */
#define VINEGARSPIT_NO_RULE UINT32_C(4294967295)
#define VINEGARSPIT_FAILED UINT16_C(65534)
#define VINEGARSPIT_NOT_CALLED UINT16_C(65535)

/* Checks a card. Answers PASSED or REFUSED.
 *
 * PASSED: table[2 * name] is the first set of a name and table[2 * name + 1] its follow set (letter l weighs 2^l,
 * "nothing" 2^24). From 2 * names on follow the rows of the LL(1) table, one for each name: its letters in order, then
 * the end of the log; an entry is the number of a rule or NO_RULE. Later words keep their contents.
 *
 * REFUSED: nothing is changed. The first of these reasons that holds, with its number and its place:
 *    1  table_len is under 864                                    0
 *    3  card_len is over 2,048                                    0
 *    4  no words, no heading, or a heading beyond the limits      0
 *    5  a word that may not stand here, or no end                 the word's index (no end: card_len)
 *    6  a name or letter is not below the heading's number        the word's index
 *    7  a 129th rule                                              the word's index
 *    8  the card is left-recursive                                the lowest name that reaches itself
 *   13  the first set of a name is empty, used or not             the lowest such name
 *    9  two rules claim an entry of the table, or a letter may    name * 32 + column of the first clash, by name,
 *       follow a name that has a rule of must-nots alone          then column; the latter clashes in column 0 */
uint64_t vinegarspit_check(const uint32_t *card, size_t card_len, uint32_t *table, size_t table_len);

/* Judges a log. Answers ACCEPTED or REJECTED, with count and far, or REFUSED.
 *
 * ACCEPTED exactly when the whole log belongs to name 0 by the one meaning of the card; REJECTED exactly when it does
 * not. Count is the number of calls that the descent makes, a call being a name and a place; far is the greatest place
 * of a call. The table is as after a check. memo[name * (log_len + 1) + place] is where that call ended, FAILED or
 * NOT_CALLED; later entries keep their contents.
 *
 * REFUSED as by a check; also with 2, right after 1, and with 10 and 11, after all others:
 *    2  memo_len is under 13,216                                  0
 *   10  log_len is over 412                                       0
 *   11  the letter of an event is no letter of the card           the first such index
 *
 * The deepest cards nest 13,216 calls, which take 2,000 KiB of stack. */
uint64_t vinegarspit_judge(const uint32_t *card, size_t card_len, const uint8_t *log, size_t log_len,
                           uint32_t *table, size_t table_len, uint16_t *memo, size_t memo_len);

/* Judges a log as vinegarspit_judge does, for one of eight clients, and counts the answer in a record that the caller
 * passes from call to call. Each client may use a share of called pairs, and all together may use a limit; a client is
 * refused only when both are used up. The counters of client c are usage[4 * c] to usage[4 * c + 3]: calls, refusals,
 * acceptances, and called pairs, which are the counts of its answers added up. Each stops at 4,294,967,295. A record
 * of zeros is empty.
 *
 * REFUSED, before anything that judging refuses, with table and memo unchanged:
 *   15  client is over 7; counted in no counter                   0
 *   16  the client's own called pairs are at least share, and     0
 *       those of all clients together at least limit, before
 *       this call
 * So 16 never refuses a client under its share, and a call that crosses the share is finished. Share and limit may be
 * any numbers.
 *
 * Otherwise answer, table and memo are those of vinegarspit_judge. The record is not lent memory: a refusal counts as a
 * call and as a refusal of this client, even with 16. From the empty record each counter is the exact sum over the
 * answers to its client, cut at 4,294,967,295; any other record is taken as it is. Whether a call is refused does not
 * depend on whether counters have stopped. */
uint64_t vinegarspit_judge_for(uint32_t client, uint32_t share, uint32_t limit,
                               const uint32_t *card, size_t card_len, const uint8_t *log, size_t log_len,
                               uint32_t *table, size_t table_len, uint16_t *memo, size_t memo_len, uint32_t usage[32]);

/* Adds up the counters of all clients, in the same order. No sum can pass 64 bits. */
void vinegarspit_usage_totals(const uint32_t usage[32], uint64_t totals[4]);

/* Judges a log plainly: without a table or a memo table, it finds for every stretch of the log, from short to long, the
 * names to which the stretch belongs. It takes every card that a check passes or refuses with 9, and logs of at most 48
 * events. Answers ACCEPTED or REJECTED, with count and far 0, or REFUSED.
 *
 * ACCEPTED exactly when the whole log belongs to name 0 by the one meaning of the card; REJECTED exactly when it does
 * not. Where a check passes the card, vinegarspit_judge has the same verdict. The stretch from place i to place j has
 * the word spans[i * (log_len + 1) - i * (i - 1) / 2 + j - i], in which name n weighs 2^n. Later words keep their
 * contents.
 *
 * REFUSED: nothing is changed. The first of these reasons that holds:
 *   12  spans_len is under 1,225                                  0
 *       3 to 8 and 13, as by a check
 *       10, where log_len is over 48
 *       11, as by judging
 *
 * Nothing nests: 64 KiB of stack is enough. */
uint64_t vinegarspit_judge_plain(const uint32_t *card, size_t card_len, const uint8_t *log, size_t log_len,
                                 uint32_t *spans, size_t spans_len);

/* Judges a log as vinegarspit_judge does, and writes the parse tree of an accepted log to tree[0] and the words behind.
 *
 * A vertex is one word: 8 in bits 28 to 31, the rule in bits 0 to 6, the start of its stretch in bits 7 to 15, the end
 * in bits 16 to 24, and 0 in the others. The root comes first. Below a vertex come, depth first and in order, the names
 * that the musts of its rule read; a vertex that is met again is not written again. Must-nots have no vertices; a rule
 * of must-nots alone has the events of its stretch below it. *written is the number of words; later words keep their
 * contents. A rejected log writes none.
 *
 * Answer, table and memo are those of vinegarspit_judge. REFUSED as by it, and also, right after 2, with 14; *written is
 * then 0, and nothing else is changed.
 *   14  tree_len is under 13,216                                  0
 *
 * The deepest trees nest 13,216 vertices, within the stack that judging takes. */
uint64_t vinegarspit_tree(const uint32_t *card, size_t card_len, const uint8_t *log, size_t log_len,
                          uint32_t *table, size_t table_len, uint16_t *memo, size_t memo_len,
                          uint32_t *tree, size_t tree_len, uint32_t *written);

/* Checks a card as vinegarspit_check does, with two events of lookahead, and so passes cards for which one event is too
 * few. It takes at most 7 letters, and no rule of must-nots alone. Answers PASSED or REFUSED.
 *
 * PASSED: the table has 64-bit words. table2[2 * name] is the first set of a name and table2[2 * name + 1] its follow
 * set. From 2 * names on follow the rows, of 57 columns each, however few letters there are: column 0 is the end of the
 * log, column 1 + l the letter l as the last event, column 8 + 7 * l + r the letter l and then r. A set weighs 2^column
 * for each of its members; an entry is the number of a rule or NO_RULE. Later words keep their contents.
 *
 * REFUSED: nothing is changed. The first of these reasons that holds, with its number and its place:
 *   17  table2_len is under 1,888                                 0
 *       3 and 4, as by a check
 *   18  the card has over 7 letters                               0
 *       5 to 7, as by a check; 5 also for a rule of must-nots     the index of its first must-not's word
 *       alone
 *       8, as by a check
 *       13, as by a check, by the first sets of two events
 *       9, where two rules claim an entry of this table           name * 64 + column of the first, by name, then column
 *
 * A card that passes a check is never refused with 9 here. */
uint64_t vinegarspit_check2(const uint32_t *card, size_t card_len, uint64_t *table2, size_t table2_len);

/* Judges a log as vinegarspit_judge does, with two events of lookahead: ACCEPTED exactly when the whole log belongs to
 * name 0 by the one meaning of the card. Where vinegarspit_judge gives a verdict too, it is the same. The table is as
 * after vinegarspit_check2; count, far and memo are those of this descent, as in judging.
 *
 * REFUSED as by vinegarspit_check2; also with 2, right after 17, and with 10 and 11, after all others, as by judging.
 * Its stack is that of judging. */
uint64_t vinegarspit_judge2(const uint32_t *card, size_t card_len, const uint8_t *log, size_t log_len,
                            uint64_t *table2, size_t table2_len, uint16_t *memo, size_t memo_len);

/* A kept log grows event by event and has marks to return to. It stands in two arrays of the caller: events has its
 * events as they came, state[0] its length, and state[1 + m] the length that mark m notes, or NOT_SET. The empty log
 * without marks has 0 in state[0] and NOT_SET in the others; its events may be anything. Begin with it. A state of
 * zeros alone is an empty log too, but all its marks are set, at 0.
 *
 * Any values may be passed: a length over 412 reads as 412, and a mark beyond the length reads as not set. A step that
 * passes stores the state as it was read and changed. Events behind the log keep their contents.
 *
 * log_add adds an event. log_mark lets a mark note the length of the log, whether it was set before or not. log_return
 * cuts the log where a mark was set; marks beyond are cleared, marks at that length stay, and a cleared mark stays
 * cleared until it is set again. Each answers PASSED or REFUSED.
 *
 * REFUSED: nothing is changed. The first of these reasons that holds in its own call:
 *   21  log_add: the log is full, with 412 events                 0
 *   19  log_mark and log_return: mark is over 7                   0
 *   20  log_return: the mark is not set                           0 */
uint64_t vinegarspit_log_add(uint8_t events[VINEGARSPIT_LOG_EVENTS], uint16_t state[VINEGARSPIT_LOG_STATE],
                             uint8_t event);
uint64_t vinegarspit_log_mark(uint16_t state[VINEGARSPIT_LOG_STATE], uint32_t mark);
uint64_t vinegarspit_log_return(uint16_t state[VINEGARSPIT_LOG_STATE], uint32_t mark);

/* Judges a kept log: answer, table and memo are those of vinegarspit_judge for its events. It is never refused with 10. */
uint64_t vinegarspit_log_judge(const uint32_t *card, size_t card_len, const uint8_t events[VINEGARSPIT_LOG_EVENTS],
                               const uint16_t state[VINEGARSPIT_LOG_STATE],
                               uint32_t *table, size_t table_len, uint16_t *memo, size_t memo_len);

/* Judges a kept log with two events of lookahead: answer, table2 and memo are those of vinegarspit_judge2 for its
 * events. It is never refused with 10. */
uint64_t vinegarspit_log_judge2(const uint32_t *card, size_t card_len, const uint8_t events[VINEGARSPIT_LOG_EVENTS],
                                const uint16_t state[VINEGARSPIT_LOG_STATE],
                                uint64_t *table2, size_t table2_len, uint16_t *memo, size_t memo_len);

/* Finds the costliest log of a length: of all logs of so many events the one with the greatest count; of several, the
 * first in the order of their letters, in which the first event weighs most. Writes it to log[0] and the bytes behind,
 * and judges it.
 *
 * Its events have no direction; later bytes keep their contents. Answer, table and memo are those of vinegarspit_judge
 * for that log. No log of that length has a greater count, and each log before it has a smaller one. Length 0 gives
 * the empty log.
 *
 * REFUSED: nothing is changed. As by a check; also with 2, right after 1, then 23, and after all others with 10 and 22:
 *   23  log_len is under 412                                      0
 *       10, where length is over 412
 *   22  the letters to the power of length are over 4,096:        0
 *       there are more logs than that
 *
 * The card is checked once, and each log is judged. Its stack is that of judging. */
uint64_t vinegarspit_costliest(const uint32_t *card, size_t card_len, size_t length, uint8_t *log, size_t log_len,
                               uint32_t *table, size_t table_len, uint16_t *memo, size_t memo_len);

/* The parts of an answer. */
static inline unsigned vinegarspit_verdict(uint64_t answer) { return (unsigned)(answer & 255); }
static inline unsigned vinegarspit_number(uint64_t answer) { return (unsigned)(answer >> 8 & 255); }
static inline unsigned vinegarspit_place(uint64_t answer) { return (unsigned)(answer >> 16 & 65535); }
static inline unsigned vinegarspit_count(uint64_t answer) { return (unsigned)(answer >> 32 & 65535); }
static inline unsigned vinegarspit_far(uint64_t answer) { return (unsigned)(answer >> 48); }

#ifdef __cplusplus
}
#endif

#endif
