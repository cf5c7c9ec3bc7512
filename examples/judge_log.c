/* Judges a log by a card: judge_log CARD_FILE LOG_FILE. Prints the verdict with count and far, or the refusal with number and place. */
#include <stdio.h>
#include <stdlib.h>
#include "vinegarspit.h"

/* One more than the longest of each, so that a longer file is seen. */
static uint32_t card[VINEGARSPIT_CARD_WORDS + 1];
static uint8_t log_events[VINEGARSPIT_LOG_EVENTS + 1];
static uint32_t table[VINEGARSPIT_TABLE_WORDS];
static uint16_t memo[VINEGARSPIT_MEMO_ENTRIES];

static FILE *opened(const char *path)
{
    FILE *file = fopen(path, "rb");
    if (!file) {
        perror(path);
        exit(2);
    }
    return file;
}

/* The words of a file, low byte first. */
static size_t read_card(const char *path)
{
    FILE *file = opened(path);
    unsigned char bytes[4];
    size_t words = 0, n = 0;
    while (words <= VINEGARSPIT_CARD_WORDS && (n = fread(bytes, 1, 4, file)) == 4)
        card[words++] = bytes[0] | (uint32_t)bytes[1] << 8 | (uint32_t)bytes[2] << 16 | (uint32_t)bytes[3] << 24;
    fclose(file);
    if (words <= VINEGARSPIT_CARD_WORDS && n != 0) {
        fprintf(stderr, "%s: not a row of words of four bytes\n", path);
        exit(2);
    }
    return words;
}

int main(int argc, char **argv)
{
    static const char *const told[] = {"refused", "passed", "rejected", "accepted"};
    if (argc != 3) {
        fprintf(stderr, "usage: judge_log CARD_FILE LOG_FILE\n");
        return 2;
    }
    size_t words = read_card(argv[1]);
    FILE *file = opened(argv[2]);
    size_t events = fread(log_events, 1, sizeof log_events, file);
    fclose(file);

    uint64_t answer = vinegarspit_judge(card, words, log_events, events, table, VINEGARSPIT_TABLE_WORDS, memo, VINEGARSPIT_MEMO_ENTRIES);
    unsigned verdict = vinegarspit_verdict(answer);
    if (verdict == VINEGARSPIT_REFUSED)
        printf("refused %u %u\n", vinegarspit_number(answer), vinegarspit_place(answer));
    else
        printf("%s %u %u\n", told[verdict], vinegarspit_count(answer), vinegarspit_far(answer));
    return verdict == VINEGARSPIT_ACCEPTED ? 0 : 1;
}
