/*
 * The words of include/st9_text.c.
 *
 *     text         compares them with those written here by hand, in buffers of every size, and says how many they are
 *     text names   prints the names of each number as a kind, a refusal and a source, a line each
 *     text lines   reads answers, six decimal numbers a line in the order of st9_answer, and prints the text of each
 */
#include "st9.h"

#include <inttypes.h>
#include <stdio.h>
#include <stdlib.h>
#include <string.h>

#define MOST UINT64_MAX
#define MOST_TEXT "18446744073709551615"

struct row {
    uint64_t kind, refusal, steps, first, second, third;
    const char *text;
};

static const struct row steps[] = {
    {ST9_BYTE, 0, 0, 0x14, 0, 0, "byte 14h"},
    {ST9_BYTE, 0, 0, 0x00, 0, 0, "byte 00h"},
    {ST9_BYTE, 0, 0, 0x9A, 0, 0, "byte 9Ah"},
    {ST9_BYTE, 0, 0, 0xBC, 0, 0, "byte BCh"},
    {ST9_BYTE, 0, 0, 0xDE, 0, 0, "byte DEh"},
    {ST9_BYTE, 0, 0, 0x57, 0, 0, "byte 57h"},
    {ST9_BYTE, 0, 0, 0x63, 0, 0, "byte 63h"},
    {ST9_BYTE, 0, 0, 0x82, 0, 0, "byte 82h"},
    {ST9_BYTE, 0, 0, 0xFF, 0, 0, "byte FFh"},
    {ST9_WRITTEN, 0, 0, 0, 0, 0, "written, nothing erased from EIPR"},
    {ST9_WRITTEN, 0, 0, 0x14, 0, 0, "erased 14h: INTB0, INTC0"},
    {ST9_WRITTEN, 0, 0, 0x01, 0, 0, "erased 01h: INTA0"},
    {ST9_WRITTEN, 0, 0, 0x02, 0, 0, "erased 02h: INTA1"},
    {ST9_WRITTEN, 0, 0, 0x04, 0, 0, "erased 04h: INTB0"},
    {ST9_WRITTEN, 0, 0, 0x08, 0, 0, "erased 08h: INTB1"},
    {ST9_WRITTEN, 0, 0, 0x10, 0, 0, "erased 10h: INTC0"},
    {ST9_WRITTEN, 0, 0, 0x20, 0, 0, "erased 20h: INTC1"},
    {ST9_WRITTEN, 0, 0, 0x40, 0, 0, "erased 40h: INTD0"},
    {ST9_WRITTEN, 0, 0, 0x80, 0, 0, "erased 80h: INTD1"},
    {ST9_WRITTEN, 0, 0, 0xFF, 0, 0, "erased FFh: INTA0, INTA1, INTB0, INTB1, INTC0, INTC1, INTD0, INTD1"},
    {ST9_TRIGGERED, 0, 0, 0, 0, 0, "not selected"},
    {ST9_TRIGGERED, 0, 0, 1, 0, 0, "raised"},
    {ST9_TRIGGERED, 0, 0, 2, 0, 0, "merged"},
    {ST9_TRIGGERED, 0, 0, 0, 1, 0, "raised TLIP"},
    {ST9_TRIGGERED, 0, 0, 0, 2, 0, "merged TLIP"},
    {ST9_TRIGGERED, 0, 0, 1, 1, 0, "raised; raised TLIP"},
    {ST9_TRIGGERED, 0, 0, 1, 2, 0, "raised; merged TLIP"},
    {ST9_TRIGGERED, 0, 0, 2, 1, 0, "merged; raised TLIP"},
    {ST9_TRIGGERED, 0, 0, 2, 2, 0, "merged; merged TLIP"},
    {ST9_NOTHING, 0, 0, 0, 0, 0, "none"},
    {ST9_TOP_LEVEL, 0, 0, 0, 0, 0x04, "acknowledged the top level, vector 04h"},
    {ST9_RETURNED, 0, 0, 0, 0, 0, "returned"},
    {ST9_RESET, 0, 0, 0, 0, 0, "reset"}
};

static const struct row sources[] = {
    {ST9_INTERRUPT, 0, 0, ST9_INTA0, 0, 0x40, "acknowledged INTA0, level 0, vector 40h"},
    {ST9_INTERRUPT, 0, 0, ST9_INTA1, 1, 0x42, "acknowledged INTA1, level 1, vector 42h"},
    {ST9_INTERRUPT, 0, 0, ST9_INTB0, 2, 0x44, "acknowledged INTB0, level 2, vector 44h"},
    {ST9_INTERRUPT, 0, 0, ST9_INTB1, 3, 0x46, "acknowledged INTB1, level 3, vector 46h"},
    {ST9_INTERRUPT, 0, 0, ST9_INTC0, 4, 0x48, "acknowledged INTC0, level 4, vector 48h"},
    {ST9_INTERRUPT, 0, 0, ST9_INTC1, 5, 0x4A, "acknowledged INTC1, level 5, vector 4Ah"},
    {ST9_INTERRUPT, 0, 0, ST9_INTD0, 6, 0x4C, "acknowledged INTD0, level 6, vector 4Ch"},
    {ST9_INTERRUPT, 0, 0, ST9_INTD1, 0, 0x4E, "acknowledged INTD1, level 0, vector 4Eh"},
    {ST9_INTERRUPT, 0, 0, ST9_FIRST_CHANNEL, 1, 0x00, "acknowledged channel 0, level 1, vector 00h"},
    {ST9_INTERRUPT, 0, 0, 9, 2, 0xFF, "acknowledged channel 1, level 2, vector FFh"},
    {ST9_INTERRUPT, 0, 0, 10, 3, 0x35, "acknowledged channel 2, level 3, vector 35h"},
    {ST9_INTERRUPT, 0, 0, 11, 4, 0x35, "acknowledged channel 3, level 4, vector 35h"},
    {ST9_INTERRUPT, 0, 0, 12, 5, 0x35, "acknowledged channel 4, level 5, vector 35h"},
    {ST9_INTERRUPT, 0, 0, 13, 6, 0x35, "acknowledged channel 5, level 6, vector 35h"},
    {ST9_INTERRUPT, 0, 0, 14, 0, 0x35, "acknowledged channel 6, level 0, vector 35h"},
    {ST9_INTERRUPT, 0, 0, 15, 0, 0x35, "acknowledged channel 7, level 0, vector 35h"},
    {ST9_INTERRUPT, 0, 0, 16, 0, 0x35, "acknowledged channel 8, level 0, vector 35h"},
    {ST9_INTERRUPT, 0, 0, 17, 0, 0x35, "acknowledged channel 9, level 0, vector 35h"},
    {ST9_INTERRUPT, 0, 0, 18, 0, 0x35, "acknowledged channel 10, level 0, vector 35h"},
    {ST9_INTERRUPT, 0, 0, 19, 0, 0x35, "acknowledged channel 11, level 0, vector 35h"},
    {ST9_TRANSFERRED, 0, 0, ST9_FIRST_CHANNEL, 0, 0, "DMA of channel 0: one byte moved"},
    {ST9_TRANSFERRED, 0, 0, ST9_FIRST_CHANNEL, 1, 0, "DMA of channel 0: one byte moved, block ended"},
    {ST9_TRANSFERRED, 0, 0, 19, 0, 0, "DMA of channel 11: one byte moved"},
    {ST9_TRANSFERRED, 0, 0, 19, 1, 0, "DMA of channel 11: one byte moved, block ended"}
};

static const struct row runs[] = {
    {ST9_NO_STEP, 0, 0, 0, 0, 0, "done: 0 steps, last answer: none (the list is empty)"},
    {ST9_BYTE, 0, 1, 0x14, 0, 0, "done: 1 step, last answer: byte 14h"},
    {ST9_WRITTEN, 0, 2, 0, 0, 0, "done: 2 steps, last answer: written, nothing erased from EIPR"},
    {ST9_WRITTEN, 0, 3, 0x14, 0, 0, "done: 3 steps, last answer: erased 14h: INTB0, INTC0"},
    {ST9_TRIGGERED, 0, 4, 1, 0, 0, "done: 4 steps, last answer: raised"},
    {ST9_NOTHING, 0, 9, 0, 0, 0, "done: 9 steps, last answer: none"},
    {ST9_TOP_LEVEL, 0, 10, 0, 0, 4, "done: 10 steps, last answer: acknowledged the top level, vector 04h"},
    {ST9_INTERRUPT, 0, 3, 2, 2, 0x44, "done: 3 steps, last answer: acknowledged INTB0, level 2, vector 44h"},
    {ST9_TRANSFERRED, 0, 101, 8, 1, 0, "done: 101 steps, last answer: DMA of channel 0: one byte moved, block ended"},
    {ST9_RETURNED, 0, 1, 0, 0, 0, "done: 1 step, last answer: returned"},
    {ST9_RESET, 0, MOST, 0, 0, 0, "done: " MOST_TEXT " steps, last answer: reset"}
};

static const struct row refusals[] = {
    {ST9_REFUSED, 1, 0, 0, 0, 0, "refused with 1 (image length is not 1,265)"},
    {ST9_REFUSED, 2, 0, 0, 0, 0, "refused with 2 (channel list breaks a rule)"},
    {ST9_REFUSED, 3, 0, 0, 0, 0,
     "refused with 3 (register read or written not modelled or over 255; viewed page over 63)"},
    {ST9_REFUSED, 4, 0, 0, 0, 0,
     "refused with 4 (pin over 7, direction over 1, record or source number that isn't there)"},
    {ST9_REFUSED, 5, 0, 0, 0, 0, "refused with 5 (the DMA winner has a memory address not below the memory's length)"},
    {ST9_REFUSED, 6, 0, 0, 0, 0, "refused with 6 (the DMA winner has n or a over 223, or a pointer over 222 (memory))"},
    {ST9_REFUSED, 7, 0, 0, 0, 0, "refused with 7 (step or trigger kind unknown)"},
    {ST9_REFUSED, 8, 0, 0, 0, 0, "refused with 8 (the memory is over 65,536 bytes)"},
    {ST9_REFUSED_CALL, 1, 0, 0, 0, 0, "refused with 1 (image length is not 1,265), before any step"},
    {ST9_REFUSED_CALL, 2, 0, 0, 0, 0, "refused with 2 (channel list breaks a rule), before any step"},
    {ST9_REFUSED_CALL, 8, 0, 0, 0, 0, "refused with 8 (the memory is over 65,536 bytes), before any step"},
    {ST9_REFUSED_CALL, 4, 0, 0, 0, 0,
     "refused with 4 (pin over 7, direction over 1, record or source number that isn't there), before any step"},
    {ST9_REFUSED_STEP, 3, 2, 0, 0, 0,
     "refused with 3 at step 2 (register read or written not modelled or over 255; viewed page over 63)"},
    {ST9_REFUSED_STEP, 7, 0, 0, 0, 0, "refused with 7 at step 0 (step or trigger kind unknown)"},
    {ST9_REFUSED_STEP, 6, 2, 1, 0, 0,
     "refused with 6 at step 2, after 1 arbitration"
     " (the DMA winner has n or a over 223, or a pointer over 222 (memory))"},
    {ST9_REFUSED_STEP, 5, 20, 10, 0, 0,
     "refused with 5 at step 20, after 10 arbitrations"
     " (the DMA winner has a memory address not below the memory's length)"},
    {ST9_REFUSED_STEP, 4, MOST, MOST, 0, 0,
     "refused with 4 at step " MOST_TEXT ", after " MOST_TEXT " arbitrations"
     " (pin over 7, direction over 1, record or source number that isn't there)"}
};

static const struct row waits_and_bounds[] = {
    {ST9_ENDED, 0, 0, 0, 0, 0, "not acknowledged, the list ended after 0 arbitrations"},
    {ST9_ENDED, 0, 0, 1, 0, 0, "not acknowledged, the list ended after 1 arbitration"},
    {ST9_ENDED, 0, 0, 2, 0, 0, "not acknowledged, the list ended after 2 arbitrations"},
    {ST9_ACKNOWLEDGED, 0, 0, 1, 0, 0, "acknowledged by arbitration 1"},
    {ST9_ACKNOWLEDGED, 0, 0, 3, 0, 0, "acknowledged by arbitration 3"},
    {ST9_NESTED, 0, 0, 0, 0, 0, "none: nested mode (IAM = 1)"},
    {ST9_DMA_ENABLED, 0, 0, 0, 0, 0, "none: a channel has DMA enabled (DM = 1)"},
    {ST9_TOP_LEVEL_ENABLED, 0, 0, 0, 0, 0, "none: top level enabled (TLNM or TLI is 1)"},
    {ST9_TOP_LEVEL_IN_SERVICE, 0, 0, 0, 0, 0, "none: top level in service (the mark is set)"},
    {ST9_NOT_PENDING, 0, 0, 0, 0, 0, "none: the source is not pending"},
    {ST9_MASKED, 0, 0, 0, 0, 0, "none: the source is masked"},
    {ST9_LEVEL_NOT_ABOVE, 0, 0, 0, 0, 0, "none: the source's level is not above the current one"},
    {ST9_OTHER_STEP, 0, 2, 0, 0, 0, "none: a step that is no trigger, arbitration or return at step 2"},
    {ST9_OTHER_STEP, 0, 0, 0, 0, 0, "none: a step that is no trigger, arbitration or return at step 0"},
    {ST9_INTERRUPTS_DISABLED, 0, 5, 0, 0, 0, "none: an arbitration with interrupts disabled (IEN = 0) at step 5"},
    {ST9_WITHIN, 0, 0, 1, 1, 3, "by arbitration 3 at the latest, H 1, E 1"},
    {ST9_WITHIN, 0, 0, 19, 40, 60, "by arbitration 60 at the latest, H 19, E 40"},
    {ST9_WITHIN, 0, 0, MOST, MOST, MOST, "by arbitration " MOST_TEXT " at the latest, H " MOST_TEXT ", E " MOST_TEXT},
    {ST9_CHANGED, 0, 4, ST9_CHANGED_PENDING, 0, 0, "none: the write at step 4 erases the source's pending bit"},
    {ST9_CHANGED, 0, 4, ST9_CHANGED_MODE, 0, 0, "none: the write at step 4 changes the mode (IAM)"},
    {ST9_CHANGED, 0, 0, ST9_CHANGED_CURRENT_LEVEL, 0, 0, "none: the write at step 0 changes the current level (CPL)"},
    {ST9_CHANGED, 0, 1, ST9_CHANGED_TOP_LEVEL, 0, 0,
     "none: the write at step 1 changes the top level's enables (TLI or TLNM)"},
    {ST9_CHANGED, 0, 2, ST9_CHANGED_MASK, 0, 0, "none: the write at step 2 changes a source's mask"},
    {ST9_CHANGED, 0, 3, ST9_CHANGED_DMA_ENABLE, 0, 0, "none: the write at step 3 changes a channel's DMA enable (DM)"},
    {ST9_CHANGED, 0, 4, ST9_CHANGED_LEVEL, 0, 0, "none: the write at step 4 changes a source's level"}
};

/* Answers that no function of the library gives. */
static const struct row others[] = {
    {26, 0, 0, 0, 0, 0, "kind 26, which st9.h does not have"},
    {99, 1, 2, 3, 4, 5, "kind 99, which st9.h does not have"},
    {UINT64_C(1) << 32, 0, 0, 0, 0, 0, "kind 4294967296, which st9.h does not have"},
    {MOST, MOST, MOST, MOST, MOST, MOST, "kind " MOST_TEXT ", which st9.h does not have"},
    {ST9_BYTE, 0, 0, 0x100, 0, 0, "byte 256, which st9.h does not have"},
    {ST9_BYTE, 0, 2, MOST, 0, 0, "done: 2 steps, last answer: byte " MOST_TEXT ", which st9.h does not have"},
    {ST9_WRITTEN, 0, 0, 0x100, 0, 0, "lost 256, which st9.h does not have"},
    {ST9_WRITTEN, 0, 0, MOST, 0, 0, "lost " MOST_TEXT ", which st9.h does not have"},
    {ST9_TRIGGERED, 0, 0, 3, 0, 0, "maskable 3, which st9.h does not have"},
    {ST9_TRIGGERED, 0, 0, 0, 3, 0, "tlip 3, which st9.h does not have"},
    {ST9_TRIGGERED, 0, 0, MOST, MOST, 0, "maskable " MOST_TEXT ", which st9.h does not have"},
    {ST9_TRIGGERED, 0, 0, 2, MOST, 0, "tlip " MOST_TEXT ", which st9.h does not have"},
    {ST9_TOP_LEVEL, 0, 0, 0, 0, 0x100, "vector 256, which st9.h does not have"},
    {ST9_TOP_LEVEL, 0, 0, 0, 0, MOST, "vector " MOST_TEXT ", which st9.h does not have"},
    {ST9_INTERRUPT, 0, 0, 20, 0, 0, "source 20, which st9.h does not have"},
    {ST9_INTERRUPT, 0, 0, MOST, 0, 0, "source " MOST_TEXT ", which st9.h does not have"},
    {ST9_INTERRUPT, 0, 0, 2, 7, 0, "level 7, which st9.h does not have"},
    {ST9_INTERRUPT, 0, 0, 2, MOST, 0, "level " MOST_TEXT ", which st9.h does not have"},
    {ST9_INTERRUPT, 0, 0, 2, 2, 0x100, "vector 256, which st9.h does not have"},
    {ST9_INTERRUPT, 0, 1, 2, 2, MOST, "done: 1 step, last answer: vector " MOST_TEXT ", which st9.h does not have"},
    {ST9_TRANSFERRED, 0, 0, 20, 0, 0, "source 20, which st9.h does not have"},
    {ST9_TRANSFERRED, 0, 0, MOST, 0, 0, "source " MOST_TEXT ", which st9.h does not have"},
    {ST9_TRANSFERRED, 0, 0, 8, 2, 0, "ended 2, which st9.h does not have"},
    {ST9_TRANSFERRED, 0, 0, 8, MOST, 0, "ended " MOST_TEXT ", which st9.h does not have"},
    {ST9_REFUSED, 0, 0, 0, 0, 0, "refused with 0, which st9.h does not have"},
    {ST9_REFUSED, 9, 0, 0, 0, 0, "refused with 9, which st9.h does not have"},
    {ST9_REFUSED_CALL, MOST, 0, 0, 0, 0, "refused with " MOST_TEXT ", which st9.h does not have"},
    {ST9_REFUSED_STEP, 0, 3, 3, 0, 0, "refused with 0, which st9.h does not have"},
    {ST9_CHANGED, 0, 4, 0, 0, 0, "changed 0, which st9.h does not have"},
    {ST9_CHANGED, 0, 4, 8, 0, 0, "changed 8, which st9.h does not have"},
    {ST9_CHANGED, 0, 4, MOST, 0, 0, "changed " MOST_TEXT ", which st9.h does not have"}
};

#define COUNT(table) (sizeof(table) / sizeof *(table))

static void must(int holds, const char *what, const char *text, size_t size)
{
    if (holds)
        return;
    fprintf(stderr, "%s (`%s`, size %zu)\n", what, text, size);
    exit(1);
}

static st9_answer answer_of(uint64_t kind, uint64_t refusal, uint64_t done,
                            uint64_t first, uint64_t second, uint64_t third)
{
    st9_answer answer;
    answer.kind = kind;
    answer.refusal = refusal;
    answer.steps = done;
    answer.first = first;
    answer.second = second;
    answer.third = third;
    return answer;
}

/* The buffer has exactly `size` bytes on the heap, so that the sanitizer sees one byte too many. */
static void try_size(st9_answer answer, const char *text, size_t size)
{
    const size_t length = strlen(text);
    const size_t kept = length < size ? length : size - 1;
    char *buffer = (char *)malloc(size);
    must(buffer != NULL, "no memory", text, size);
    memset(buffer, '#', size);
    must(st9_answer_text(answer, buffer, size) == length, "another length", text, size);
    must(buffer[kept] == '\0', "no end, or not there", text, size);
    must(memcmp(buffer, text, kept) == 0, "other words", text, size);
    for (size_t after = kept + 1; after < size; after++)
        must(buffer[after] == '#', "written after the end", text, size);
    free(buffer);
}

static void compare(const struct row *rows, size_t count)
{
    for (const struct row *row = rows; row < rows + count; row++) {
        const st9_answer answer = answer_of(row->kind, row->refusal, row->steps, row->first, row->second, row->third);
        char untouched = '#';
        must(st9_answer_text(answer, NULL, 0) == strlen(row->text), "another length", row->text, 0);
        must(st9_answer_text(answer, &untouched, 0) == strlen(row->text), "another length", row->text, 0);
        must(untouched == '#', "written without room", row->text, 0);
        for (size_t size = 1; size <= strlen(row->text) + 3; size++)
            try_size(answer, row->text, size);
        try_size(answer, row->text, ST9_TEXT_SIZE);
        must(strlen(row->text) < ST9_TEXT_SIZE, "ST9_TEXT_SIZE is too small", row->text, ST9_TEXT_SIZE);
    }
}

/* An entry of the table, by the last digit of `rest`, which is taken away. */
static uint64_t next(size_t *rest, const uint64_t *table, size_t count)
{
    const uint64_t number = table[*rest % count];
    *rest /= count;
    return number;
}

/* Numbers that fields have and numbers that they do not have, each with each: ST9_TEXT_SIZE holds the text. */
static size_t longest_of_any_numbers(void)
{
    static const uint64_t wholes[] = {0, 1, MOST}, some_refusals[] = {0, 3, 4, 5, 6, 8, 9, MOST};
    static const uint64_t firsts[] = {0, 1, 7, 8, 19, 20, 255, 256, MOST}, seconds[] = {0, 1, 2, 3, 6, 7, MOST};
    static const uint64_t thirds[] = {0, 255, 256, MOST};
    size_t longest = 0;
    for (size_t kind = 0; kind < 28; kind++) {
        for (size_t rest = 0, n = 0; rest == 0; n++) {
            rest = n;
            const uint64_t refusal = next(&rest, some_refusals, COUNT(some_refusals));
            const uint64_t whole = next(&rest, wholes, COUNT(wholes)), first = next(&rest, firsts, COUNT(firsts));
            const uint64_t second = next(&rest, seconds, COUNT(seconds)), third = next(&rest, thirds, COUNT(thirds));
            char text[ST9_TEXT_SIZE];
            const st9_answer answer = answer_of(kind < 27 ? kind : MOST, refusal, whole, first, second, third);
            const size_t length = st9_answer_text(answer, text, sizeof text);
            must(length < sizeof text && length == strlen(text), "ST9_TEXT_SIZE is too small", text, sizeof text);
            longest = length > longest ? length : longest;
        }
    }
    return longest;
}

static void texts(void)
{
    compare(steps, COUNT(steps));
    compare(sources, COUNT(sources));
    compare(runs, COUNT(runs));
    compare(refusals, COUNT(refusals));
    compare(waits_and_bounds, COUNT(waits_and_bounds));
    compare(others, COUNT(others));
    const size_t given = COUNT(steps) + COUNT(sources) + COUNT(runs) + COUNT(refusals) + COUNT(waits_and_bounds);
    printf("%zu texts, the longest of any numbers %zu long\n", given + COUNT(others), longest_of_any_numbers());
}

static void name(uint64_t number)
{
    printf("kind %" PRIu64 ": %s\n", number, st9_kind_name(number));
    printf("refusal %" PRIu64 ": %s\n", number, st9_refusal_name(number));
    printf("source %" PRIu64 ": %s\n", number, st9_source_name(number));
}

static void names(void)
{
    for (uint64_t number = 0; number < 300; number++)
        name(number);
    name(UINT64_C(1) << 32);
    name(MOST);
}

static void lines(void)
{
    st9_answer a;
    char text[ST9_TEXT_SIZE];
    while (scanf("%" SCNu64 "%" SCNu64 "%" SCNu64, &a.kind, &a.refusal, &a.steps) == 3 &&
           scanf("%" SCNu64 "%" SCNu64 "%" SCNu64, &a.first, &a.second, &a.third) == 3) {
        st9_answer_text(a, text, sizeof text);
        puts(text);
    }
}

int main(int count, char **arguments)
{
    if (count == 1)
        texts();
    else if (strcmp(arguments[1], "names") == 0)
        names();
    else if (strcmp(arguments[1], "lines") == 0)
        lines();
    else
        return 2;
    return 0;
}
