/*
 * Answers in words, as st9.h declares them. Compile this file beside yours, as C or as C++. It calls no function of
 * another file and keeps nothing between calls.
 */
#include "st9.h"

#define COUNT(table) (sizeof(table) / sizeof *(table))

static const char *const kind_names[] = {
    "no step", "byte", "written", "triggered", "nothing", "top level", "interrupt", "transferred", "returned", "reset",
    "refused", "refused call", "refused step", "ended", "acknowledged", "nested", "dma enabled", "top level enabled",
    "top level in service", "not pending", "masked", "level not above", "other step", "interrupts disabled", "within",
    "changed"
};

/* Document 01's words: "given exactly when". */
static const char *const refusal_names[] = {
    "accepted",
    "image length is not 1,265",
    "channel list breaks a rule",
    "register read or written not modelled or over 255; viewed page over 63",
    "pin over 7, direction over 1, record or source number that isn't there",
    "the DMA winner has a memory address not below the memory's length",
    "the DMA winner has n or a over 223, or a pointer over 222 (memory)",
    "step or trigger kind unknown",
    "the memory is over 65,536 bytes"
};

static const char *const source_names[] = {
    "INTA0", "INTA1", "INTB0", "INTB1", "INTC0", "INTC1", "INTD0", "INTD1",
    "channel 0", "channel 1", "channel 2", "channel 3", "channel 4", "channel 5",
    "channel 6", "channel 7", "channel 8", "channel 9", "channel 10", "channel 11"
};

static const char *const effects[] = {"not selected", "raised", "merged"};

/* From ST9_NESTED on. */
static const char *const premises[] = {
    "nested mode (IAM = 1)",
    "a channel has DMA enabled (DM = 1)",
    "top level enabled (TLNM or TLI is 1)",
    "top level in service (the mark is set)",
    "the source is not pending",
    "the source is masked",
    "the source's level is not above the current one",
    "a step that is no trigger, arbitration or return",
    "an arbitration with interrupts disabled (IEN = 0)"
};

/* From ST9_CHANGED_PENDING on. */
static const char *const bases[] = {
    "the source's pending bit",
    "the mode (IAM)",
    "the current level (CPL)",
    "the top level's enables (TLI or TLNM)",
    "a source's mask",
    "a channel's DMA enable (DM)",
    "a source's level"
};

static const char digits[] = "0123456789ABCDEF";

const char *st9_kind_name(uint64_t kind)
{
    return kind < COUNT(kind_names) ? kind_names[kind] : "unknown kind";
}

const char *st9_refusal_name(uint64_t refusal)
{
    return refusal < COUNT(refusal_names) ? refusal_names[refusal] : "unknown refusal";
}

const char *st9_source_name(uint64_t source)
{
    return source < COUNT(source_names) ? source_names[source] : "no source";
}

/* The lent buffer, and the length of the whole text so far, that which does not fit included. */
struct writer {
    char *text;
    size_t size;
    size_t length;
};

/* The last byte of the buffer is kept for the end. */
static void put_character(struct writer *to, char character)
{
    if (to->length + 1 < to->size)
        to->text[to->length] = character;
    to->length++;
}

static void put(struct writer *to, const char *words)
{
    for (; *words != '\0'; words++)
        put_character(to, *words);
}

static void put_number(struct writer *to, uint64_t number)
{
    char reversed[20];  /* 2^64 - 1 has twenty digits */
    size_t count = 0;
    for (; count == 0 || number != 0; number /= 10)
        reversed[count++] = digits[number % 10];
    while (count != 0)
        put_character(to, reversed[--count]);
}

static void put_byte(struct writer *to, uint64_t byte)
{
    put_character(to, digits[byte >> 4 & 0xF]);
    put_character(to, digits[byte & 0xF]);
    put_character(to, 'h');
}

static void put_count(struct writer *to, uint64_t number, const char *noun)
{
    put_number(to, number);
    put(to, " ");
    put(to, noun);
    if (number != 1)
        put(to, "s");
}

/* Whether a number is one of its field's. Where not, the library did not give the answer, and the text says so. */
static int known(struct writer *to, const char *field, uint64_t number, uint64_t least, uint64_t most)
{
    if (least <= number && number <= most)
        return 1;
    put(to, field);
    put(to, " ");
    put_number(to, number);
    put(to, ", which st9.h does not have");
    return 0;
}

static int known_byte(struct writer *to, const char *field, uint64_t number)
{
    return known(to, field, number, 0, 0xFF);
}

static int known_source(struct writer *to, uint64_t source)
{
    return known(to, "source", source, 0, COUNT(source_names) - 1);
}

static int known_effect(struct writer *to, const char *field, uint64_t effect)
{
    return known(to, field, effect, 0, COUNT(effects) - 1);
}

static void put_read(struct writer *to, st9_answer answer)
{
    if (!known_byte(to, "byte", answer.byte))
        return;
    put(to, "byte ");
    put_byte(to, answer.byte);
}

/* Of TLIP and a record's IP the answer has nothing, so that the text promises nothing. */
static void put_written(struct writer *to, st9_answer answer)
{
    const char *before = ": ";
    if (!known_byte(to, "lost", answer.lost))
        return;
    if (answer.lost == 0) {
        put(to, "written, nothing erased from EIPR");
        return;
    }
    put(to, "erased ");
    put_byte(to, answer.lost);
    for (uint64_t source = ST9_INTA0; source <= ST9_INTD1; source++) {
        if ((answer.lost >> source & 1) == 0)
            continue;
        put(to, before);
        put(to, st9_source_name(source));
        before = ", ";
    }
}

static void put_triggered(struct writer *to, st9_answer answer)
{
    const uint64_t none = ST9_NOT_SELECTED;
    if (!known_effect(to, "maskable", answer.maskable) || !known_effect(to, "tlip", answer.tlip))
        return;
    if (answer.maskable != none || answer.tlip == none)
        put(to, effects[answer.maskable]);
    if (answer.tlip == none)
        return;
    if (answer.maskable != none)
        put(to, "; ");
    put(to, effects[answer.tlip]);
    put(to, " TLIP");
}

static void put_top_level(struct writer *to, st9_answer answer)
{
    if (!known_byte(to, "vector", answer.vector))
        return;
    put(to, "acknowledged the top level, vector ");
    put_byte(to, answer.vector);
}

static void put_interrupt(struct writer *to, st9_answer answer)
{
    if (!known_source(to, answer.source) || !known(to, "level", answer.level, 0, 6) ||
        !known_byte(to, "vector", answer.vector))
        return;
    put(to, "acknowledged ");
    put(to, st9_source_name(answer.source));
    put(to, ", level ");
    put_number(to, answer.level);
    put(to, ", vector ");
    put_byte(to, answer.vector);
}

static void put_transferred(struct writer *to, st9_answer answer)
{
    if (!known_source(to, answer.source) || !known(to, "ended", answer.ended, 0, 1))
        return;
    put(to, "DMA of ");
    put(to, st9_source_name(answer.source));
    put(to, ": one byte moved");
    if (answer.ended != 0)
        put(to, ", block ended");
}

/* A step that was done, or the last of a run. */
static void put_step(struct writer *to, st9_answer answer)
{
    switch (answer.kind) {
    case ST9_NO_STEP: put(to, "none (the list is empty)"); break;
    case ST9_BYTE: put_read(to, answer); break;
    case ST9_WRITTEN: put_written(to, answer); break;
    case ST9_TRIGGERED: put_triggered(to, answer); break;
    case ST9_NOTHING: put(to, "none"); break;
    case ST9_TOP_LEVEL: put_top_level(to, answer); break;
    case ST9_INTERRUPT: put_interrupt(to, answer); break;
    case ST9_TRANSFERRED: put_transferred(to, answer); break;
    default: put(to, st9_kind_name(answer.kind)); break;  /* returned, reset */
    }
}

/* A run that did steps has their number, a single step has 0. */
static void put_done(struct writer *to, st9_answer answer)
{
    if (answer.steps != 0 || answer.kind == ST9_NO_STEP) {
        put(to, "done: ");
        put_count(to, answer.steps, "step");
        put(to, ", last answer: ");
    }
    put_step(to, answer);
}

/* A wait is told from a run by the arbitrations before the refused step, where it has made one. */
static void put_refused(struct writer *to, st9_answer answer)
{
    if (!known(to, "refused with", answer.refusal, ST9_BAD_LENGTH, ST9_BAD_MEMORY))
        return;
    put(to, "refused with ");
    put_number(to, answer.refusal);
    if (answer.kind == ST9_REFUSED_STEP) {
        put(to, " at step ");
        put_number(to, answer.steps);
        if (answer.arbitrations != 0) {
            put(to, ", after ");
            put_count(to, answer.arbitrations, "arbitration");
        }
    }
    put(to, " (");
    put(to, st9_refusal_name(answer.refusal));
    put(to, ")");
    if (answer.kind == ST9_REFUSED_CALL)
        put(to, ", before any step");
}

static void put_wait(struct writer *to, st9_answer answer)
{
    if (answer.kind == ST9_ENDED) {
        put(to, "not acknowledged, the list ended after ");
        put_count(to, answer.arbitrations, "arbitration");
    } else {
        put(to, "acknowledged by arbitration ");
        put_number(to, answer.arbitrations);
    }
}

static void put_changed(struct writer *to, st9_answer answer)
{
    if (!known(to, "changed", answer.changed, ST9_CHANGED_PENDING, ST9_CHANGED_LEVEL))
        return;
    put(to, "none: the write at step ");
    put_number(to, answer.steps);
    put(to, answer.changed == ST9_CHANGED_PENDING ? " erases " : " changes ");
    put(to, bases[answer.changed - ST9_CHANGED_PENDING]);
}

static void put_premise(struct writer *to, st9_answer answer)
{
    put(to, "none: ");
    put(to, premises[answer.kind - ST9_NESTED]);
    if (answer.kind >= ST9_OTHER_STEP) {
        put(to, " at step ");
        put_number(to, answer.steps);
    }
}

static void put_within(struct writer *to, st9_answer answer)
{
    put(to, "by arbitration ");
    put_number(to, answer.bound);
    put(to, " at the latest, H ");
    put_number(to, answer.outranking);
    put(to, ", E ");
    put_number(to, answer.triggers);
}

static void put_answer(struct writer *to, st9_answer answer)
{
    if (!known(to, "kind", answer.kind, ST9_NO_STEP, ST9_CHANGED))
        return;
    if (answer.kind <= ST9_RESET)
        put_done(to, answer);
    else if (answer.kind <= ST9_REFUSED_STEP)
        put_refused(to, answer);
    else if (answer.kind <= ST9_ACKNOWLEDGED)
        put_wait(to, answer);
    else if (answer.kind <= ST9_INTERRUPTS_DISABLED)
        put_premise(to, answer);
    else if (answer.kind == ST9_WITHIN)
        put_within(to, answer);
    else
        put_changed(to, answer);
}

size_t st9_answer_text(st9_answer answer, char *text, size_t size)
{
    struct writer to = {text, size, 0};
    put_answer(&to, answer);
    if (size != 0)
        text[to.length < size ? to.length : size - 1] = '\0';
    return to.length;
}
