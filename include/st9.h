/*
 * The ST92F150's interrupt and DMA registers: a model that is proved against its rules, for C (from C11 on) and C++
 * (from C++11 on). Link target/staticlib/libst9.a, which `tools/staticlib` writes; st9_text.c beside this file has the
 * words: cc -Iinclude fan.c include/st9_text.c target/staticlib/libst9.a. The fan's edge and its acknowledgement:
 *
 *     uint8_t image[ST9_IMAGE_LENGTH] = {0};
 *     char text[ST9_TEXT_SIZE];
 *     image[ST9_CICR] = ST9_IEN | ST9_CPL;             // interrupts enabled, current level 7, the lowest
 *     image[ST9_PAGED(0, ST9_EIMR)] = 1 << ST9_INTC0;  // the fan is unmasked
 *     const uint64_t edge = st9_pin_edge(ST9_INTC0, ST9_FALLING);
 *     st9_answer_text(st9_step(image, sizeof image, NULL, 0, NULL, 0, edge), text, sizeof text);
 *     puts(text);                                      // raised
 *     st9_answer_text(st9_step(image, sizeof image, NULL, 0, NULL, 0, st9_arbitrate()), text, sizeof text);
 *     puts(text);                                      // acknowledged INTC0, level 0, vector 08h
 *
 * Document 01 is the scope paper, here with its later change that lends a memory; docs/PROMISES.md restates its rules,
 * one a row. Demand 3 is the bound on waiting: an unmasked pending source above the current level is acknowledged by
 * arbitration H + E + 1 at the latest, if the list has so many, under the premises that enum st9_kind has, with what H
 * and E count.
 * Every image, channel list, memory, number and step word gets an answer; a bad one is refused with the number of
 * document 01, and then every byte stays as it was.
 * A channel list passes as (const uint8_t *)list, sizeof list (st9_channel); with no channel as NULL, 0. The memory
 * that DMA moves bytes into and out of passes as its bytes and their number, at most ST9_MOST_MEMORY; none as NULL, 0.
 * What the caller sees to: each pointer has as many readable elements as the length beside it says (a text, and image
 * and memory of st9_step, st9_run and st9_wait, writable too), the words are aligned, image and memory overlap neither
 * each other nor the list nor the words, and nobody else writes any of them during the call. A pointer may be null
 * where its length is 0.
 */
#ifndef ST9_H
#define ST9_H

#include <stddef.h>
#include <stdint.h>

#ifdef __cplusplus
extern "C" {
#endif

/* An answer. The names in one union are one number: `kind` says which it is. What a kind does not fill is 0. */
typedef struct st9_answer {
    uint64_t kind;     /* enum st9_kind */
    uint64_t refusal;  /* enum st9_refusal: 0 where nothing was refused */
    uint64_t steps;    /* the steps done, or the index of a step: the first word lent has 0 */
    union { uint64_t first, byte, lost, maskable, source, arbitrations, outranking, changed; };
    union { uint64_t second, tlip, level, ended, triggers; };
    union { uint64_t third, vector, bound; };
} st9_answer;

/* One step. A refused one changes nothing. */
st9_answer st9_step(uint8_t *image, size_t image_length, const uint8_t *channels, size_t channels_length,
                    uint8_t *memory, size_t memory_length, uint64_t word);
/* The steps one after another, up to the first that is refused; image and memory are as those before it left them. */
st9_answer st9_run(uint8_t *image, size_t image_length, const uint8_t *channels, size_t channels_length,
                   uint8_t *memory, size_t memory_length, const uint64_t *words, size_t word_count);
/* The wait report: the steps up to the acknowledgement of a source by an interrupt, with the arbitrations counted. */
st9_answer st9_wait(uint8_t *image, size_t image_length, const uint8_t *channels, size_t channels_length,
                    uint8_t *memory, size_t memory_length, uint32_t source, const uint64_t *words, size_t word_count);
/* Demand 3's bound for a source over triggers, arbitrations and returns, or why there is none: more at st9_kind. */
st9_answer st9_bound(const uint8_t *image, size_t image_length, const uint8_t *channels, size_t channels_length,
                     uint32_t source, const uint64_t *words, size_t word_count);
/* The same where a handler reads and writes, too: the one to ask then. */
st9_answer st9_handler_bound(const uint8_t *image, size_t image_length, const uint8_t *channels, size_t channels_length,
                             uint32_t source, const uint64_t *words, size_t word_count);
/* The number that the view of a page is refused with (1, then 3), or 0. */
uint64_t st9_view_number(const uint8_t *image, size_t image_length, uint32_t page);
/* The sixteen bytes of a page, as stored: a part of the image itself. Null where the view is refused. */
static inline const uint8_t *st9_view(const uint8_t *image, size_t image_length, uint32_t page);

/* The step words. */
static inline uint64_t st9_read(uint32_t reg);                          /* a read of register `reg` */
static inline uint64_t st9_write(uint32_t reg, uint32_t value);         /* a write; a value over 255: refused with 7 */
static inline uint64_t st9_pin_edge(uint32_t pin, uint32_t direction);  /* an edge (st9_edge) at a pin, 0 to 7 */
static inline uint64_t st9_watchdog(void);                              /* the watchdog's end of count */
static inline uint64_t st9_nmi_edge(uint32_t direction);                /* an edge (st9_edge) at NMI */
static inline uint64_t st9_request(uint32_t record);                    /* a request of a record of the list, from 0 */
static inline uint64_t st9_arbitrate(void);                             /* an arbitration */
static inline uint64_t st9_return(void);                                /* a return from an interrupt */
static inline uint64_t st9_reset(void);                                 /* a reset */
static inline uint64_t st9_word(uint64_t kind, uint64_t trigger, uint64_t first, uint64_t second);  /* any word */

/* An answer in words, cut where `size` bytes do not hold it and its end; answers the whole length, as snprintf does. */
size_t st9_answer_text(st9_answer answer, char *text, size_t size);
const char *st9_kind_name(uint64_t kind);        /* `not pending`, or `unknown kind` */
const char *st9_refusal_name(uint64_t refusal);  /* document 01's words, or `unknown refusal` */
const char *st9_source_name(uint64_t source);    /* `INTB0`, `channel 0`, or `no source` */

/* The size of a buffer that holds every text of an answer that the library gives. */
#define ST9_TEXT_SIZE 160

/* The bytes of an image: R0 to R239, then R240 to R255 of pages 0 to 63, then the top-level-in-service mark. */
#define ST9_IMAGE_LENGTH 1265

/* The byte of the mark: not 0 where the top level is in service. */
#define ST9_MARK 1264

/* The most records of a channel list. */
#define ST9_MOST_CHANNELS 12

/* The bytes of a record. */
#define ST9_CHANNEL_BYTES 7

/* The most bytes of a memory: with so many every 16-bit address is one of its bytes. */
#define ST9_MOST_MEMORY 65536

/*
 * The byte of an image that register r (240 to 255) of page p (0 to 63) has. A register below 240 has the byte of its
 * number.
 */
#define ST9_PAGED(p, r) (240 + 16 * (p) + ((r) - 240))

/* The registers that document 01 names, by their number. */
enum st9_register {
    ST9_CICR = 230,   /* central interrupt control */
    ST9_PPR = 234,    /* page pointer: bits 7:2 are the page that R240 to R255 go to */
    ST9_MODER = 235,  /* mode */
    ST9_EITR = 242,   /* page 0, external interrupt trigger event: bit k is 1 where a rising edge triggers pin k */
    ST9_EIPR = 243,   /* page 0, external interrupt pending: bit k is channel k's */
    ST9_EIMR = 244,   /* page 0, external interrupt mask: bit k is 1 where channel k is unmasked */
    ST9_EIPLR = 245,  /* page 0, external interrupt priority level: two bits a group, A lowest; the level of channel */
                      /* k is twice those of its group plus k modulo 2 */
    ST9_EIVR = 246,   /* page 0, external interrupt vector: the upper half plus 2k is that of channel k */
    ST9_NICR = 247    /* page 0, nested interrupt control */
};

/* The bits of CICR. */
enum st9_cicr {
    ST9_GCEN = 0x80,  /* global counter enable: stored, without effect here */
    ST9_TLIP = 0x40,  /* top level interrupt pending */
    ST9_TLI = 0x20,   /* top level interrupt enabled, where IEN is 1 too */
    ST9_IEN = 0x10,   /* interrupts enabled */
    ST9_IAM = 0x08,   /* arbitration mode: 0 concurrent, 1 nested */
    ST9_CPL = 0x07    /* current priority level */
};

/* The bits of EIVR. */
enum st9_eivr {
    ST9_VECTOR = 0xF0,  /* upper half of the external channels' vectors */
    ST9_TLTEV = 0x08,   /* 1: a rising edge of NMI triggers */
    ST9_TLIS = 0x04,    /* source of the top level: 1 NMI, 0 the watchdog */
    ST9_IAOS = 0x02,    /* source of INTA0: 1 its pin, 0 the watchdog */
    ST9_EWEN = 0x01     /* external wait enable: stored, without effect here */
};

/* The bits of NICR. */
enum st9_nicr {
    ST9_TLNM = 0x80,  /* top level not maskable; a write sets it and does not clear it */
    ST9_HL = 0x7F     /* bit x is HLx: level x was left by a nested acknowledgement */
};

/* The bits of a record's IDCR. */
enum st9_idcr {
    ST9_IP = 0x20,  /* pending */
    ST9_DM = 0x10,  /* DMA enabled */
    ST9_IM = 0x08,  /* interrupt unmasked */
    ST9_PRL = 0x07  /* priority level */
};

/* The sources. Pin k, 0 to 7, is that of source k. */
enum st9_source {
    ST9_INTA0 = 0,         /* group A: pin 0, or the watchdog */
    ST9_INTA1 = 1,         /* pin 1 */
    ST9_INTB0 = 2,         /* group B: pin 2 */
    ST9_INTB1 = 3,         /* pin 3 */
    ST9_INTC0 = 4,         /* group C: pin 4 */
    ST9_INTC1 = 5,         /* pin 5 */
    ST9_INTD0 = 6,         /* group D: pin 6 */
    ST9_INTD1 = 7,         /* pin 7 */
    ST9_FIRST_CHANNEL = 8  /* record 0 of the channel list; record k is ST9_FIRST_CHANNEL + k */
};

/* The direction of an edge. */
enum st9_edge {
    ST9_FALLING = 0,  /* from 1 to 0 */
    ST9_RISING = 1    /* from 0 to 1 */
};

/* The direction of a record's transfers. */
enum st9_direction {
    ST9_TO_REGISTER_FILE = 0,  /* from the data register into the register file or the memory */
    ST9_TO_PERIPHERAL = 1      /* the reverse */
};

/*
 * A record of the channel list: a page of 1 to 63, five register numbers of 240 to 255 there, and a direction. A list
 * passes as its bytes, seven a record, and their number: (const uint8_t *)list, sizeof list.
 *
 * A transfer moves one byte between the data register and the register file or the memory: bit 0 of DCPR says which.
 * It then adds 1 to the address and takes 1 from the counter; a counter of 0 means 256 bytes, of the memory 65,536.
 * It clears IP, so that every byte needs its request. The last byte of a block clears DM too, and leaves IP set if IM
 * is 1.
 * DCPR bit 0 = 1, register file: DCPR with bit 0 cleared names a pair of registers, the 8-bit address, then the 8-bit
 * counter. DAPR is not looked at.
 * DCPR bit 0 = 0, memory: DCPR names the pair of the 16-bit counter, DAPR with bit 0 cleared that of the 16-bit
 * address, high byte first. Both wrap at 16 bits; where both pointers name one pair, the counter stands there
 * afterwards. (On the part bit 0 of DAPR chooses a segment; here both mean the memory that is lent.)
 */
typedef struct st9_channel {
    uint8_t page;
    uint8_t idcr;       /* interrupt and DMA control */
    uint8_t ivr;        /* interrupt vector, with bit 0 cleared */
    uint8_t dcpr;       /* DMA counter pointer; its bit 0 is 1 for the register file, 0 for the memory */
    uint8_t dapr;       /* DMA address pointer, of the memory's address */
    uint8_t data;       /* the peripheral's data register */
    uint8_t direction;  /* enum st9_direction */
} st9_channel;

/* The refusals of document 01 and of its later change that lends a memory, in the field `refusal` of an answer. */
enum st9_refusal {
    ST9_ACCEPTED = 0,      /* nothing was refused */
    ST9_BAD_LENGTH = 1,    /* the image's length is not 1,265 */
    ST9_BAD_LIST = 2,      /* the channel list breaks a rule, or its bytes are no whole number of records */
    ST9_BAD_REGISTER = 3,  /* a register that is not modelled or over 255; a viewed page over 63 */
    ST9_BAD_NUMBER = 4,    /* a pin over 7, a direction over 1, a record or a source that isn't there */
    ST9_BAD_ADDRESS = 5,   /* the DMA winner has a memory address that is not below the memory's length */
    ST9_BAD_POINTER = 6,   /* the DMA winner has a pointer pair or an address over 223 (register file), or a pointer */
                           /* over 222 (memory), which comes before 5 */
    ST9_UNKNOWN_KIND = 7,  /* a kind of step or of trigger that is unknown */
    ST9_BAD_MEMORY = 8     /* the memory is over 65,536 bytes, whatever the step; checked right after 2 */
};

/* What a trigger did to a pending bit. */
enum st9_effect {
    ST9_NOT_SELECTED = 0,  /* nothing: the trigger does not select it */
    ST9_RAISED = 1,        /* it was 0 and is 1 */
    ST9_MERGED = 2         /* it was 1 already: two triggers, one acknowledgement */
};

/*
 * What is answered, in the field `kind`; beside each the fields that it fills. Every other field is 0.
 *
 * st9_bound is demand 3's. H is the number of unmasked sources outranking the source that are pending at the start, E
 * that of the triggers of such in the list; one source outranks another if its level number is smaller or, at equal
 * level, its source number is. Steps that are refused are passed over, of whatever kind they are: they
 * change nothing and count nowhere, so that more lists have a bound than those of triggers, arbitrations and returns
 * that demand 3 names.
 *
 * st9_handler_bound takes reads too, and writes that leave IAM, CPL, TLI, TLNM, every source's mask, level and DMA
 * enable, and the source's pending bit; no reset, and IEN = 1 at each arbitration. Only the steps up to the
 * acknowledgement count, and E has also the pending bits of outranking unmasked sources that writes raise. Never above
 * st9_bound's where both answer one.
 */
enum st9_kind {
    /* Of a step, and of the last step of a run that was done; of a run with `steps`, the steps done. */
    ST9_NO_STEP = 0,      /* a run of no steps */
    ST9_BYTE = 1,         /* a read: byte, absent bits as 0 */
    ST9_WRITTEN = 2,      /* a write: lost, the EIPR bits that it took from 1 to 0; an erased TLIP or IP of a record */
                          /* is not told: compare the bytes of CICR and IDCR */
    ST9_TRIGGERED = 3,    /* a trigger: maskable and tlip, what it did to the EIPR or IP bit and to TLIP: st9_effect */
    ST9_NOTHING = 4,      /* an arbitration that found nothing */
    ST9_TOP_LEVEL = 5,    /* an arbitration that acknowledged the top level: vector, 04h */
    ST9_INTERRUPT = 6,    /* one that acknowledged an interrupt: source, level (0, the highest, to 6), vector */
    ST9_TRANSFERRED = 7,  /* one that served DMA: source, ended (1: the block's last byte) */
    ST9_RETURNED = 8,     /* a return */
    ST9_RESET = 9,        /* a reset */
    ST9_REFUSED = 10,     /* a step that was refused: refusal */
    /* Of a run, a wait report and the two bounds. */
    ST9_REFUSED_CALL = 11,  /* refused before any step: refusal */
    ST9_REFUSED_STEP = 12,  /* a run or a wait refused at a step: refusal, steps (its index); of a wait arbitrations, */
                            /* those made before it */
    /* Of a wait report; a refused arbitration is not counted. */
    ST9_ENDED = 13,         /* the list ended first: arbitrations */
    ST9_ACKNOWLEDGED = 14,  /* the source was acknowledged: arbitrations, the last included; its step is the last of */
                            /* so many arbitrations in the list */
    /* Of st9_bound and st9_handler_bound: the first premise that fails, */
    ST9_NESTED = 15,                /* nested mode (IAM = 1) */
    ST9_DMA_ENABLED = 16,           /* a record has DM = 1 */
    ST9_TOP_LEVEL_ENABLED = 17,     /* TLNM or TLI is 1 */
    ST9_TOP_LEVEL_IN_SERVICE = 18,  /* the mark is set */
    ST9_NOT_PENDING = 19,           /* the source is not pending, */
    ST9_MASKED = 20,                /* is masked, */
    ST9_LEVEL_NOT_ABOVE = 21,       /* or its level is not above the current one */
    ST9_OTHER_STEP = 22,            /* a step that is no trigger, arbitration or return and is not refused (of */
                                    /* st9_handler_bound: a reset): steps, its index */
    ST9_INTERRUPTS_DISABLED = 23,   /* an arbitration with IEN = 0: steps, its index */
    /* or, where all hold, */
    ST9_WITHIN = 24,  /* outranking (H), triggers (E), bound (H + E + 1): acknowledged by that arbitration at the */
                      /* latest, if the list has so many */
    /* Of st9_handler_bound alone: one more premise that fails. */
    ST9_CHANGED = 25  /* a write that changes what the bound rests on: steps, its index; changed, what: st9_changed */
};

/* What a write changed that the bound of st9_handler_bound rests on; of several the first of these. */
enum st9_changed {
    ST9_CHANGED_PENDING = 1,        /* it erased the source's pending bit */
    ST9_CHANGED_MODE = 2,           /* IAM */
    ST9_CHANGED_CURRENT_LEVEL = 3,  /* CPL */
    ST9_CHANGED_TOP_LEVEL = 4,      /* TLI or TLNM */
    ST9_CHANGED_MASK = 5,           /* a source's mask: an EIMR bit, or a record's IM */
    ST9_CHANGED_DMA_ENABLE = 6,     /* a record's DM */
    ST9_CHANGED_LEVEL = 7           /* a source's level: EIPLR, or a record's PRL */
};

/* The kind of a step, 16 bits. Any other is refused with 7. */
enum st9_step_kind {
    ST9_STEP_READ = 0,       /* first: a register */
    ST9_STEP_WRITE = 1,      /* first: a register, second: a value */
    ST9_STEP_TRIGGER = 2,    /* trigger: its kind */
    ST9_STEP_ARBITRATE = 3,  /* an arbitration */
    ST9_STEP_RETURN = 4,     /* a return from an interrupt */
    ST9_STEP_RESET = 5,      /* a reset */
    ST9_STEP_UNKNOWN = 0xFFFF  /* one of the others */
};

/* The kind of a trigger, 16 bits. Any other is refused with 7. */
enum st9_trigger_kind {
    ST9_TRIGGER_PIN = 0,       /* first: a pin, second: a direction */
    ST9_TRIGGER_WATCHDOG = 1,  /* the watchdog's end of count */
    ST9_TRIGGER_NMI = 2,       /* second: a direction */
    ST9_TRIGGER_REQUEST = 3    /* first: a record of the channel list */
};

/*
 * A word: kind * 2^48 + trigger * 2^32 + first (24 bits) * 2^8 + second (8 bits). Higher bits of each are cut off. A
 * field that a step does not use is not looked at.
 */
static inline uint64_t st9_word(uint64_t kind, uint64_t trigger, uint64_t first, uint64_t second)
{
    return (kind & 0xFFFF) << 48 | (trigger & 0xFFFF) << 32 | (first & 0xFFFFFF) << 8 | (second & 0xFF);
}

/*
 * A number of a step as a word has room for it: one that does not fit becomes the largest that does, which is refused
 * likewise.
 */
static inline uint64_t st9_fit(uint64_t number, uint64_t largest)
{
    return number < largest ? number : largest;
}

static inline uint64_t st9_read(uint32_t reg)
{
    return st9_word(ST9_STEP_READ, 0, st9_fit(reg, 0xFFFFFF), 0);
}

/* No byte is over 255: such a value makes a word of unknown kind, which is refused with 7. */
static inline uint64_t st9_write(uint32_t reg, uint32_t value)
{
    if (value > 0xFF)
        return st9_word(ST9_STEP_UNKNOWN, 0, 0, 0);
    return st9_word(ST9_STEP_WRITE, 0, st9_fit(reg, 0xFFFFFF), value);
}

static inline uint64_t st9_pin_edge(uint32_t pin, uint32_t direction)
{
    return st9_word(ST9_STEP_TRIGGER, ST9_TRIGGER_PIN, st9_fit(pin, 0xFFFFFF), st9_fit(direction, 0xFF));
}

static inline uint64_t st9_watchdog(void)
{
    return st9_word(ST9_STEP_TRIGGER, ST9_TRIGGER_WATCHDOG, 0, 0);
}

static inline uint64_t st9_nmi_edge(uint32_t direction)
{
    return st9_word(ST9_STEP_TRIGGER, ST9_TRIGGER_NMI, 0, st9_fit(direction, 0xFF));
}

static inline uint64_t st9_request(uint32_t record)
{
    return st9_word(ST9_STEP_TRIGGER, ST9_TRIGGER_REQUEST, st9_fit(record, 0xFFFFFF), 0);
}

static inline uint64_t st9_arbitrate(void)
{
    return st9_word(ST9_STEP_ARBITRATE, 0, 0, 0);
}

static inline uint64_t st9_return(void)
{
    return st9_word(ST9_STEP_RETURN, 0, 0, 0);
}

static inline uint64_t st9_reset(void)
{
    return st9_word(ST9_STEP_RESET, 0, 0, 0);
}

static inline const uint8_t *st9_view(const uint8_t *image, size_t image_length, uint32_t page)
{
    return st9_view_number(image, image_length, page) == 0 ? image + ST9_PAGED(page, 240) : NULL;
}

#ifdef __cplusplus
}
#endif

#endif
