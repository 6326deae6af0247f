/*
 * What a compiler makes of include/st9.h: the layout, the numbers and the step words, a line each; and one call of each
 * function.
 */
#include "st9.h"

#include <assert.h>
#include <inttypes.h>
#include <stdio.h>
#include <string.h>

static_assert(sizeof(st9_channel) == ST9_CHANNEL_BYTES, "a record is its seven bytes");
static_assert(offsetof(st9_channel, data) == 5 && offsetof(st9_channel, direction) == 6, "in this order");

#define AT(field, place) static_assert(offsetof(st9_answer, field) == (place), #field)
static_assert(sizeof(st9_answer) == 48, "an answer is six numbers");
AT(kind, 0);
AT(refusal, 8);
AT(steps, 16);
AT(first, 24);
AT(byte, 24);
AT(lost, 24);
AT(maskable, 24);
AT(source, 24);
AT(arbitrations, 24);
AT(outranking, 24);
AT(changed, 24);
AT(second, 32);
AT(tlip, 32);
AT(level, 32);
AT(ended, 32);
AT(triggers, 32);
AT(third, 40);
AT(vector, 40);
AT(bound, 40);

static void line(const char *name, uint64_t number)
{
    printf("%s %" PRIu64 "\n", name, number);
}

#define LINE(name) line(#name, name)

static void kinds(void)
{
    LINE(ST9_NO_STEP);
    LINE(ST9_BYTE);
    LINE(ST9_WRITTEN);
    LINE(ST9_TRIGGERED);
    LINE(ST9_NOTHING);
    LINE(ST9_TOP_LEVEL);
    LINE(ST9_INTERRUPT);
    LINE(ST9_TRANSFERRED);
    LINE(ST9_RETURNED);
    LINE(ST9_RESET);
    LINE(ST9_REFUSED);
    LINE(ST9_REFUSED_CALL);
    LINE(ST9_REFUSED_STEP);
    LINE(ST9_ENDED);
    LINE(ST9_ACKNOWLEDGED);
    LINE(ST9_NESTED);
    LINE(ST9_DMA_ENABLED);
    LINE(ST9_TOP_LEVEL_ENABLED);
    LINE(ST9_TOP_LEVEL_IN_SERVICE);
    LINE(ST9_NOT_PENDING);
    LINE(ST9_MASKED);
    LINE(ST9_LEVEL_NOT_ABOVE);
    LINE(ST9_OTHER_STEP);
    LINE(ST9_INTERRUPTS_DISABLED);
    LINE(ST9_WITHIN);
    LINE(ST9_CHANGED);
}

static void changes(void)
{
    LINE(ST9_CHANGED_PENDING);
    LINE(ST9_CHANGED_MODE);
    LINE(ST9_CHANGED_CURRENT_LEVEL);
    LINE(ST9_CHANGED_TOP_LEVEL);
    LINE(ST9_CHANGED_MASK);
    LINE(ST9_CHANGED_DMA_ENABLE);
    LINE(ST9_CHANGED_LEVEL);
}

static void refusals_and_effects(void)
{
    LINE(ST9_ACCEPTED);
    LINE(ST9_BAD_LENGTH);
    LINE(ST9_BAD_LIST);
    LINE(ST9_BAD_REGISTER);
    LINE(ST9_BAD_NUMBER);
    LINE(ST9_BAD_ADDRESS);
    LINE(ST9_BAD_POINTER);
    LINE(ST9_UNKNOWN_KIND);
    LINE(ST9_BAD_MEMORY);
    LINE(ST9_NOT_SELECTED);
    LINE(ST9_RAISED);
    LINE(ST9_MERGED);
}

static void sizes_sources_directions(void)
{
    LINE(ST9_IMAGE_LENGTH);
    LINE(ST9_MARK);
    LINE(ST9_MOST_CHANNELS);
    LINE(ST9_MOST_MEMORY);
    LINE(ST9_INTA0);
    LINE(ST9_INTA1);
    LINE(ST9_INTB0);
    LINE(ST9_INTB1);
    LINE(ST9_INTC0);
    LINE(ST9_INTC1);
    LINE(ST9_INTD0);
    LINE(ST9_INTD1);
    LINE(ST9_FIRST_CHANNEL);
    LINE(ST9_FALLING);
    LINE(ST9_RISING);
    LINE(ST9_TO_REGISTER_FILE);
    LINE(ST9_TO_PERIPHERAL);
}

static void registers_and_bits(void)
{
    LINE(ST9_CICR);
    LINE(ST9_PPR);
    LINE(ST9_MODER);
    LINE(ST9_EITR);
    LINE(ST9_EIPR);
    LINE(ST9_EIMR);
    LINE(ST9_EIPLR);
    LINE(ST9_EIVR);
    LINE(ST9_NICR);
    line("GCEN, TLIP, TLI, IEN, IAM, CPL",
         ST9_GCEN << 20 | ST9_TLIP << 16 | ST9_TLI << 12 | ST9_IEN << 8 | ST9_IAM << 4 | ST9_CPL);
    line("vector, TLTEV, TLIS, IAOS, EWEN",
         ST9_VECTOR << 16 | ST9_TLTEV << 12 | ST9_TLIS << 8 | ST9_IAOS << 4 | ST9_EWEN);
    line("TLNM, HL", ST9_TLNM << 8 | ST9_HL);
    line("IP, DM, IM, PRL", ST9_IP << 12 | ST9_DM << 8 | ST9_IM << 4 | ST9_PRL);
}

static void words(void)
{
    line("read", st9_read(ST9_EIPR));
    line("read of a number that is too large", st9_read(0x1000002));
    line("write", st9_write(ST9_EIMR, 0xFF));
    line("write of no byte", st9_write(ST9_EIMR, 0x100));
    line("write of a number that is too large", st9_write(0x1000002, 1));
    line("pin edge", st9_pin_edge(ST9_INTB0, ST9_RISING));
    line("pin edge of a direction that is too large", st9_pin_edge(ST9_INTB0, 256));
    line("pin edge of a number that is too large", st9_pin_edge(0x1000002, ST9_RISING));
    line("watchdog", st9_watchdog());
    line("nmi edge", st9_nmi_edge(ST9_RISING));
    line("nmi edge of a direction that is too large", st9_nmi_edge(256));
    line("request", st9_request(11));
    line("request of a number that is too large", st9_request(0x1000002));
    line("arbitrate", st9_arbitrate());
    line("return", st9_return());
    line("reset", st9_reset());
    line("a kind that is too large", st9_word(0x10002, 0, 0, 0));
    line("a trigger that is too large", st9_word(2, 0x10003, 0, 0));
    line("a first that is too large", st9_word(2, 3, 0x1000004, 0));
    line("a second that is too large", st9_word(2, 3, 4, 0x105));
}

static void answer(const char *call, st9_answer a)
{
    char text[ST9_TEXT_SIZE];
    st9_answer_text(a, text, sizeof text);
    printf("%s: %" PRIu64 " %" PRIu64 " %" PRIu64 " %" PRIu64 " %" PRIu64 " %" PRIu64 ", %s\n", call,
           a.kind, a.refusal, a.steps, a.first, a.second, a.third, text);
}

/* One record with DMA off, its IP 1 and its interrupt unmasked at level 2; and INTA0 pending at level 0. */
static void calls(void)
{
    const st9_channel list[] = {{9, 240, 241, 242, 243, 244, ST9_TO_REGISTER_FILE}};
    const uint8_t *bytes = (const uint8_t *)list;
    uint8_t image[ST9_IMAGE_LENGTH] = {0};
    image[ST9_CICR] = 0x97;
    image[ST9_PAGED(0, ST9_EIPR)] = 1;
    image[ST9_PAGED(0, ST9_EIMR)] = 1;
    image[ST9_PAGED(0, ST9_EIVR)] = 0x46;
    image[ST9_PAGED(9, 240)] = 0x2A;
    image[ST9_PAGED(9, 241)] = 0x35;
    const uint64_t list_of_steps[] = {st9_arbitrate(), st9_return(), st9_arbitrate()};
    uint8_t other[ST9_IMAGE_LENGTH];
    memcpy(other, image, sizeof image);

    answer("bound", st9_bound(image, sizeof image, bytes, sizeof list, ST9_FIRST_CHANNEL, list_of_steps, 3));
    const uint64_t handler[] = {st9_read(ST9_EIPR), st9_write(ST9_EIPR, 0), st9_arbitrate()};
    answer("handler bound", st9_handler_bound(image, sizeof image, bytes, sizeof list, ST9_FIRST_CHANNEL, handler, 3));
    answer("handler bound of what is erased",
           st9_handler_bound(image, sizeof image, bytes, sizeof list, ST9_INTA0, handler, 3));
    answer("wait", st9_wait(other, sizeof other, bytes, sizeof list, NULL, 0, ST9_FIRST_CHANNEL, list_of_steps, 3));
    answer("step", st9_step(image, sizeof image, bytes, sizeof list, NULL, 0, st9_arbitrate()));
    answer("run", st9_run(image, sizeof image, bytes, sizeof list, NULL, 0, list_of_steps + 1, 2));
    answer("run of no steps, no list, no memory", st9_run(image, sizeof image, NULL, 0, NULL, 0, NULL, 0));
    answer("bytes that are no whole record",
           st9_step(image, sizeof image, bytes, sizeof list - 1, NULL, 0, st9_return()));
    answer("an image that is too short",
           st9_step(image, sizeof image - 1, bytes, sizeof list, NULL, 0, st9_return()));
    line("view of page 9", (uint64_t)(st9_view(image, sizeof image, 9) - image));
    line("view of page 64 is null", st9_view(image, sizeof image, 64) == NULL);
    line("its number", st9_view_number(image, sizeof image, 64));
    line("view of a short image is null", st9_view(image, sizeof image - 1, 9) == NULL);
    line("twice a place by sums", 2 * ST9_PAGED(8 + 1, 239 + 1));
    line("IDCR after", st9_view(image, sizeof image, 9)[0]);
}

static uint8_t memory[ST9_MOST_MEMORY + 1];

/* The counter in R16 and R17, the address in R18 and R19. */
static void counter_and_address(const uint8_t *image)
{
    line("counter", 256u * image[16] + image[17]);
    line("address", 256u * image[18] + image[19]);
}

/* One record with DMA into a memory of seven bytes: two bytes from address 5 on, and one more past the end. */
static void calls_with_memory(void)
{
    const st9_channel list[] = {{9, 240, 241, 242, 243, 244, ST9_TO_REGISTER_FILE}};
    const uint8_t *bytes = (const uint8_t *)list;
    const uint64_t steps[] = {st9_request(0), st9_arbitrate()};
    uint8_t image[ST9_IMAGE_LENGTH] = {0};
    image[ST9_CICR] = 0x87;
    image[17] = 2;
    image[19] = 5;
    image[ST9_PAGED(9, 240)] = 0x32;
    image[ST9_PAGED(9, 242)] = 16;
    image[ST9_PAGED(9, 243)] = 18;
    image[ST9_PAGED(9, 244)] = 0x5A;

    answer("step into memory", st9_step(image, sizeof image, bytes, sizeof list, memory, 7, st9_arbitrate()));
    line("memory 5", memory[5]);
    counter_and_address(image);
    image[ST9_PAGED(9, 244)] = 0x5B;
    answer("run into memory", st9_run(image, sizeof image, bytes, sizeof list, memory, 7, steps, 2));
    line("memory 6", memory[6]);
    counter_and_address(image);
    image[ST9_PAGED(9, 240)] = 0x12;
    answer("wait past the memory's end",
           st9_wait(image, sizeof image, bytes, sizeof list, memory, 7, ST9_FIRST_CHANNEL, steps, 2));
    answer("without memory", st9_step(image, sizeof image, bytes, sizeof list, NULL, 0, st9_arbitrate()));
    answer("memory that is too long",
           st9_step(image, sizeof image, bytes, sizeof list, memory, sizeof memory, st9_return()));
    answer("wait of it, and of no source",
           st9_wait(image, sizeof image, bytes, sizeof list, memory, sizeof memory, 99, steps, 2));
}

int main(void)
{
    kinds();
    changes();
    refusals_and_effects();
    sizes_sources_directions();
    registers_and_bits();
    words();
    calls();
    calls_with_memory();
    return 0;
}
