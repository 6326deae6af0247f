/*
 * The March incident in a C harness: one write to EIPR erases two alarms, and its answer says which. At the fan's edge
 * the fan has no bound, and the answer says which step will erase its alarm.
 *
 *     tools/staticlib
 *     cc -std=c11 -Iinclude examples/march.c include/st9_text.c target/staticlib/libst9.a -o march && ./march
 *
 *     up to the fan's edge  done: 4 steps, last answer: raised
 *     bound of the fan      none: the write at step 0 erases the source's pending bit
 *     the write             erased 14h: INTB0, INTC0
 *     the rest              done: 2 steps, last answer: none
 */
#include "st9.h"

#include <stdio.h>
#include <stdlib.h>

static void say(const char *what, st9_answer answer)
{
    char text[ST9_TEXT_SIZE];
    st9_answer_text(answer, text, sizeof text);
    printf("%-22s%s\n", what, text);
    if (answer.refusal != 0)
        exit(1);
}

int main(void)
{
    uint8_t image[ST9_IMAGE_LENGTH] = {0};
    image[ST9_CICR] = 0x97;  /* interrupts enabled, concurrent mode, CPL 7 */
    image[ST9_PAGED(0, ST9_EIMR)] = 1 << ST9_INTB0 | 1 << ST9_INTC0;
    image[ST9_PAGED(0, ST9_EIPLR)] = 0xE7;  /* INTB0 at level 2, INTC0 at level 4 */
    image[ST9_PAGED(0, ST9_EIVR)] = 0x46;

    const uint64_t edges[] = {
        st9_pin_edge(ST9_INTB0, ST9_FALLING),  /* over-temperature */
        st9_arbitrate(),                       /* its handler starts */
        st9_pin_edge(ST9_INTB0, ST9_FALLING),  /* the contact bounces */
        st9_pin_edge(ST9_INTC0, ST9_FALLING)   /* the fan fails meanwhile */
    };
    const uint64_t handler[] = {
        st9_write(ST9_EIPR, 0x00),  /* the handler clears the pending register */
        st9_return(),
        st9_arbitrate()
    };
    say("up to the fan's edge", st9_run(image, sizeof image, NULL, 0, NULL, 0, edges, 4));

    /* A step's index counts from the first word lent: step 0 is the handler's write. */
    say("bound of the fan", st9_handler_bound(image, sizeof image, NULL, 0, ST9_INTC0, handler, 3));
    say("the write", st9_step(image, sizeof image, NULL, 0, NULL, 0, handler[0]));
    say("the rest", st9_run(image, sizeof image, NULL, 0, NULL, 0, handler + 1, 2));
    return 0;
}
