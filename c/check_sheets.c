/* Checks the example sheet and three damaged copies of it, and says where an answer is not the one expected. */
#include <stdio.h>
#include <string.h>

#include "kanduepy.h"

static const uint8_t example[] = {
    0x04, 0x00, 0x01, 0x00, 0x06, 0x00, 0x03, 0x00, 0x0E, 0x00, 0x0F, 0x00, 0x3F, 0x00, /* header */
    0x01,                                                                               /* marks */
    0x01, 0x02, 0x04, 0x00, 0x01, 0x00, 0x00, 0x00,                                     /* work */
    0x03, 0x02, 0x00, 0x00, 0x00, 0x00, 0x00, 0x00,                                     /* if */
    0x02, 0x03, 0x00, 0x00, 0x00, 0x00, 0x00, 0x00,                                     /* literal */
    0x04, 0x00, 0x00, 0x00, 0x00, 0x00, 0x00, 0x00,                                     /* else */
    0x01, 0x03, 0x05, 0x00, 0x01, 0x00, 0x00, 0x00,                                     /* work */
    0x05, 0x00, 0x00, 0x00, 0x00, 0x00, 0x00, 0x00,                                     /* end */
};

static int failures = 0;

static void expect(const char *what, uint32_t answer, uint32_t number, uint32_t place)
{
    uint32_t wanted = number + 256 * place;
    printf("%s: %u at %u\n", what, answer & 0xff, answer >> 8);
    if (answer != wanted) {
        printf("  expected %u at %u\n", number, place);
        failures++;
    }
}

/* The example with one byte changed. */
static uint32_t with_byte(size_t at, uint8_t byte)
{
    uint8_t copy[sizeof example];
    memcpy(copy, example, sizeof example);
    copy[at] = byte;
    return kanduepy_check(copy, sizeof copy);
}

int main(void)
{
    expect("the example", kanduepy_check(example, sizeof example), 0, 0);
    expect("cut off in its header", kanduepy_check(example, 13), 1, 0);
    expect("a mark past the last cell", with_byte(14, 4), 4, 14);
    expect("an end for an else", with_byte(39, 5), 6, 39);
    return failures == 0 ? 0 : 1;
}
