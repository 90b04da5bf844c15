/*
 * Parameters of a sample image are printed, set and printed again, one of them with a cut of power
 * in between. Their places are the sample's own.
 */
#include <inttypes.h>
#include <stdio.h>

#include "oversnithe.h"

static const oversnithe_layout layout = {
    .count = 4,
    .ids = {32, 48, 58, 112},
    .lengths = {6, 40, 96, 28},
};

/* FF CE is -50, 09 C4 is 2500, 00 01 23 45 is 74565, 00 FE is 254; all else is 0. */
static uint8_t image[6 + 40 + 96 + 28] = {
    [0] = 0xFF,  [1] = 0xCE,  [17] = 0x09, [18] = 0xC4,
    [27] = 0x01, [28] = 0x23, [29] = 0x45, [38] = 0xFE,
};

/* In mAh. */
static const oversnithe_parameter design_capacity = {48, 11, OVERSNITHE_U16, 0, 32767};

/* In tenths of a degree Celsius. */
static const oversnithe_parameter charge_inhibit = {32, 0, OVERSNITHE_I16, -400, 1200};

static const oversnithe_parameter pack_number = {48, 20, OVERSNITHE_U32, 0, 4294967295};

/* Two bytes, of which the first ends a block and the second begins the next one. */
static const oversnithe_parameter cycle_count = {48, 31, OVERSNITHE_U16, 0, 9999};

/* Two bytes, of which the second is past the end of its class. */
static const oversnithe_parameter past_its_class = {48, 39, OVERSNITHE_U16, 0, 65535};

static void print(const char *name, oversnithe_parameter parameter)
{
    oversnithe_parameter_value answer = oversnithe_parameter_get(layout, image, sizeof image, parameter);
    if (answer.error == 0)
        printf("%s: %" PRId64 ", %s\n", name, answer.value, answer.in_range ? "in range" : "out of range");
    else
        printf("%s: error %u\n", name, answer.error);
}

static void print_all(void)
{
    print("design capacity", design_capacity);
    print("charge inhibit below", charge_inhibit);
    print("pack number", pack_number);
    print("cycle count", cycle_count);
    print("past its class", past_its_class);
}

static void change(const char *name, oversnithe_parameter parameter, int64_t value)
{
    uint8_t error = oversnithe_parameter_set(layout, image, sizeof image, parameter, value);
    printf("%s to %" PRId64 ": error %u\n", name, value, error);
}

/* The pack is unplugged between the two commits. */
static void change_with_cut(const char *name, oversnithe_parameter parameter, int64_t value)
{
    uint8_t error = oversnithe_parameter_set_lower(layout, image, sizeof image, parameter, value);
    printf("%s to %" PRId64 ", cut between the commits: error %u\n", name, value, error);
}

int main(void)
{
    print_all();
    change("design capacity", design_capacity, 3000);
    change("charge inhibit below", charge_inhibit, -401);
    change("charge inhibit below", charge_inhibit, -400);
    change("pack number", pack_number, 4294967295);
    change_with_cut("cycle count", cycle_count, 511);
    print("cycle count", cycle_count);
    change("cycle count", cycle_count, 511);
    change("past its class", past_its_class, 1);
    print_all();
    return 0;
}
