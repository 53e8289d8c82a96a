#include "gauges.h"

#include "gauge.h"
#include "random.h"
#include "saved_places.h"

#include <string.h>

enum { DMFSD = 4, ID3 = 7 };

void gauges_pack(uint8_t *pack)
{
    static const uint8_t bench[GAUGE_CONFIGURATION_LENGTH] = {0x04, 0x5E, 0x77, 0x05, 0x21, 0x10, 0x00, 0x00, 0x6C, 0x15};

    memcpy(pack, bench, sizeof bench);
    switch (random_below(6)) {
    case 0:
        random_bytes(pack, GAUGE_CONFIGURATION_LENGTH);
        break;
    case 1: /* the greatest capacity and leak */
        pack[0] = 0xFF;
        pack[DMFSD] = 0x2F;
        break;
    case 2: /* a cell that ages */
        pack[ID3] = 0x03;
        break;
    case 3:
        pack[random_below(GAUGE_CONFIGURATION_LENGTH)] = (uint8_t)random_below(256);
        break;
    case 4:
        pack[0] = (uint8_t)random_below(3);
        break;
    default:
        break;
    }
}

/* Form 1 has SI in whole units. */
static void si_in_units(uint8_t *gauge)
{
    unsigned sixteenths = gauge_pair(gauge + SAVED_SI);

    gauge[SAVED_SI] = (uint8_t)(sixteenths / 16 % 256);
    gauge[SAVED_SI + 1] = (uint8_t)(sixteenths / 16 / 256);
}

size_t gauges_in_form(uint8_t *gauge, uint8_t form)
{
    enum { CYCLES_LENGTH = SAVED_PAIR_LENGTH + SAVED_GRAINS_LENGTH };

    gauge[SAVED_FORM] = form;
    if (form == 1)
        si_in_units(gauge);
    if (form == 4) /* the count has two bytes, and what stands behind it comes nearer */
        memmove(gauge + SAVED_REST_COUNT + SAVED_PAIR_LENGTH, gauge + SAVED_CYCLES, CYCLES_LENGTH);
    return gauge_form_length(form);
}

static void change_field(uint8_t *gauge)
{
    static const struct {
        uint8_t place, length;
    } fields[] = {
        {SAVED_CHARGE, SAVED_GRAINS_LENGTH},
        {SAVED_RUN_DRAIN, SAVED_GRAINS_LENGTH},
        {SAVED_SI, SAVED_PAIR_LENGTH},
        {SAVED_TEMP, SAVED_PAIR_LENGTH},
        {SAVED_FLAGS, 1},
        {SAVED_REST_COUNT, SAVED_REST_COUNT_LENGTH},
        {SAVED_CYCLES, SAVED_PAIR_LENGTH},
        {SAVED_CYCLE_DRAIN, SAVED_GRAINS_LENGTH},
    };
    uint32_t chosen = random_below(sizeof fields / sizeof fields[0]);
    uint32_t changed = 1 + random_below(fields[chosen].length);

    random_bytes(gauge + fields[chosen].place, changed);
}

void gauges_damage(uint8_t *gauge)
{
    uint32_t place = random_below(GAUGE_SAVED_LENGTH);

    switch (random_below(5)) {
    case 0:
        gauge[place] ^= (uint8_t)(1u << random_below(8));
        break;
    case 1:
        gauge[place] = (uint8_t)random_below(256);
        break;
    case 2:
        random_bytes(gauge, GAUGE_SAVED_LENGTH);
        break;
    case 3:
        random_bytes(gauge + 1, GAUGE_SAVED_LENGTH - 1);
        break;
    default:
        change_field(gauge);
        break;
    }
}
