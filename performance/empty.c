/* The eight calls with nothing in them: what a run with these takes is the caller's loop and arguments, and the two instructions of
 * each function here. */
#include "gauge.h"

uint32_t gauge_open(const uint8_t *configuration, size_t configuration_length, uint8_t *saved, size_t saved_length)
{
    (void)configuration, (void)configuration_length, (void)saved, (void)saved_length;
    return GAUGE_OK;
}

uint32_t gauge_convert(const uint8_t *old, size_t old_length, uint8_t *saved, size_t saved_length)
{
    (void)old, (void)old_length, (void)saved, (void)saved_length;
    return GAUGE_OK;
}

uint32_t gauge_window(uint8_t *saved, size_t saved_length, int32_t current, int32_t voltage, int32_t temperature)
{
    (void)saved, (void)saved_length, (void)current, (void)voltage, (void)temperature;
    return GAUGE_OK;
}

uint32_t gauge_rest(uint8_t *saved, size_t saved_length, uint32_t windows, int32_t temperature)
{
    (void)saved, (void)saved_length, (void)windows, (void)temperature;
    return GAUGE_OK;
}

uint32_t gauge_write(uint8_t *saved, size_t saved_length, uint32_t address, uint8_t value)
{
    (void)saved, (void)saved_length, (void)address, (void)value;
    return GAUGE_OK;
}

uint32_t gauge_read(const uint8_t *saved, size_t saved_length, uint32_t address, uint32_t count, uint8_t *reply, size_t reply_length,
                    uint32_t place)
{
    (void)saved, (void)saved_length, (void)address, (void)count, (void)reply, (void)reply_length, (void)place;
    return GAUGE_OK;
}

uint32_t gauge_preview(const uint8_t *saved, size_t saved_length, uint8_t key, uint8_t *reply, size_t reply_length, uint8_t *command)
{
    (void)saved, (void)saved_length, (void)key, (void)reply, (void)reply_length, (void)command;
    return GAUGE_OK;
}

uint32_t gauge_estimate(const uint8_t *saved, size_t saved_length, int32_t voltage, uint16_t *estimate, int32_t *distance)
{
    (void)saved, (void)saved_length, (void)voltage, (void)estimate, (void)distance;
    return GAUGE_OK;
}
