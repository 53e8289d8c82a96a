/* What the six example programs share: the gauge's bytes, calls that have to succeed, commands of the host, and registers shown. */
#ifndef FIRMWARE_H
#define FIRMWARE_H

#include "gauge.h"

/* The gauge itself. On a handset these bytes lie in RAM that is copied to flash or battery-backed memory. */
extern uint8_t saved[GAUGE_SAVED_LENGTH];

/* For calls whose arguments the program itself chose: a refusal is then a mistake in the program, and ends it. */
void must(const char *call, uint32_t number);

void windows(unsigned count, int32_t current, int32_t voltage, int32_t temperature);

uint8_t mode(void);

/* Writes MODE with this command bit, or with none for 0. The bits that are no commands are kept. */
void choose_command(uint8_t bit);

/* A command of the host: its bit to MODE, then its key to CTRL. Answers the number of the key's write. */
uint32_t command(uint8_t bit, uint8_t key);

unsigned at_rate(void);
void write_at_rate(unsigned value);

/* CYCT. */
unsigned cycles(void);

/* The registers that the programs show. */
struct shown {
    unsigned nac, lmd, rsoc, flags, cac, tte, si, stte;
};

/* Of register bytes that begin with FLAGS. */
struct shown shown_of(const uint8_t *flags);

struct shown shown_read(void);
void shown_heading(void);
void shown_print(const char *moment, const struct shown *shown);

/* Reads and prints them. */
void show(const char *moment);

/* Prints whether the gauge is as it was. */
void show_gauge(const char *moment, const uint8_t *before);

/* Prints a call's number and whether the bytes it was given are as they were before it. */
void show_refusal(const char *call, uint32_t number, const uint8_t *gauge, const uint8_t *before);

#endif
