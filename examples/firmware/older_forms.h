/* A gauge in each older form of the saved bytes, as the version that had this form kept it. For programs that try gauge_convert. */
#ifndef OLDER_FORMS_H
#define OLDER_FORMS_H

#include <stdint.h>

/*
 * Form 1: what version 1.0.0 kept of the bench pack in the middle of a drive, after these calls:
 *   gauge_open;
 *   1 window of 20, 4150, 1192: full by taper, so a run begins;
 *   100 windows of -2800, 3650, 1200;
 *   AR written by the host: 1000;
 *   40 windows of -5, 3800, 1196: standby, which brings SI from 10 to 5;
 *   20 windows of -2800, 3650, 1200.
 */
static const uint8_t kept_form_1[] = {
    0x01,                                                       /* form */
    0x04, 0x5E, 0x77, 0x05, 0x21, 0x10, 0x00, 0x00, 0x6C, 0x15, /* configuration */
    0x48, 0x7D, 0x2F, 0x28, 0x11, 0x00, 0x00, 0x00,             /* charge, grains: NAC 545 */
    0xB8, 0x82, 0x8F, 0x07, 0x0F, 0x00, 0x00, 0x00,             /* drain of the run, grains */
    0x00, 0x04,                                                 /* LMD 1024 */
    0x05, 0x00,                                                 /* SI 5, in whole units */
    0x10, 0xF5,                                                 /* current -2800 */
    0x42, 0x0E,                                                 /* VOLT 3650 */
    0xB0, 0x04,                                                 /* TEMP 1200 */
    0xE8, 0x03,                                                 /* AR 1000 */
    0x40,                                                       /* MODE */
    0x14,                                                       /* FLAGS: CI, VDQ */
};

/*
 * Form 2: what version 2.1.1 kept of the bench pack in a break of a drive, after these calls:
 *   gauge_open;
 *   1 window of 20, 4150, 1192: full by taper, so a run begins;
 *   100 windows of -2800, 3650, 1200;
 *   AR written by the host: 1000;
 *   15 windows of -5, 3800, 1196: standby, which brings SI to between 6 and 7;
 *   20 windows of -2800, 3650, 1200;
 *   a rest of 703, 1180: an hour, whose windows version 2.1.1 did not count.
 */
static const uint8_t kept_form_2[] = {
    0x02,                                                       /* form */
    0x04, 0x5E, 0x77, 0x05, 0x21, 0x10, 0x00, 0x00, 0x6C, 0x15, /* configuration */
    0xB8, 0xC2, 0x70, 0x29, 0x11, 0x00, 0x00, 0x00,             /* charge, grains: NAC 545 */
    0x48, 0x3D, 0x4E, 0x06, 0x0F, 0x00, 0x00, 0x00,             /* drain of the run, grains */
    0x00, 0x04,                                                 /* LMD 1024 */
    0x6A, 0x00,                                                 /* SI 106, in sixteenths */
    0x00, 0x00,                                                 /* current 0 */
    0x42, 0x0E,                                                 /* VOLT 3650 */
    0x9C, 0x04,                                                 /* TEMP 1180 */
    0xE8, 0x03,                                                 /* AR 1000 */
    0x40,                                                       /* MODE */
    0x14,                                                       /* FLAGS: CI, VDQ */
};

/*
 * Form 3: what version 3.0.0 kept of the bench pack after the calls of form 2. It counted the windows of the rest, which are enough for an estimate.
 */
static const uint8_t kept_form_3[43] = {
    0x03,                                                       /* form */
    0x04, 0x5E, 0x77, 0x05, 0x21, 0x10, 0x00, 0x00, 0x6C, 0x15, /* configuration */
    0xB8, 0xC2, 0x70, 0x29, 0x11, 0x00, 0x00, 0x00,             /* charge, grains: NAC 545 */
    0x48, 0x3D, 0x4E, 0x06, 0x0F, 0x00, 0x00, 0x00,             /* drain of the run, grains */
    0x00, 0x04,                                                 /* LMD 1024 */
    0x6A, 0x00,                                                 /* SI 106, in sixteenths */
    0x00, 0x00,                                                 /* current 0 */
    0x42, 0x0E,                                                 /* VOLT 3650 */
    0x9C, 0x04,                                                 /* TEMP 1180 */
    0xE8, 0x03,                                                 /* AR 1000 */
    0x40,                                                       /* MODE */
    0x14,                                                       /* FLAGS: CI, VDQ */
    0xBF, 0x02,                                                 /* windows of rest: 703 */
};

/*
 * Form 4: what version 4.0.0 kept of the bench pack on the shelf, after these calls:
 *   gauge_open;
 *   a season, 300 times: 1 window of 20, 4150, 1192, which is full by taper; 230 windows of -2800, 3650, 1200;
 *   the calls of form 2 between its opening and its rest;
 *   5 rests of 16875, 1140: five days. A day was the most that a rest of version 4.0.0 could have, and its count of their windows stopped at 65535.
 */
static const uint8_t kept_form_4[53] = {
    0x04,                                                       /* form */
    0x04, 0x5E, 0x77, 0x05, 0x21, 0x10, 0x00, 0x00, 0x6C, 0x15, /* configuration */
    0xC8, 0x28, 0xAA, 0x1E, 0x11, 0x00, 0x00, 0x00,             /* charge, grains: NAC 544 */
    0x38, 0xD7, 0x14, 0x11, 0x0F, 0x00, 0x00, 0x00,             /* drain of the run, grains */
    0x00, 0x04,                                                 /* LMD 1024 */
    0x6A, 0x00,                                                 /* SI 106, in sixteenths */
    0x00, 0x00,                                                 /* current 0 */
    0x42, 0x0E,                                                 /* VOLT 3650 */
    0x74, 0x04,                                                 /* TEMP 1140 */
    0xE8, 0x03,                                                 /* AR 1000 */
    0x40,                                                       /* MODE */
    0x14,                                                       /* FLAGS: CI, VDQ */
    0xFF, 0xFF,                                                 /* windows of rest: 65535 */
    0x0C, 0x01,                                                 /* CYCT 268 */
    0x00, 0xBA, 0xA7, 0xC0, 0x19, 0x00, 0x00, 0x00,             /* drain of the cycle, grains */
};

#endif
