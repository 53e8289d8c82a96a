/*
 * The battery gauge's eight calls for C (C99 and later) and C++ firmware.
 *
 * The firmware owns the gauge: 55 bytes that it keeps in RAM and copies to non-volatile memory as it likes. Every call
 * gets those bytes and keeps nothing between calls: no writable static data, no allocation. So a gauge may be copied, and two
 * gauges may be used from two threads. One gauge must not be used by two calls at once, nor by an interrupt during a call.
 *
 * Every call answers 0 (GAUGE_OK) or one number of enum gauge_refusal. A refused call changes no byte of any buffer.
 * No argument needs a test beforehand, with one exception: a pointer must be valid for the length handed in with it, also
 * where that length is wrong for the call, a pointer to a single number for that number, none may be null, and the buffers of one
 * call, such a number among them, must not overlap.
 *
 * Units: a unit of current is 3.57 uV over the sense resistor, a count of charge 3.57 uVh, a voltage is in mV, a temperature in
 * quarter kelvins, 4 * (degrees Celsius + 273): 25 degrees are 1192. 3.57 divided by the sense resistor in milliohms is the mA of a
 * unit and the mAh of a count: with 20 milliohms a unit is 0.1785 mA and a count 0.1785 mAh. Register pairs stand low byte first.
 */
#ifndef GAUGE_H
#define GAUGE_H

#include <stddef.h>
#include <stdint.h>

#ifdef __cplusplus
extern "C" {
#endif

/* The version of the calls and of this file; a new minor one adds, a new major one changes. */
#define GAUGE_VERSION "5.0.0"
#define GAUGE_VERSION_NUMBER 50000 /* 10000 * major + 100 * minor + the rest */

/* The form of the saved bytes, which is their first byte. gauge_convert also reads the older ones, from GAUGE_FORM_OLDEST on. */
#define GAUGE_FORM 5
#define GAUGE_FORM_OLDEST 1

#define GAUGE_CONFIGURATION_LENGTH 10
#define GAUGE_SAVED_LENGTH 55
#define GAUGE_REGISTERS 128

/* What a call accepts. A value outside is refused, never cut to the range. */
#define GAUGE_CURRENT_MAX 28011 /* units, and as far below 0 */
#define GAUGE_VOLTAGE_MIN 2600  /* mV */
#define GAUGE_VOLTAGE_MAX 4500
#define GAUGE_TEMPERATURE_MIN 1012 /* quarter kelvins: -20 degrees Celsius */
#define GAUGE_TEMPERATURE_MAX 1372 /* 70 degrees Celsius */
#define GAUGE_REST_MAX 506250      /* windows of 5.12 s: thirty days */

/* What gauge_estimate asks for: windows of rest, 36 minutes of them, and a voltage that its table has. */
#define GAUGE_ESTIMATE_REST_MIN 422     /* windows of rest since the last current */
#define GAUGE_ESTIMATE_VOLTAGE_MIN 3000 /* mV */
#define GAUGE_ESTIMATE_VOLTAGE_MAX 4200
#define GAUGE_ESTIMATE_VOLTAGE_STEP 4 /* from one entry of the table to the next */

/* Where the gauge's count of rest windows stops. */
#define GAUGE_REST_COUNT_MAX 4294967295u

/* Where CYCT stops. The compensation ages in steps of so many cycles. */
#define GAUGE_CYCLES_MAX 65535
#define GAUGE_CYCLES_AN_AGE_STEP 16

enum gauge_refusal {
    GAUGE_OK = 0,
    GAUGE_REFUSED_CONFIGURATION_LENGTH = 1, /* not 10 configuration bytes */
    GAUGE_REFUSED_ILMD_ZERO = 2,            /* design capacity 0 */
    GAUGE_REFUSED_CURRENT = 3,              /* outside -28011 to 28011 */
    GAUGE_REFUSED_VOLTAGE = 4,              /* outside 2600 to 4500 */
    GAUGE_REFUSED_TEMPERATURE = 5,          /* outside 1012 to 1372 */
    GAUGE_REFUSED_REST_LENGTH = 6,          /* outside 1 to 506250 */
    GAUGE_REFUSED_ADDRESS = 7,              /* not CTRL, MODE or AR */
    GAUGE_REFUSED_KEY = 8,                  /* at CTRL, neither 0xA9 nor 0x56 */
    GAUGE_REFUSED_NO_COMMAND = 9,           /* no command bit set in MODE */
    GAUGE_REFUSED_NOT_CARRIED = 10,         /* the command does not belong to this key */
    GAUGE_REFUSED_LMD_ZERO = 11,            /* WRTLMD with AR 0 */
    GAUGE_REFUSED_COUNT = 12,               /* count 0, or address + count above 128 */
    GAUGE_REFUSED_REPLY = 13,               /* place + count beyond the reply; preview: not 128 bytes; open, convert: saved not 55 */
    GAUGE_REFUSED_SAVED = 14,               /* the saved bytes are no gauge: damaged, cleared, of another length or form */
    GAUGE_REFUSED_NOT_RESTED = 15,          /* estimate: fewer than 422 rest windows since the last current, opening or reset */
    GAUGE_REFUSED_ESTIMATE_VOLTAGE = 16     /* estimate: outside 3000 to 4200, the table's range */
};

/* Register addresses, named as in the bqJUNIOR data sheet. "pair": two bytes, low byte first. Bytes not named here read 0. */
enum gauge_register {
    GAUGE_REG_CTRL = 0x00,  /* byte; reads 0 always */
    GAUGE_REG_MODE = 0x01,  /* byte */
    GAUGE_REG_AR = 0x02,    /* pair: at rate, units; with WRTNAC and WRTLMD the value, counts */
    GAUGE_REG_ARTTE = 0x04, /* pair: time to empty at AR, minutes */
    GAUGE_REG_TEMP = 0x06,  /* pair: quarter kelvins; 0 not measured yet */
    GAUGE_REG_VOLT = 0x08,  /* pair: mV; 0 not measured yet */
    GAUGE_REG_FLAGS = 0x0A, /* byte */
    GAUGE_REG_RSOC = 0x0B,  /* byte: NAC in percent of LMD */
    GAUGE_REG_NAC = 0x0C,   /* pair: charge held, counts */
    GAUGE_REG_LMD = 0x0E,   /* pair: learned capacity, counts */
    GAUGE_REG_CAC = 0x10,   /* pair: NAC compensated for load, cold and age, counts */
    GAUGE_REG_FCAC = 0x12,  /* pair: LMD compensated likewise, counts */
    GAUGE_REG_IAV = 0x14,   /* pair: amount of the counted current, units; its direction is CHGS */
    GAUGE_REG_TTE = 0x16,   /* pair: time to empty, minutes; 65535 unless discharging */
    GAUGE_REG_TTF = 0x18,   /* pair: time to full, minutes; 65535 unless charging */
    GAUGE_REG_SI = 0x1A,    /* pair: standby current, units, rounded up; the gauge keeps it in sixteenths */
    GAUGE_REG_STTE = 0x1C,  /* pair: time to empty at SI, minutes */
    GAUGE_REG_CEDV = 0x20,  /* pair: first end-of-discharge voltage, mV */
    GAUGE_REG_CYCT = 0x2A,  /* pair: cycles, one for each LMD of counts discharged since opening or FRST; stops at 65535 */
    GAUGE_REG_ILMD = 0x76,  /* the ten configuration bytes, 0x76 to 0x7F */
    GAUGE_REG_SEDVF = 0x77,
    GAUGE_REG_SEDV1 = 0x78,
    GAUGE_REG_ISLC = 0x79,
    GAUGE_REG_DMFSD = 0x7A,
    GAUGE_REG_TAPER = 0x7B,
    GAUGE_REG_PKCFG = 0x7C,
    GAUGE_REG_ID3 = 0x7D, /* its two low bits are GAF, the gain age factor */
    GAUGE_REG_DCOMP = 0x7E,
    GAUGE_REG_TCOMP = 0x7F
};

/* GAF in ID3: how fast the compensation grows with the cycles, 0 not at all. */
#define GAUGE_ID3_GAF 0x03

/* Bits of FLAGS. */
enum gauge_flag {
    GAUGE_FLAG_CHGS = 0x80, /* charging */
    GAUGE_FLAG_CI = 0x10,   /* capacity inaccurate: no run has taught LMD since opening or FRST */
    GAUGE_FLAG_VDQ = 0x04,  /* a discharge from full is under way that may teach LMD */
    GAUGE_FLAG_EDV1 = 0x02, /* discharged to CEDV or below */
    GAUGE_FLAG_EDVF = 0x01  /* discharged to the final voltage: empty */
};

/* Command bits of MODE. The highest one set is obeyed when its key is written to CTRL; the other three bits are no commands. */
enum gauge_command {
    GAUGE_MODE_WRTNAC = 0x20,      /* NAC = the smaller of AR and LMD */
    GAUGE_MODE_DONE = 0x10,        /* full, the charger says so */
    GAUGE_MODE_PRST = 0x08,        /* as opened, but charge, LMD, CI and cycles are kept */
    GAUGE_MODE_FRST = 0x02,        /* as opened */
    GAUGE_MODE_WRTLMD = 0x01,      /* LMD = AR */
    GAUGE_MODE_COMMAND_BITS = 0x3B /* the five together */
};

/* The key of each command, to be written to CTRL. */
enum gauge_key {
    GAUGE_KEY_WRTNAC = 0xA9,
    GAUGE_KEY_DONE = 0xA9,
    GAUGE_KEY_PRST = 0xA9,
    GAUGE_KEY_FRST = 0xA9,
    GAUGE_KEY_WRTLMD = 0x56
};

/* The command that gauge_preview says a key would obey. */
enum gauge_command_number {
    GAUGE_COMMAND_WRTNAC = 1,
    GAUGE_COMMAND_DONE = 2,
    GAUGE_COMMAND_PRST = 3,
    GAUGE_COMMAND_FRST = 4,
    GAUGE_COMMAND_WRTLMD = 5
};

/*
 * Makes a new gauge from the ten configuration bytes (order 0x76 to 0x7F): empty, LMD = 256 * ILMD, CI set, nothing measured.
 * Success fills the 55 bytes at saved; what stood there does not matter.
 * Refuses, in this order: 1, 2, 13.
 */
uint32_t gauge_open(const uint8_t *configuration, size_t configuration_length, uint8_t *saved, size_t saved_length);

/*
 * Brings bytes that an older version of the gauge saved over to GAUGE_FORM: charge, capacity, run, MODE, AR and all else as they
 * were, and 0 for what the older form does not have: the count of rest windows before form 3, the cycles before form 4. For a handset
 * whose firmware is updated while a gauge is in its memory: every other call answers 14 to an older form.
 * Bytes that already are of GAUGE_FORM come out the same. old is only read; success fills the 55 bytes at saved.
 * Refuses, in this order: 14 (of the bytes at old), 13.
 */
uint32_t gauge_convert(const uint8_t *old, size_t old_length, uint8_t *saved, size_t saved_length);

/*
 * One window of 5.12 s. current is the window's average in units, positive charging; voltage in mV; temperature in quarter
 * kelvins. A current of at most DMF units either way counts as 0. What is discharged, below empty too, counts towards CYCT: one
 * cycle for each whole LMD of it, the LMD before this window. Success leaves the gauge after the window in saved.
 * Refuses, in this order: 14, 3, 4, 5.
 */
uint32_t gauge_window(uint8_t *saved, size_t saved_length, int32_t current, int32_t voltage, int32_t temperature);

/*
 * Windows without current that were not measured one by one, 1 to 506250 of them, all at one temperature: the handset
 * was off. Takes the cell's own leak; VOLT keeps its last value. Success leaves the gauge after the rest in saved, the same as after
 * as many rests of 1 at that temperature.
 * Refuses, in this order: 14, 6, 5.
 */
uint32_t gauge_rest(uint8_t *saved, size_t saved_length, uint32_t windows, int32_t temperature);

/*
 * The host writes one byte: MODE (0x01), AR (0x02 low, 0x03 high) or a key to CTRL (0x00). A command is: write AR where it needs
 * one, write MODE with its bit for the command bits and the others as they were read, write its key to CTRL. A command carried out
 * clears the command bits of MODE; a refused key leaves them. Success leaves the gauge after the write in saved.
 * Refuses, in this order: 14, 7, 8, 9, 10, 11.
 */
uint32_t gauge_write(uint8_t *saved, size_t saved_length, uint32_t address, uint8_t value);

/*
 * Copies count registers from address on to reply[place] and following. The other bytes of reply keep, and saved is only read.
 * A pair may be read in one call or by its bytes: both show the same gauge as long as no other call comes between.
 * Refuses, in this order: 14, 12, 13.
 */
uint32_t gauge_read(const uint8_t *saved, size_t saved_length, uint32_t address, uint32_t count, uint8_t *reply,
                    size_t reply_length, uint32_t place);

/*
 * What a key at CTRL would do, without doing it: the command that it would obey goes to *command, a number of enum
 * gauge_command_number, and all 128 registers as they would read after it go to reply: MODE with its command bits cleared, CTRL 0.
 * MODE and AR are written beforehand, as for the command itself. saved is only read; gauge_write of the same key to CTRL then answers
 * the same number and leaves these registers. After a refusal *command keeps its value too.
 * Refuses, in this order: 14, 8, 9, 10, 11, 13 (of a reply that is not 128 bytes).
 */
uint32_t gauge_preview(const uint8_t *saved, size_t saved_length, uint8_t key, uint8_t *reply, size_t reply_length,
                       uint8_t *command);

/*
 * The charge of a cell that has rested, by its voltage in mV as it is measured now, without load: goes to *estimate in counts, and how
 * far it is from the NAC of now, *estimate - NAC, from -65535 to 65535, to *distance. It is *estimate = permille * LMD / 1000 rounded
 * down, with the permille of a table: 301 entries from 3000 to 4200 in steps of 4, a voltage between two of them taking the lower. The
 * gauge counts the windows of gauge_rest since the last window whose current counted, since opening or a reset, and asks for 422 of
 * them. saved is only read: no charge moves and VOLT keeps its value. To set the charge by it, write the estimate to AR and obey WRTNAC.
 * After a refusal *estimate and *distance keep their values.
 * Refuses, in this order: 14, 15, 16.
 */
uint32_t gauge_estimate(const uint8_t *saved, size_t saved_length, int32_t voltage, uint16_t *estimate, int32_t *distance);

/* The bytes of a gauge saved in a form, which gauge_convert asks of old_length; 0 for a number that is no form of this version. */
static inline size_t gauge_form_length(uint8_t form)
{
    switch (form) {
    case 1:
    case 2:
        return 41;
    case 3:
        return 43;
    case 4:
        return 53;
    case 5:
        return 55;
    default:
        return 0;
    }
}

/* The number in a pair of registers, whose low byte is at low. */
static inline unsigned gauge_pair(const uint8_t *low)
{
    return low[0] + 256u * low[1];
}

/* The name of a command that gauge_preview handed out, as in the bqJUNIOR data sheet. */
static inline const char *gauge_command_name(uint8_t command)
{
    switch (command) {
    case GAUGE_COMMAND_WRTNAC:
        return "WRTNAC";
    case GAUGE_COMMAND_DONE:
        return "DONE";
    case GAUGE_COMMAND_PRST:
        return "PRST";
    case GAUGE_COMMAND_FRST:
        return "FRST";
    case GAUGE_COMMAND_WRTLMD:
        return "WRTLMD";
    default:
        return "no command";
    }
}

/* What a call's number means, in a few words. */
static inline const char *gauge_refusal_text(uint32_t number)
{
    switch (number) {
    case GAUGE_OK:
        return "done";
    case GAUGE_REFUSED_CONFIGURATION_LENGTH:
        return "configuration of another length";
    case GAUGE_REFUSED_ILMD_ZERO:
        return "design capacity 0";
    case GAUGE_REFUSED_CURRENT:
        return "current out of range";
    case GAUGE_REFUSED_VOLTAGE:
        return "voltage out of range";
    case GAUGE_REFUSED_TEMPERATURE:
        return "temperature out of range";
    case GAUGE_REFUSED_REST_LENGTH:
        return "rest length out of range";
    case GAUGE_REFUSED_ADDRESS:
        return "address not writable";
    case GAUGE_REFUSED_KEY:
        return "no key of a command";
    case GAUGE_REFUSED_NO_COMMAND:
        return "no command bit in MODE";
    case GAUGE_REFUSED_NOT_CARRIED:
        return "command not carried by this key";
    case GAUGE_REFUSED_LMD_ZERO:
        return "WRTLMD with AR 0";
    case GAUGE_REFUSED_COUNT:
        return "count 0, or registers past the last one";
    case GAUGE_REFUSED_REPLY:
        return "reply or save buffer of the wrong length";
    case GAUGE_REFUSED_SAVED:
        return "saved bytes are no gauge";
    case GAUGE_REFUSED_NOT_RESTED:
        return "too few rest windows for an estimate";
    case GAUGE_REFUSED_ESTIMATE_VOLTAGE:
        return "voltage outside the table";
    default:
        return "no number of this gauge";
    }
}

#ifdef __cplusplus
}
#endif

#endif
