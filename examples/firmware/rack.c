/*
 * A handset from the swap rack. It was given another cell there, and its gauge still has the charge of the cell before. Cell and handset rest,
 * the voltage without load is measured, and gauge_estimate says what charge a cell of that voltage holds. Where that is far from NAC, the handset
 * sets itself: the estimate to AR, then WRTNAC. It asks before the first window of work, after which the gauge wants another rest.
 */
#include "bench_pack.h"
#include "estimate.h"
#include "firmware.h"

#include <stdlib.h>

enum { RACK_TEMPERATURE = 1172, OWN_DRAIN = -2 /* within DMF, so it is not counted */ };

static void rest(uint32_t count)
{
    must("gauge_rest", gauge_rest(saved, sizeof saved, count, RACK_TEMPERATURE));
}

static void into_the_rack(void)
{
    must("gauge_open", gauge_open(bench_pack, sizeof bench_pack, saved, sizeof saved));
    windows(1, 20, 4150, 1192);
    windows(100, -2800, 3650, 1200);
    write_at_rate(1000);
    show("into the rack");
}

static void another_cell(void)
{
    rest(GAUGE_ESTIMATE_REST_MIN - 1);
    show("421 windows of rest");
    start_at(3715);
    rest(1);
    show("422 windows of rest");
    start_at(3715);
    start_at(3715);
}

/* Later in the day, with the cell that it has now. A window whose current is not counted keeps the windows of rest before it. */
static void same_cell(void)
{
    windows(20, -2800, 3600, 1200);
    show("on the way");
    start_at(3652);
    rest(GAUGE_ESTIMATE_REST_MIN - 1);
    windows(1, OWN_DRAIN, 3668, RACK_TEMPERATURE);
    rest(1);
    show("rested again");
    start_at(3668);
}

/* On a charger, or of a cell that is discharged too far: no voltage of a cell at rest that the table has. */
static void outside_the_table(void)
{
    start_at(GAUGE_ESTIMATE_VOLTAGE_MAX + 1);
    start_at(GAUGE_ESTIMATE_VOLTAGE_MIN - 1);
}

int main(void)
{
    shown_heading();
    into_the_rack();
    another_cell();
    same_cell();
    outside_the_table();
    windows(1, -3000, 3700, 1200);
    show("on the way again");
    return EXIT_SUCCESS;
}
