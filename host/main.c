/* The host program: every check, a line for each group, and the count of those that failed. Its argument
 * is the recording that the mission's case runs on. */
#include "checks.h"

/* One file has the checks of each part of the library. */
void float_checks(void);
void truncation_checks(void);
void common_checks(void);
void gate_checks(void);
void clipper_checks(void);
void eq_checks(void);
void tonestack_checks(void);
void saturator_checks(void);
void wave_checks(void);
void write_checks(void);
void root_checks(void);
void leveller_checks(void);
void record_checks(void);
void quiet_checks(void);
void quiet_run_checks(void);
void load_checks(void);
void hold_checks(void);
void cut_checks(void);
void head_checks(void);
void layout_checks(void);
void padding_checks(void);
void empty_checks(void);
void path_checks(void);
void stack_checks(void);
void mission_checks(const char *recording);

int main(int count, char **words)
{
    float_checks();
    common_checks();
    gate_checks();
    clipper_checks();
    eq_checks();
    tonestack_checks();
    saturator_checks();
    wave_checks();
    write_checks();
    root_checks();
    leveller_checks();
    record_checks();
    quiet_checks();
    quiet_run_checks();
    load_checks();
    hold_checks();
    head_checks();
    layout_checks();
    padding_checks();
    empty_checks();
    path_checks();
    stack_checks();
    truncation_checks();
    cut_checks();
    mission_checks(count > 1 ? words[1] : "");
    return !all_passed();
}
