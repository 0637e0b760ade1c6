/* Checks of the bytes of a gate that are no number's. A call in place leaves the four between its settings and
 * its registers as they were, done or refused; the four behind its quiet count stay where it is refused. */
#include "stage.h"

enum { FROM = sizeof(hoofglaze_gate_settings), PADDING = offsetof(hoofglaze_gate, registers) - FROM };
enum { QUIET = offsetof(hoofglaze_gate, registers) + offsetof(hoofglaze_gate_registers, quiet) };
enum { BEHIND = QUIET + sizeof(uint32_t) };

/* A gate where it lies, and its bytes. */
static union {
    hoofglaze_gate gate;
    uint8_t bytes[sizeof(hoofglaze_gate)];
} lying;

/* What is between before each call; behind the count it is turned round. */
static const uint8_t *said;

static void put_padding(void)
{
    for (int i = 0; i < PADDING; i++) {
        lying.bytes[FROM + i] = said[i];
        lying.bytes[BEHIND + i] = (uint8_t)~said[i];
    }
}

static void check_between(const char *call, uint32_t number)
{
    for (int i = 0; i < PADDING; i++) {
        check(call, lying.bytes[FROM + i], said[i], number, FROM + i, 0);
        if (number != 0)
            check(call, lying.bytes[BEHIND + i], (uint8_t)~said[i], number, BEHIND + i, 0);
    }
    put_padding();
}

static void check_padding(const char *call, hoofglaze_answer a, uint32_t number)
{
    check_answer(call, a, number, 0, 0, 0);
    check_between(call, number);
}

static void hold_set(void)
{
    static const uint8_t hold[] = "hold";
    check_hold_answer("gate_set_in_place", hoofglaze_gate_set_in_place(&lying.gate, hold, 4, 30, 0),
                      (hoofglaze_truncation){1440, HOOFGLAZE_EXACT});
    check_between("gate_set_in_place", 0);
    check_hold_answer("gate_set_in_place", hoofglaze_gate_set_in_place(&lying.gate, hold, 4, 31, 0),
                      (hoofglaze_truncation){1488, HOOFGLAZE_CUT});
    check_between("gate_set_in_place", 0);
    check_padding("gate_set_in_place", hoofglaze_gate_set_in_place(&lying.gate, hold, 4, 501, 0), 3);
}

static void blocks(void)
{
    hoofglaze_answer a = hoofglaze_gate_block_in_place(&lying.gate, input, 64, output, 64);
    check_block_answer("gate_block_in_place", a, a.count, lying.gate.registers.quiet);
    check_between("gate_block_in_place", 0);
    a = hoofglaze_gate_block_in_place(&lying.gate, input, 0, output, 0);
    check_block_answer("gate_block_in_place", a, 0, lying.gate.registers.quiet);
    check_between("gate_block_in_place", 0);
    check_padding("gate_block_in_place", hoofglaze_gate_block_in_place(&lying.gate, input, 64, output, 63), 7);
}

/* A gate that 9 refuses is as it was, bytes between its numbers too. */
static void refused_by_9(void)
{
    float level = lying.gate.registers.level;
    lying.gate.registers.level = -1;
    check_padding("gate_block_in_place", hoofglaze_gate_block_in_place(&lying.gate, input, 64, output, 64), 9);
    check_padding("gate_reset_in_place", hoofglaze_gate_reset_in_place(&lying.gate), 9);
    lying.gate.registers.level = level;
}

static void each_call(void)
{
    static const uint8_t ratio[] = "ratio";
    put_padding();
    hold_set();
    check_padding("gate_set_in_place", hoofglaze_gate_set_in_place(&lying.gate, ratio, 5, 3, 0), 0);
    check_padding("gate_set_in_place", hoofglaze_gate_set_in_place(&lying.gate, ratio, 5, 0, 0), 3);
    check_padding("gate_set_in_place", hoofglaze_gate_set_in_place(&lying.gate, ratio, 4, 3, 0), 1);
    blocks();
    refused_by_9();
    check_padding("gate_reset_in_place", hoofglaze_gate_reset_in_place(&lying.gate), 0);
}

void padding_checks(void)
{
    static const uint8_t patterns[][PADDING] = {{0}, {0xff, 0xff, 0xff, 0xff}, {0x5a, 0xa5, 1, 0xfe}};
    group("gate: a call in place leaves the bytes between settings and registers, a refused one all bytes");
    check("padding", PADDING, 4, FROM, 0, 0);
    check("padding", sizeof(hoofglaze_gate) - BEHIND, 4, BEHIND, 0, 0);
    quiet_input();
    lying.gate = hoofglaze_gate_make(48000, 0.5f, 0.5f).gate;
    for (int i = 0; i < COUNT(patterns); i++) {
        said = patterns[i];
        each_call();
    }
}
