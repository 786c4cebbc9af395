/* Case A of document 01 through the C header: checked, compiled, run, run at two points, evaluated and refused, and in
   version 2 as document 02 has it; and a router's list for it, judged. */
#include <stdio.h>
#include <string.h>

#include "quetlapin.h"

static const uint8_t table[30] = {
    0x49, 0x46, 0x47, 0x01, 0x00, 0x01, 0x1E, 0x00, 0x01, 0x00, 0x02, 0x01, 0x01, 0x00, 0x01,
    0x01, 0x01, 0x01, 0x00, 0x00, 0x01, 0x00, 0x03, 0x01, 0x00, 0x00, 0x00, 0x00, 0x00, 0x01};

static const uint8_t expected_code[20] = {0x49, 0x46, 0x52, 0x01, 0x00, 0x02, 0x01,
                                          0x00, 0x01, 0x00, 0x03, 0x00, 0x03, 0x01,
                                          0x00, 0x00, 0x01, 0x00, 0x02, 0x00};

static const uint8_t expected_code_2[22] = {0x49, 0x46, 0x52, 0x02, 0x00, 0x02, 0x01, 0x00,
                                            0x01, 0x00, 0x03, 0x00, 0x03, 0x01, 0x02, 0x00,
                                            0x00, 0x00, 0x01, 0x00, 0x02, 0x00};

/* The product on the second factor's word. */
static const uint8_t routed[22] = {0x49, 0x46, 0x52, 0x02, 0x00, 0x02, 0x01, 0x00,
                                   0x01, 0x00, 0x02, 0x00, 0x03, 0x01, 0x01, 0x00,
                                   0x00, 0x00, 0x01, 0x00, 0x01, 0x00};

static int failures = 0;

static void expect(const char *what, int holds)
{
    if (!holds) {
        printf("C program: %s\n", what);
        failures++;
    }
}

static uint64_t word(double value)
{
    uint64_t bits;
    memcpy(&bits, &value, sizeof bits);
    return bits;
}

int main(void)
{
    const uint64_t arguments[2] = {word(3.0), word(0.5)};
    const uint64_t too_large[2] = {word(3.0), 0x7FF0000000000000u};
    const uint64_t two_points[4] = {word(3.0), word(0.5), word(-2.0), word(4.0)};
    uint16_t numbers[2] = {0, 1};
    uint8_t code[24];
    uint64_t work[4], out[3], answer;
    size_t i;

    expect("check accepts one function", ifg_check(table, sizeof table) == 1);
    answer = ifg_check(table, 29);
    expect("a cut table is refused with 4 at 6", IFG_NUMBER(answer) == 4 && IFG_PLACE(answer) == 6);

    memset(code, 0xA5, sizeof code);
    answer = ifg_compile(table, sizeof table, 1, code, 19);
    expect("a short code buffer is refused with 17", IFG_NUMBER(answer) == 17);
    for (i = 0; i < sizeof code; i++)
        expect("a refusal leaves the code buffer", code[i] == 0xA5);
    expect("compile answers 20", ifg_compile(table, sizeof table, 1, code, sizeof code) == 20);
    expect("the code is case A's", memcmp(code, expected_code, sizeof expected_code) == 0);
    for (i = sizeof expected_code; i < sizeof code; i++)
        expect("bytes behind the code are unchanged", code[i] == 0xA5);

    for (i = 0; i < 4; i++)
        work[i] = 7;
    out[0] = out[1] = 7;
    answer = ifr_run(code, 20, too_large, 2, work, 4, out, 2);
    expect("an infinite argument is refused with 20", IFG_NUMBER(answer) == 20);
    expect("a refusal leaves the output buffer", out[0] == 7 && work[0] == 7);
    expect("run answers 1", ifr_run(code, 20, arguments, 2, work, 4, out, 2) == 1);
    expect("3 times 0.5 is 1.5", out[0] == word(1.5) && out[1] == 7);
    expect("the work buffer holds the list's words", work[2] == word(1.5) && work[3] == 7);

    for (i = 0; i < 4; i++)
        work[i] = 7;
    out[0] = out[1] = out[2] = 7;
    answer = ifr_run_points(code, 20, 1025, two_points, 4, work, 4, out, 3);
    expect("1,025 points are refused with 22", IFG_NUMBER(answer) == 22 && IFG_PLACE(answer) == 0);
    expect("a refusal of points leaves the work buffer",
           work[0] == 7 && work[1] == 7 && work[2] == 7 && work[3] == 7);
    expect("a refusal of points leaves the output buffer", out[0] == 7 && out[1] == 7 && out[2] == 7);
    expect("no points answer 0", ifr_run_points(code, 20, 0, NULL, 0, work, 4, NULL, 0) == 0);
    expect("no points leave the work buffer", work[0] == 7 && work[2] == 7);
    expect("two points answer 2", ifr_run_points(code, 20, 2, two_points, 4, work, 4, out, 3) == 2);
    expect("two points give 1.5 and -8", out[0] == word(1.5) && out[1] == word(-8.0) && out[2] == 7);
    expect("the work buffer holds the last point's words",
           work[0] == word(-2.0) && work[1] == word(4.0) && work[2] == word(-8.0) && work[3] == 7);

    memset(code, 0xA5, sizeof code);
    out[0] = 7;
    expect("evaluate answers 1",
           ifg_evaluate(table, sizeof table, 1, arguments, 2, code, sizeof code, work, 4, out, 2) == 1);
    expect("evaluate gives 1.5", out[0] == word(1.5));

    memset(code, 0xA5, sizeof code);
    answer = ifg_compile_version(table, sizeof table, 1, 3, code, sizeof code);
    expect("version 3 is refused with 31", IFG_NUMBER(answer) == 31 && IFG_PLACE(answer) == 0);
    answer = ifg_compile_version(table, sizeof table, 2, 3, code, sizeof code);
    expect("14 comes before 31", IFG_NUMBER(answer) == 14);
    answer = ifg_compile_version(table, sizeof table, 1, 2, code, 21);
    expect("a short code buffer is refused with 17 in version 2", IFG_NUMBER(answer) == 17);
    for (i = 0; i < sizeof code; i++)
        expect("a refusal by version leaves the code buffer", code[i] == 0xA5);
    answer = ifg_compile_version(table, sizeof table, 1, 2, code, sizeof code);
    expect("compile answers 22 in version 2", answer == 22);
    expect("the code is case A's in version 2", memcmp(code, expected_code_2, sizeof expected_code_2) == 0);
    for (i = sizeof expected_code_2; i < sizeof code; i++)
        expect("bytes behind version 2's code are unchanged", code[i] == 0xA5);
    out[0] = work[3] = 7;
    expect("run answers 1 in version 2", ifr_run(code, 22, arguments, 2, work, 4, out, 2) == 1);
    expect("3 times 0.5 is 1.5 in version 2", out[0] == word(1.5) && work[2] == word(1.5) && work[3] == 7);
    expect("two points answer 2 in version 2", ifr_run_points(code, 22, 2, two_points, 4, work, 4, out, 3) == 2);
    expect("two points give 1.5 and -8 in version 2", out[0] == word(1.5) && out[1] == word(-8.0));
    out[0] = 7;
    answer = ifg_evaluate_version(table, sizeof table, 1, 2, arguments, 2, code, 22, work, 3, out, 1);
    expect("evaluate answers 1 in version 2", answer == 1 && out[0] == word(1.5));

    memcpy(code, expected_code_2, sizeof expected_code_2);
    answer = ifg_judge_placement(table, sizeof table, 1, code, 22, numbers, 1);
    expect("the compiler's own list is accepted", answer == 1);
    answer = ifg_judge_placement(table, sizeof table, 1, routed, sizeof routed, numbers, 1);
    expect("the product on a factor's word is accepted", answer == 1);
    out[0] = 7;
    expect("the accepted list gives 1.5",
           ifr_run(routed, sizeof routed, arguments, 2, work, 2, out, 1) == 1 && out[0] == word(1.5));
    code[16] = 1;
    code[18] = 0;
    answer = ifg_judge_placement(table, sizeof table, 1, code, 22, numbers, 1);
    expect("exchanged factors are refused with 29 at 0", IFG_NUMBER(answer) == 29 && IFG_PLACE(answer) == 0);
    code[16] = 0;
    code[18] = 1;
    code[20] = 0;
    answer = ifg_judge_placement(table, sizeof table, 1, code, 22, numbers, 1);
    expect("a wrong output is refused with 29 at 1", IFG_NUMBER(answer) == 29 && IFG_PLACE(answer) == 1);
    answer = ifg_judge_placement(table, sizeof table, 1, code, 22, numbers, 2);
    expect("two numbers are refused with 33, before 29", IFG_NUMBER(answer) == 33 && IFG_PLACE(answer) == 0);
    answer = ifg_judge_placement(table, sizeof table, 1, code, 22, NULL, 0);
    expect("no numbers are refused with 33", IFG_NUMBER(answer) == 33 && IFG_PLACE(answer) == 0);
    answer = ifg_judge_placement(table, sizeof table, 1, expected_code, sizeof expected_code, numbers, 1);
    expect("a version 1 list is refused with 18", IFG_NUMBER(answer) == 18);
    expect("numbers and code are as they were",
           numbers[0] == 0 && numbers[1] == 1 && code[20] == 0 && code[21] == 0);
    if (failures == 0)
        printf("C program: case A as documents 01 and 02 have it\n");
    return failures != 0;
}
