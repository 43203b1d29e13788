/* How deep the stack goes in a run of each sheet named, with everyone present and with party 1 absent, in the forecast of its header and script, in
 * turning it to its column form and back, in party 2's replay of the second run, in each small entry, and in an import: a call is made on a stack that
 * was filled with one byte, and the lowest byte that changed tells. Two fillings, so that a byte that happens to be the filling is seen. Exits with 1 if
 * a call goes deeper than JUNDRETHOL_STACK, or the replay than JUNDRETHOL_REPLAY_STACK, answers another number than it must, or a sheet cannot be read. */
#define _GNU_SOURCE
#include <stdio.h>
#include <string.h>
#include <ucontext.h>

#include "jundrethol.h"

static _Alignas(16) unsigned char stack[8 * JUNDRETHOL_STACK];
static ucontext_t here, there;

/* Set by each call: where its stack begins, and the number that it answers. */
static uintptr_t top;
static uint32_t answer;

static uint8_t sheet[JUNDRETHOL_SHEET_LENGTH], present;
static size_t sheet_length;

static uint32_t record[JUNDRETHOL_RECORD_LENGTH];
static uint64_t counts[JUNDRETHOL_COUNTS_LENGTH];

static void run(void)
{
    static uint32_t revealed[JUNDRETHOL_REVEALED_LENGTH], registers[JUNDRETHOL_REGISTERS_LENGTH];
    static uint8_t marks[JUNDRETHOL_MARKS_LENGTH];
    top = (uintptr_t)__builtin_frame_address(0);
    answer = jundrethol_run(sheet, sheet_length, present, record, JUNDRETHOL_RECORD_LENGTH, revealed, JUNDRETHOL_REVEALED_LENGTH, registers,
                            JUNDRETHOL_REGISTERS_LENGTH, marks, JUNDRETHOL_MARKS_LENGTH, counts, JUNDRETHOL_COUNTS_LENGTH);
}

static void forecast(void)
{
    static uint64_t place;
    top = (uintptr_t)__builtin_frame_address(0);
    answer = jundrethol_forecast(&place, sheet, 11 + sheet[9] + 256 * (size_t)sheet[10]);
}

static uint8_t columns[JUNDRETHOL_SHEET_LENGTH], back[JUNDRETHOL_SHEET_LENGTH];

static void to_columns(void)
{
    top = (uintptr_t)__builtin_frame_address(0);
    answer = jundrethol_to_columns(sheet, sheet_length, columns, JUNDRETHOL_SHEET_LENGTH);
}

static void to_sheet(void)
{
    top = (uintptr_t)__builtin_frame_address(0);
    answer = jundrethol_to_sheet(columns, sheet_length, back, JUNDRETHOL_SHEET_LENGTH);
}

static void replay(void)
{
    static uint32_t cells[JUNDRETHOL_CELLS_LENGTH];
    size_t head_length = 11 + sheet[9] + 256 * (size_t)sheet[10], part_length = (sheet_length - head_length) / sheet[1];
    top = (uintptr_t)__builtin_frame_address(0);
    answer = jundrethol_replay(2, sheet, head_length, columns + head_length + part_length, part_length, record, JUNDRETHOL_RECORD_LENGTH, cells,
                               JUNDRETHOL_CELLS_LENGTH, counts, JUNDRETHOL_COUNTS_LENGTH);
}

static uint32_t shares[7], coefficients[3] = {1, 2, 3}, value;
static int64_t reading;

static void share(void)
{
    top = (uintptr_t)__builtin_frame_address(0);
    answer = jundrethol_share(3, 7, 3, 5, coefficients, 3, shares, 7);
}

static void recover(void)
{
    top = (uintptr_t)__builtin_frame_address(0);
    answer = jundrethol_recover(3, 7, 3, &value, shares, 7, coefficients, 3);
}

static void sum(void)
{
    static const uint32_t last[7] = {2147483646, 2147483646, 2147483646, 2147483646, 2147483646, 2147483646, 2147483646};
    static uint64_t added;
    top = (uintptr_t)__builtin_frame_address(0);
    answer = jundrethol_sum(3, 7, 3, &added, last, 7);
}

static void encode(void)
{
    top = (uintptr_t)__builtin_frame_address(0);
    answer = jundrethol_encode(3, 30, -5, &value);
}

static void decode(void)
{
    top = (uintptr_t)__builtin_frame_address(0);
    answer = jundrethol_decode(3, value, &reading);
}

/* Two good lines, and one whose times are out of order. */
static void import(void)
{
    static const uint8_t list[] = "\"Hall, \"\"north\"\"\",0000001,0000002,\"0000180\"\r\nGate,5,,6\r\nGate,5,4,6";
    static uint32_t seconds[3];
    static uint64_t calls;
    top = (uintptr_t)__builtin_frame_address(0);
    answer = jundrethol_import(&calls, list, sizeof list - 1, seconds, 3);
}

static size_t depth(void (*call)(void), int filling)
{
    memset(stack, filling, sizeof stack);
    getcontext(&there);
    there.uc_stack.ss_sp = stack;
    there.uc_stack.ss_size = sizeof stack;
    there.uc_link = &here;
    makecontext(&there, call, 0);
    swapcontext(&here, &there);
    size_t untouched = 0;
    while (untouched < sizeof stack && stack[untouched] == filling)
        untouched++;
    return top - (uintptr_t)&stack[untouched];
}

/* For a call that may answer any number. */
#define ANY UINT32_MAX

/* Makes the call once with each filling, and prints how deep it goes. */
static int fits(const char *name, void (*call)(void), uint32_t number)
{
    static const int fillings[] = {0xA5, 0x5A};
    size_t most = 0, limit = call == replay ? JUNDRETHOL_REPLAY_STACK : JUNDRETHOL_STACK;
    int good = 1;
    for (int i = 0; i < 2; i++) {
        size_t taken = depth(call, fillings[i]);
        most = taken > most ? taken : most;
        good &= taken <= limit && (number == ANY || answer == number);
    }
    printf("%s: %zu bytes%s\n", name, most, good ? "" : ", too many or a wrong answer");
    return good;
}

int main(int count, char **names)
{
    int good = 1;
    for (int i = 1; i < count; i++) {
        FILE *file = fopen(names[i], "rb");
        if (file == NULL)
            return 1;
        sheet_length = fread(sheet, 1, sizeof sheet, file);
        fclose(file);
        present = (uint8_t)((1 << sheet[1]) - 1);
        good &= fits(names[i], run, ANY);
        present = (uint8_t)(present & ~1);
        good &= fits("  party 1 absent", run, ANY);
        uint32_t number = answer;
        good &= fits("  forecast", forecast, ANY);
        good &= fits("  to columns", to_columns, JUNDRETHOL_DONE);
        good &= fits("  to sheet", to_sheet, JUNDRETHOL_DONE);
        /* Of a sheet that was not run there is no record. */
        good &= fits("  replay", replay, number >= 1 && number <= 20 ? ANY : number);
    }
    good &= fits("share", share, JUNDRETHOL_DONE);
    good &= fits("recover", recover, JUNDRETHOL_DONE);
    good &= fits("sum", sum, JUNDRETHOL_DONE);
    good &= fits("encode", encode, JUNDRETHOL_DONE);
    good &= fits("decode", decode, JUNDRETHOL_DONE);
    good &= fits("import", import, JUNDRETHOL_BAD_TIME);
    return good ? 0 : 1;
}
