/*
 * Measures how many bytes of stack the functions of the library take: each runs on a stack of its own that
 * is painted before, and what is no longer painted afterwards was taken. It wants a C library that has
 * makecontext, as glibc has. In each line: bytes, and the function.
 */
#define _XOPEN_SOURCE 700
#include <stdio.h>
#include <string.h>
#include <ucontext.h>

#include "train_receiver.h"

#define STACK (256 * 1024)
#define PAINT 0xa5

/* How many f32 a buffer has. */
#define COUNT 2048

static unsigned char stack[STACK];
static ucontext_t here, there;

/* What the functions are called with, and what they answer: not on the stack that is measured. */
static trr_timing_values timing = {4.0, TRR_GARDNER, 0.01, 1.0, 0.01, 4.0};
static trr_carrier_values loop = {0.02, 1.0, 0.05};
static trr_real_set_up_answer real;
static trr_complex_set_up_answer complex;
static trr_carrier_set_up_answer carrier;
static trr_receiver_set_up_answer receiver;
static trr_timing_readings_answer timing_readings;
static trr_carrier_readings_answer carrier_readings;
static trr_receiver_readings_answer receiver_readings;
static trr_receiver_narrow_answer earlier;
static trr_progress progress;
static trr_counts counts;
static uint32_t number;
static size_t symbol;
static float input[COUNT], strobes[COUNT], output[COUNT];

static void nothing(void) {}

static void real_set_up(void) { real = trr_real_set_up(timing); }
static void real_reset(void) { real.state = trr_real_reset(real.state); }
static void real_readings(void) { timing_readings = trr_real_readings(real.state); }
static void real_run(void) { progress = trr_real_run(&real.state, input, COUNT, output, COUNT); }

static void complex_set_up(void) { complex = trr_complex_set_up(timing); }
static void complex_reset(void) { complex.state = trr_complex_reset(complex.state); }
static void complex_readings(void) { timing_readings = trr_complex_readings(complex.state); }
static void complex_run(void) { counts = trr_complex_run(&complex.state, input, COUNT, output, COUNT); }

static void carrier_set_up(void) { carrier = trr_carrier_set_up(TRR_PSK8, loop); }
static void carrier_reset(void) { carrier.state = trr_carrier_reset(carrier.state); }
static void carrier_set_phase(void) { carrier.state = trr_carrier_set_phase(carrier.state, 1); }
static void carrier_set_frequency(void) { carrier.state = trr_carrier_set_frequency(carrier.state, 0.01); }
static void carrier_read(void) { carrier_readings = trr_carrier_readings(carrier.state); }
static void carrier_run(void) { number = trr_carrier_run(&carrier.state, input, COUNT, output, COUNT); }

static void receiver_set_up(void) { receiver = trr_receiver_set_up(TRR_QPSK, timing, loop); }
static void receiver_set_up_unnamed(void) { receiver = trr_receiver_set_up_unnamed(timing, loop); }
static void receiver_reset(void) { receiver.receiver = trr_receiver_reset(receiver.receiver); }
static void receiver_set_phase(void) { receiver.receiver = trr_receiver_set_phase(receiver.receiver, 1); }
static void receiver_read(void) { receiver_readings = trr_receiver_readings(receiver.receiver); }
static void receiver_receive(void)
{
    counts = trr_receiver_receive(&receiver.receiver, input, COUNT, strobes, COUNT, output, COUNT);
}
static void symbol_number(void) { symbol = trr_symbol_number(TRR_PSK8, output[0], output[1]); }
static void receiver_narrow(void) { earlier = trr_receiver_narrow(receiver.receiver); }
static void receiver_widen(void) { receiver.receiver = trr_receiver_widen(earlier.receiver); }

/* The functions, each loop's set-up before what needs its state, and the earlier record before its use. */
static const struct {
    void (*call)(void);
    const char *name;
} CALLS[] = {
    {real_set_up, "trr_real_set_up"},
    {real_reset, "trr_real_reset"},
    {real_readings, "trr_real_readings"},
    {real_run, "trr_real_run"},
    {complex_set_up, "trr_complex_set_up"},
    {complex_reset, "trr_complex_reset"},
    {complex_readings, "trr_complex_readings"},
    {complex_run, "trr_complex_run"},
    {carrier_set_up, "trr_carrier_set_up"},
    {carrier_reset, "trr_carrier_reset"},
    {carrier_set_phase, "trr_carrier_set_phase"},
    {carrier_set_frequency, "trr_carrier_set_frequency"},
    {carrier_read, "trr_carrier_readings"},
    {carrier_run, "trr_carrier_run"},
    {receiver_set_up, "trr_receiver_set_up"},
    {receiver_set_up_unnamed, "trr_receiver_set_up_unnamed"},
    {receiver_reset, "trr_receiver_reset"},
    {receiver_set_phase, "trr_receiver_set_phase"},
    {receiver_read, "trr_receiver_readings"},
    {receiver_receive, "trr_receiver_receive"},
    {symbol_number, "trr_symbol_number"},
    {receiver_narrow, "trr_receiver_narrow"},
    {receiver_widen, "trr_receiver_widen"},
};

/* How many bytes of a painted stack a call takes. It is made once before: the loader may look up a function
 * of the C library at its first call, on the stack of whoever calls it. */
static size_t taken(void (*call)(void))
{
    call();
    memset(stack, PAINT, STACK);
    getcontext(&there);
    there.uc_stack.ss_sp = stack;
    there.uc_stack.ss_size = STACK;
    there.uc_link = &here;
    makecontext(&there, call, 0);
    swapcontext(&here, &there);
    size_t left = 0;
    while (left < STACK && stack[left] == PAINT) {
        left++;
    }
    return STACK - left;
}

int main(void)
{
    size_t most = 0;
    for (size_t k = 0; k < COUNT; k++) {
        input[k] = k % 24 < 12 ? 1.0f : -1.0f;
    }
    size_t empty = taken(nothing);
    for (size_t k = 0; k < sizeof CALLS / sizeof CALLS[0]; k++) {
        size_t bytes = taken(CALLS[k].call) - empty;
        if (bytes > most) {
            most = bytes;
        }
        printf("%6zu %s\n", bytes, CALLS[k].name);
    }
    printf("%6zu at most\n", most);
    return 0;
}
