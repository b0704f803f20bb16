/*
 * Makes a small QPSK signal that ends in silence, receives it in blocks and prints the symbol numbers. The
 * program bindings/rust/examples/receive.rs does the same and prints the same text.
 */
#include <inttypes.h>
#include <stdio.h>

#include "train_receiver.h"

/* How many symbols are sent, for how many more the channel is silent then, and how many samples each has. */
#define SYMBOLS 300
#define SILENT 8
#define SPS 4
#define SAMPLES ((SYMBOLS + SILENT) * SPS)

/* How many samples a call is handed at most, and how many symbols it can put out: fewer than the samples
 * have, so that some samples are handed twice. */
#define BLOCK 64
#define PLACES 10

/* How many symbol numbers stand in a line. */
#define WIDTH 60

/* The points in the order of their symbol numbers. */
static const double POINTS[4][2] = {{1.0, 1.0}, {-1.0, 1.0}, {-1.0, -1.0}, {1.0, -1.0}};

/* What the carrier turns by from sample to sample: cosine and sine of 0.0005 of a turn, which is 0.002 of
 * a turn a symbol. */
static const double TURN[2] = {0.9999950652018582, 0.0031415874858795635};

/* Symbols from a small generator, with linear transitions, on a carrier that turns slowly. The first
 * sample of a transition stands 0.3 of a sample behind the instant of the symbol before. Behind them the
 * samples stay as they are: zero. */
static void make_signal(float samples[2 * SAMPLES])
{
    uint32_t state = 1;
    double from[2] = {0.0, 0.0};
    double c = 1.0, s = 0.0;
    for (int k = 0; k < SYMBOLS; k++) {
        state = state * UINT32_C(1664525) + UINT32_C(1013904223);
        const double *to = POINTS[state >> 30];
        for (int j = 0; j < SPS; j++) {
            double way = (j + 0.3) / SPS;
            double re = from[0] + (to[0] - from[0]) * way;
            double im = from[1] + (to[1] - from[1]) * way;
            *samples++ = (float)(re * c - im * s);
            *samples++ = (float)(re * s + im * c);
            double next = c * TURN[0] - s * TURN[1];
            s = c * TURN[1] + s * TURN[0];
            c = next;
        }
        from[0] = to[0];
        from[1] = to[1];
    }
}

/* Receives so many samples block by block and prints the symbol numbers, and '-' where there is none. A
 * block begins with the first sample that the last call did not consume. Answers the number of the last call. */
static uint32_t receive(trr_receiver *receiver, const float *samples, size_t count)
{
    float strobes[2 * PLACES], output[2 * PLACES];
    size_t column = 0;
    while (count > 0) {
        size_t block = count < BLOCK ? count : BLOCK;
        trr_counts counts = trr_receiver_receive(receiver, samples, 2 * block,
                                                 strobes, 2 * PLACES, output, 2 * PLACES);
        if (counts.number != TRR_DONE) {
            return counts.number;
        }
        for (size_t k = 0; k < counts.produced; k++) {
            size_t symbol = trr_symbol_number(TRR_QPSK, output[2 * k], output[2 * k + 1]);
            if (symbol == TRR_NO_SYMBOL) {
                printf("-");
            } else {
                printf("%zu", symbol);
            }
            column++;
            if (column == WIDTH) {
                printf("\n");
                column = 0;
            }
        }
        samples += 2 * counts.consumed;
        count -= counts.consumed;
    }
    if (column > 0) {
        printf("\n");
    }
    return TRR_DONE;
}

int main(void)
{
    /* Gardner's detector gain for QPSK with parts of 1 and -1 and straight transitions: 2 * 1.5
     * (docs/THEORY.md). */
    trr_timing_values timing = {.sps = SPS, .ted = TRR_GARDNER, .loop_bw = 0.01, .damping = 1.0,
                                .max_deviation = 0.01, .ted_gain = 3.0};
    trr_carrier_values carrier = {.loop_bw = 0.02, .damping = 1.0, .max_offset = 0.05};

    trr_timing_values slow = timing;
    slow.sps = 1.5;
    trr_receiver_set_up_answer refused = trr_receiver_set_up(TRR_QPSK, slow, carrier);
    if (refused.number != TRR_DONE) {
        printf("1.5 samples per symbol: refused with number %" PRIu32 ", %s\n",
               refused.number, trr_number_text(refused.number));
    }

    trr_receiver_set_up_answer answer = trr_receiver_set_up(TRR_QPSK, timing, carrier);
    if (answer.number != TRR_DONE) {
        fprintf(stderr, "the set-up is refused: %s\n", trr_number_text(answer.number));
        return 1;
    }
    trr_receiver receiver = answer.receiver;
    static float samples[2 * SAMPLES];
    make_signal(samples);
    uint32_t number = receive(&receiver, samples, SAMPLES);
    if (number != TRR_DONE) {
        fprintf(stderr, "a call is refused: %s\n", trr_number_text(number));
        return 1;
    }
    trr_receiver_readings_answer readings = trr_receiver_readings(receiver);
    printf("%" PRIu64 " symbols\n", readings.count);
    printf("%.4f samples per symbol\n", readings.timing.sps_estimate);
    printf("%.5f cycles per symbol\n", readings.carrier.frequency);
    printf("%s\n", readings.carrier.locked ? "locked" : "not locked");

    /* The record that a program of the earlier library takes, and back. */
    trr_receiver_narrow_answer earlier = trr_receiver_narrow(receiver);
    if (earlier.number != TRR_DONE) {
        fprintf(stderr, "there is no earlier record: %s\n", trr_number_text(earlier.number));
        return 1;
    }
    receiver = trr_receiver_widen(earlier.receiver);
    printf("%" PRIu64 " symbols after a conversion down and up\n", receiver.count);
    return 0;
}
