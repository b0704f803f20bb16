/*
 * The train report receiver for C and C++: symbol timing recovery and carrier recovery.
 *
 * These are the declarations of libtrain_receiver.a, which `make library` writes. The
 * contract of each function stands in crates/train_receiver/src. Labels such as (T8) are those of
 * docs/SPECIFICATION.md, which states the whole behaviour.
 *
 * What holds for every function:
 *
 * - Records. A record that is handed to a function must come from a set-up, a reset, a setter or a run of this
 *   library, or be converted from such a record, be it this library's or the earlier one's (A9, R23). A
 *   conversion of anything else gives nothing that may be used. A refused set-up gives no record, and neither
 *   does a conversion that is too large: its zeros are none, and converted up they are none either. Readings
 *   and conversions themselves ask less: any record whose truth values (bool) are 0 or 1. The fields may be
 *   read. Nobody but the library may write them. A record may be copied; the copy is a record too.
 * - Padding. Some records have bytes between their fields. They are no part of the record, and two
 *   equal records may differ in them. Compare records field by field, never with memcmp.
 * - Refused set-ups. The answer's record then holds zeros and must not be used (L3). What a call does with
 *   it is not specified. Today every call with it ends, and a run answers as if it were done.
 *   trr_real_run reads a float that stands 16 bytes in front of its input, which may end the program.
 *   The other runs keep to their buffers. Timing fills the output with values that mean nothing, and
 *   in later runs it consumes everything and produces nothing. The carrier passes finite samples on.
 * - Results. A reset or a setter changes nothing in place: it answers the new record (L5). A run that is
 *   refused says so in its answer alone. So every function is marked TRR_MUST_USE, and a compiler
 *   that knows such a mark warns where an answer is dropped.
 * - Buffers. A buffer is a pointer to f32 (float) and a count of f32. A complex sample is a pair of f32, the
 *   real part before the imaginary one, so a complex buffer of n samples has the count 2 * n. The answers
 *   `consumed` and `produced` count samples (A1).
 * - Pointers. No pointer may be null, even where the count is 0. Any buffer may be empty (A8).
 * - Overlap. The record and the buffers of one call must not overlap each other.
 * - Refusals. The answer is one of the numbers of enum trr_number (A2). If several values of a set-up are
 *   wrong, the lowest number is answered (A4); a receiver's set-up looks at timing's values before the
 *   carrier's (R4). A run looks for odd counts first (8), then for unequal lengths (7) (A5). A refused
 *   set-up gives no record (A6). A refused run gives counts of 0 (a carrier's answer has no counts) and
 *   leaves its record and every buffer as found (A7).
 * - Earlier records. A receiver's symbol count had 32 bits before. Such a record is a trr_receiver_32 here
 *   (R19). No function takes one but trr_receiver_widen, which makes a trr_receiver of it;
 *   trr_receiver_narrow goes back. Both records have 232 bytes, and their counts the offset 224; the earlier
 *   answer of trr_receiver_readings and this one have 128 bytes, and their counts the offset 120. Where the
 *   upper half of the count is, the earlier ones have four bytes of padding, with any content. So no linker
 *   and no size of a file tells them apart:
 *   - Header and library must be of one version, in both directions. Compile every program anew, and write
 *     the library anew too (`make library`). With the earlier header a program sees the lower
 *     half of the count; with this header and an earlier library the upper half of the count is rubbish.
 *   - Do not read an earlier record's bytes into a trr_receiver, nor give a trr_receiver's bytes to an earlier
 *     program, which would see the lower half of the count. Convert.
 *   - `uint32_t n = readings.count` compiles and cuts the count (-Wconversion finds it). PRIu32 is wrong for
 *     the count (-Wformat finds it): it is PRIu64 now. TRR_COUNT_BITS tells this header from earlier ones.
 * - Codes. A detector is a code of enum trr_detector, a constellation one of enum trr_constellation.
 *   Any other code reads as the last one of its enum (L4). The library writes none but the named codes.
 * - Threads. The library keeps nothing between calls (L7): the record holds the whole state. Two threads
 *   must not use one record at the same time if one of the calls writes it.
 * - Stack. trr_receiver_receive and trr_carrier_run take about 17 KB of stack (17,416 bytes measured),
 *   since the cosine table is stored there; any other function takes less than 1 KB. That is of the
 *   compiler before today's: today's makes these 17,560 bytes and up to 1,928. How long the
 *   buffers are does not matter. Nothing is taken from the heap (L7). bindings/c/stack.c measures it.
 * - Floating point. A call needs the rounding mode and the handling of subnormal numbers that a C program
 *   starts with: round to nearest, subnormal numbers kept (N1). Do not link with -ffast-math: it changes
 *   the latter.
 */
#ifndef TRAIN_RECEIVER_H
#define TRAIN_RECEIVER_H

#include <stdbool.h>
#include <stddef.h>
#include <stdint.h>

/** The mark of a function whose answer must not be dropped. */
#if defined(__cplusplus) && __cplusplus >= 201703L
#define TRR_MUST_USE [[nodiscard]]
#elif !defined(__cplusplus) && defined(__STDC_VERSION__) && __STDC_VERSION__ >= 202311L
#define TRR_MUST_USE [[nodiscard]]
#elif defined(__GNUC__)
#define TRR_MUST_USE __attribute__((warn_unused_result))
#else
#define TRR_MUST_USE
#endif

#ifdef __cplusplus
extern "C" {
#endif

/* ---- Codes and numbers */

/**
 * The timing error detectors. Gardner's needs no carrier lock. Mueller-Müller's decides on strobes from which
 * the carrier is not removed yet, so that under QPSK and 8-PSK a carrier that turns slowly (0.0001 to 0.001
 * cycles per symbol at a loop bandwidth of 0.01), or that stands at a bad angle, makes it slip symbols or
 * fail. Prefer Gardner's unless the carrier is removed first. docs/THEORY.md has the measured table.
 */
enum trr_detector {
    /** Gardner: the last strobe less this one, times the midpoint sample (middle) between the two. For
     *  complex samples, the product of the real parts and that of the imaginary parts are added (T14). */
    TRR_GARDNER = 0,
    /** Mueller-Müller: the last strobe's decision times this strobe, less this strobe's decision times the
     *  last strobe, each product being that of the real parts plus that of the imaginary parts. A decision
     *  is the sign of each part: 1, -1, or 0 for a zero or NaN (T15). */
    TRR_MUELLER_MUELLER = 1
};

/** The constellations. */
enum trr_constellation {
    TRR_BPSK = 0,
    TRR_QPSK = 1,
    TRR_PSK8 = 2
};

/** What is answered in the place of a symbol number where there is none (L11). It fits a uint8_t, and not a char,
 *  which may be signed. */
enum trr_symbol {
    TRR_NO_SYMBOL = 255
};

/**
 * What a call answers: 0 if it is done, else the number of its refusal. A refusal is given where its
 * condition holds and no other refusal comes before it, and nowhere else (A2). Ranges include their ends,
 * and minus zero is 0 (A3).
 */
enum trr_number {
    /** The call is done. */
    TRR_DONE = 0,
    /** The samples per symbol (pace) are not a finite number from 2 to 1,000,000 (E1). */
    TRR_PACE = 1,
    /** The loop bandwidth (width), a fraction of the symbol rate, is not a finite number from 0.0001 to 0.1
     *  (timing) or from 0.0001 to 0.2 (carrier) (E2). */
    TRR_WIDTH = 2,
    /** The damping is not a finite number from 0.1 to 4 (E3). */
    TRR_DAMPING = 3,
    /** Timing: the maximum deviation (pull), a fraction of the samples per symbol, is not a finite number
     *  from 0 to 0.05. Carrier: the maximum frequency offset (pull) is not a finite number from 0 to 0.25
     *  cycles per symbol (E4). */
    TRR_PULL = 4,
    /** The detector gain (slope) is not a finite number above 0 (E5). */
    TRR_SLOPE = 5,
    /** A gain of the timing loop, kp or ki, that follows from the values (T3) is not finite (E6). */
    TRR_GAINS = 6,
    /** Two buffers are not equally long: input and output of a carrier, or strobe buffer and output of a
     *  receiver (E7). */
    TRR_UNEVEN = 7,
    /** The count of f32 of a complex buffer is odd (E8). */
    TRR_ODD = 8
};

/** What trr_receiver_narrow answers beside TRR_DONE (L13). It is no refusal: those have the numbers from 1 to 17,
 *  of which 9 to 17 are kept for later ones. */
enum trr_conversion {
    /** The symbol count does not fit into 32 bits: it is above 4,294,967,295 (R21). */
    TRR_TOO_LARGE = 100
};

/** What a number says, in English: the word of its refusal, or "too large", and what is wrong. The text of 0 is
 *  "done". */
TRR_MUST_USE static inline const char *trr_number_text(uint32_t number)
{
    switch (number) {
    case TRR_DONE:
        return "done";
    case TRR_PACE:
        return "pace: the samples per symbol are not a finite number from 2 to 1,000,000";
    case TRR_WIDTH:
        return "width: the loop bandwidth is not a finite number from 0.0001 to 0.1 (timing) or 0.2 "
               "(carrier)";
    case TRR_DAMPING:
        return "damping: the damping is not a finite number from 0.1 to 4";
    case TRR_PULL:
        return "pull: the largest deviation (timing) is not a finite number from 0 to 0.05, or the "
               "largest offset (carrier) none from 0 to 0.25 cycles per symbol";
    case TRR_SLOPE:
        return "slope: the detector gain is not a finite number above 0";
    case TRR_GAINS:
        return "gains: a timing gain that follows from these values is not finite";
    case TRR_UNEVEN:
        return "uneven: the carrier's input and output, or the receiver's strobes and output, are not "
               "equally long";
    case TRR_ODD:
        return "odd: the count of f32 of a complex buffer is odd";
    case TRR_TOO_LARGE:
        return "too large: the symbol count does not fit into 32 bits";
    default:
        return "not a number of this library";
    }
}

/* ---- Samples and counts */

/** A complex sample (A1). */
typedef struct trr_c32 {
    float re;
    float im;
} trr_c32;

/** The counts of a call that is never refused, in samples. No count is above what was lent (A10). */
typedef struct trr_progress {
    /** Input samples consumed. The next call's input begins with the first one that is not. */
    size_t consumed;
    /** Output samples produced, at the front of the output. */
    size_t produced;
} trr_progress;

/** The number of a call and its counts, in samples. Both counts are 0 where the number is not (A7). No count
 *  is above what was lent (A10). */
typedef struct trr_counts {
    /** One of enum trr_number. */
    uint32_t number;
    /** Input samples consumed. The next call's input begins with the first one that is not. */
    size_t consumed;
    /** Output samples produced, at the front of the output. */
    size_t produced;
} trr_counts;

/* ---- Timing: types */

/** What a timing loop is set up with (T2). Each range includes its ends (A3). */
typedef struct trr_timing_values {
    /** Samples per symbol (pace), 2 to 1,000,000. */
    double sps;
    /** The timing error detector: one of enum trr_detector. */
    uint32_t ted;
    /** Loop bandwidth (width) as a fraction of the symbol rate, 0.0001 to 0.1. */
    double loop_bw;
    /** Damping, 0.1 to 4; 1/sqrt(2) is usual. */
    double damping;
    /** Maximum deviation (pull) of the tracked samples per symbol from sps, as a fraction of sps, 0 to
     *  0.05. */
    double max_deviation;
    /** Detector gain (slope), above 0: the detector's output divided by how early the strobe is, in symbols, for
     *  small offsets. It grows with the square of the level (Gardner) or with the level (Mueller-Müller).
     *  docs/THEORY.md has a table. */
    double ted_gain;
} trr_timing_values;

/** The parameters of a timing state: the values of the set-up, and what follows from them (T3). */
typedef struct trr_timing_params {
    double sps;
    uint32_t ted;
    double loop_bw;
    double damping;
    double max_deviation;
    double ted_gain;
    /** Proportional gain, in samples per unit of the detector's output. */
    double kp;
    /** Integral gain, in samples per unit of the detector's output. */
    double ki;
    /** Limit of the integrator, in samples. */
    double lim;
} trr_timing_params;

/** The clock of a timing state (T5, T22). */
typedef struct trr_clock {
    /** Position of the next strobe, in samples from the first one of the history: the whole part. */
    size_t i;
    /** The fraction of that position, from 0 up to but not including 1. */
    double mu;
    /** Spacing of the strobes, in samples: the tracked samples per symbol (pace). */
    double omega;
    /** Integrator of the loop filter, in samples, from -lim to lim. */
    double integ;
} trr_clock;

/** The last three samples, oldest first. */
typedef struct trr_real_hist {
    float a;
    float b;
    float c;
} trr_real_hist;

/** The last three samples, oldest first. */
typedef struct trr_complex_hist {
    trr_c32 a;
    trr_c32 b;
    trr_c32 c;
} trr_complex_hist;

/** What a run over real samples changes beside the history. */
typedef struct trr_real_track {
    trr_clock clock;
    /** The previous strobe. */
    float y_prev;
    /** The previous decision. */
    float d_prev;
    /** The midpoint sample (middle) between the last strobe and the next, where mid_ready. */
    float mid;
    bool mid_ready;
    /** Whether there was a strobe since the set-up or the last reset. */
    bool started;
} trr_real_track;

/** What a run over complex samples changes beside the history. */
typedef struct trr_complex_track {
    trr_clock clock;
    /** The previous strobe. */
    trr_c32 y_prev;
    /** The previous decision. */
    trr_c32 d_prev;
    /** The midpoint sample (middle) between the last strobe and the next, where mid_ready. */
    trr_c32 mid;
    bool mid_ready;
    /** Whether there was a strobe since the set-up or the last reset. */
    bool started;
} trr_complex_track;

/** The state of a timing loop over real samples (T5). */
typedef struct trr_real_timing {
    trr_timing_params params;
    trr_real_hist hist;
    trr_real_track track;
} trr_real_timing;

/** The state of a timing loop over complex samples (T5). */
typedef struct trr_complex_timing {
    trr_timing_params params;
    trr_complex_hist hist;
    trr_complex_track track;
} trr_complex_timing;

/** The answer of trr_real_set_up. */
typedef struct trr_real_set_up_answer {
    /** One of enum trr_number. */
    uint32_t number;
    /** The state where the number is 0. Otherwise it is no state: all its fields are 0, and it must not
     *  be used (L3). */
    trr_real_timing state;
} trr_real_set_up_answer;

/** The answer of trr_complex_set_up. */
typedef struct trr_complex_set_up_answer {
    /** One of enum trr_number. */
    uint32_t number;
    /** The state where the number is 0. Otherwise it is no state: all its fields are 0, and it must not
     *  be used (L3). */
    trr_complex_timing state;
} trr_complex_set_up_answer;

/** The answer of trr_real_readings and of trr_complex_readings. */
typedef struct trr_timing_readings_answer {
    /** The values of the set-up. */
    trr_timing_values values;
    /** Position of the next strobe in samples, counted from the first sample of the next call's input.
     *  It is negative while the strobe lies before that sample (T21). */
    double next_strobe;
    /** The tracked samples per symbol (pace): the estimate of how many samples a symbol has (T21). */
    double sps_estimate;
} trr_timing_readings_answer;

/* ---- Timing of real samples */

/** Sets up a timing loop over real samples. Numbers: 0, and 1 to 6 (T4). */
TRR_MUST_USE
trr_real_set_up_answer trr_real_set_up(trr_timing_values v);

/** Answers the state as it was just after its set-up (T6). */
TRR_MUST_USE
trr_real_timing trr_real_reset(trr_real_timing x);

/** Answers the values of the set-up, the position of the next strobe and the tracked samples per symbol
 *  (T21). */
TRR_MUST_USE
trr_timing_readings_answer trr_real_readings(trr_real_timing x);

/**
 * Runs the loop over the input and writes the strobes, the samples at the symbols' instants, to the front of
 * the output. The new state is left in the record. A run on real samples is never refused (T1).
 *
 * The run ends where the output's capacity (places) is used up or where the next strobe needs more input
 * (T9, T12). In the latter case all input is consumed. Output places behind the last strobe stay as found
 * (A10). Hand again what was not consumed, in front of the next samples: then it makes no difference how a
 * recording is cut into calls (B1).
 */
TRR_MUST_USE
trr_progress trr_real_run(trr_real_timing *x,
                          const float *input, size_t input_count,
                          float *output, size_t output_count);

/* ---- Timing of complex samples */

/** Sets up a timing loop over complex samples. Numbers: 0, and 1 to 6 (T4). */
TRR_MUST_USE
trr_complex_set_up_answer trr_complex_set_up(trr_timing_values v);

/** Answers the state as it was just after its set-up (T6). */
TRR_MUST_USE
trr_complex_timing trr_complex_reset(trr_complex_timing x);

/** Answers the values of the set-up, the position of the next strobe and the tracked samples per symbol
 *  (T21). */
TRR_MUST_USE
trr_timing_readings_answer trr_complex_readings(trr_complex_timing x);

/**
 * Runs the loop over the input and writes the strobes, the samples at the symbols' instants, to the front of
 * the output. The new state is left in the record. Numbers: 0, and 8 where a count is odd (T1). A refused run
 * leaves the record and the output as found (A7).
 *
 * The run ends where the output's capacity (places) is used up or where the next strobe needs more input
 * (T9, T12). In the latter case all input is consumed. Output places behind the last strobe stay as found
 * (A10). Hand again what was not consumed, in front of the next samples: then it makes no difference how a
 * recording is cut into calls (B1).
 */
TRR_MUST_USE
trr_counts trr_complex_run(trr_complex_timing *x,
                           const float *input, size_t input_count,
                           float *output, size_t output_count);

/* ---- Carrier: types */

/** What a carrier loop is set up with beside its constellation (C2). Each range includes its ends (A3). */
typedef struct trr_carrier_values {
    /** Loop bandwidth (width) as a fraction of the symbol rate, 0.0001 to 0.2. It is that of symbols of
     *  magnitude 1 under BPSK and 8-PSK and 0.707 under QPSK: the level acts as a gain (docs/THEORY.md). */
    double loop_bw;
    /** Damping, 0.1 to 4; 1/sqrt(2) is usual. */
    double damping;
    /** Maximum frequency offset (pull), in cycles per symbol, 0 to 0.25. */
    double max_offset;
} trr_carrier_values;

/** The parameters of a carrier state: the values of the set-up, and what follows from them (C3, C5). */
typedef struct trr_carrier_params {
    double loop_bw;
    double damping;
    double max_offset;
    /** Proportional gain, in cycles per symbol per unit of the detector's output. */
    float kp;
    /** Integral gain, in cycles per symbol per unit of the detector's output. */
    float ki;
    /** Limit of the frequency, in cycles per symbol: max_offset as an f32, or 0 if that is below 1e-30. */
    float max;
} trr_carrier_params;

/** The oscillator (C6). */
typedef struct trr_nco {
    /** Phase before the next symbol, in units of 2^-32 turn. */
    uint32_t phase;
    /** Frequency, in cycles per symbol, from -max to max (C22). */
    float freq;
} trr_nco;

/** The lock detector (C20). */
typedef struct trr_lock {
    /** The smoothed lock measure. */
    float level;
    /** Whether there is lock. */
    bool locked;
} trr_lock;

/** What a carrier run changes. */
typedef struct trr_carrier_track {
    trr_nco nco;
    trr_lock lock;
} trr_carrier_track;

/** The state of a carrier loop (C6). */
typedef struct trr_carrier {
    /** One of enum trr_constellation. */
    uint32_t constellation;
    trr_carrier_params params;
    trr_carrier_track track;
} trr_carrier;

/** The answer of trr_carrier_set_up. */
typedef struct trr_carrier_set_up_answer {
    /** One of enum trr_number. */
    uint32_t number;
    /** The state where the number is 0. Otherwise it is no state: all its fields are 0, and it must not
     *  be used (L3). */
    trr_carrier state;
} trr_carrier_set_up_answer;

/** The answer of trr_carrier_readings (C21). */
typedef struct trr_carrier_readings_answer {
    /** One of enum trr_constellation. */
    uint32_t constellation;
    /** The values of the set-up. */
    trr_carrier_values values;
    /** Frequency, in cycles per symbol: the estimate of the carrier's offset. */
    double frequency;
    /** Phase before the next symbol, in units of 2^-32 turn. */
    uint32_t phase;
    /** The smoothed lock measure. */
    float lock_level;
    /** Whether there is lock. A level above 0.5 sets lock, one below 0.3 clears it, and between the two it
     *  stays as it was (C20). */
    bool locked;
} trr_carrier_readings_answer;

/* ---- Carrier */

/** Sets up a carrier loop. Numbers: 0, 2, 3 and 4 (C4). */
TRR_MUST_USE
trr_carrier_set_up_answer trr_carrier_set_up(uint32_t constellation, trr_carrier_values v);

/** Answers the state as it was just after its set-up (C7). */
TRR_MUST_USE
trr_carrier trr_carrier_reset(trr_carrier x);

/** Answers the state with this phase, in units of 2^-32 turn. The rest stays (C8). */
TRR_MUST_USE
trr_carrier trr_carrier_set_phase(trr_carrier x, uint32_t phase);

/** Answers the state with this frequency, in cycles per symbol. The rest stays. The frequency is rounded to
 *  an f32; 0 is taken if it is NaN or below 1e-30 in size, and the nearer end if it lies beyond the limit
 *  (C9). */
TRR_MUST_USE
trr_carrier trr_carrier_set_frequency(trr_carrier x, double freq);

/** Answers constellation, values of the set-up, frequency, phase, lock level and lock (C21). */
TRR_MUST_USE
trr_carrier_readings_answer trr_carrier_readings(trr_carrier x);

/**
 * Runs the loop over the input, complex samples, one for each symbol (strobes), removes the carrier and
 * writes one output sample for each of them. The new state is left in the record. Numbers: 0, 8 where a
 * count is odd, 7 where the counts differ (C1). A refused run leaves the record and the output as found
 * (A7). It makes no difference how a recording is cut into calls (B2).
 */
TRR_MUST_USE
uint32_t trr_carrier_run(trr_carrier *x,
                         const float *input, size_t input_count,
                         float *output, size_t output_count);

/* ---- Receiver: types */

/** How many bits a receiver's symbol count has (R18). Headers before this one have no such name. */
#define TRR_COUNT_BITS 64

/** The receiver record: both loops and the symbol count (R2). */
typedef struct trr_receiver {
    trr_complex_timing timing;
    trr_carrier carrier;
    /** Symbols produced since the set-up or the last reset. From 18,446,744,073,709,551,615 on the count
     *  stays there (R18). */
    uint64_t count;
} trr_receiver;

/** The answer of trr_receiver_set_up and of trr_receiver_set_up_unnamed. */
typedef struct trr_receiver_set_up_answer {
    /** One of enum trr_number. */
    uint32_t number;
    /** The receiver where the number is 0. Otherwise it is no receiver: all its fields are 0, and it
     *  must not be used (L3). */
    trr_receiver receiver;
} trr_receiver_set_up_answer;

/** The answer of trr_receiver_readings (R9). */
typedef struct trr_receiver_readings_answer {
    trr_timing_readings_answer timing;
    trr_carrier_readings_answer carrier;
    /** Symbols produced since the set-up or the last reset, at most 18,446,744,073,709,551,615 (R18). */
    uint64_t count;
} trr_receiver_readings_answer;

/* ---- Receiver */

/** Sets up a receiver. Numbers: 0, and 1 to 6. Timing's values are checked first (1 to 6), then the carrier's
 *  (2 to 4), so that any wrong value of timing's is answered before one of the carrier's (R4). */
TRR_MUST_USE
trr_receiver_set_up_answer trr_receiver_set_up(uint32_t constellation,
                                               trr_timing_values t, trr_carrier_values c);

/** The same without a constellation: it is BPSK then (R3). */
TRR_MUST_USE
trr_receiver_set_up_answer trr_receiver_set_up_unnamed(trr_timing_values t, trr_carrier_values c);

/** Answers the receiver as it was just after its set-up: both loops are fresh, and the symbol count is 0
 *  (R7). */
TRR_MUST_USE
trr_receiver trr_receiver_reset(trr_receiver x);

/** Answers the receiver with this phase of the carrier, in units of 2^-32 turn. The rest stays (R8). */
TRR_MUST_USE
trr_receiver trr_receiver_set_phase(trr_receiver x, uint32_t phase);

/** Answers the readings of both loops and the symbol count (R9). */
TRR_MUST_USE
trr_receiver_readings_answer trr_receiver_readings(trr_receiver x);

/**
 * Receives complex samples. The timing loop makes strobes of the input and writes them to the strobe buffer.
 * Then the carrier loop makes symbols of these strobes and writes them to the output (R1). The new receiver
 * is left in the record, its symbol count included (R2, R18). The counts are those of timing: samples
 * consumed, symbols produced (R5). Numbers: 0, 8 where one of the three counts is odd, 7 where the strobe
 * buffer and the output are not equally long (R10). A refused call leaves the record, the strobe buffer and
 * the output as found (A7).
 *
 * The call ends where the output's capacity (places) is used up or where the next strobe needs more input
 * (T9, T12). In the latter case all input is consumed. Places behind the last sample produced stay as
 * found, in both buffers (A10). Hand again what was not consumed, in front of the next samples: then it
 * makes no difference how a recording is cut into calls (B3).
 */
TRR_MUST_USE
trr_counts trr_receiver_receive(trr_receiver *x,
                                const float *input, size_t input_count,
                                float *strobes, size_t strobes_count,
                                float *output, size_t output_count);

/**
 * The symbol number of an output sample, or TRR_NO_SYMBOL if both parts are zero (of either sign) or if a part
 * is NaN, under every constellation (R16). Test for it before you use the number.
 *
 * Under BPSK the number is 1 if re is below zero, or if re is zero and im is below zero; else it is 0 (R11).
 * Under 8-PSK it is the octant, 0 to 7: of a finite sample, octant k goes from k eighths of a turn up to but
 * not including k + 1 eighths; with an infinite part the signs and the larger part decide (R12, C14). Under
 * QPSK it is half the octant, rounded down: the quadrant, 0 to 3 (R13).
 */
TRR_MUST_USE
size_t trr_symbol_number(uint32_t constellation, float re, float im);

/* ---- Earlier records: types */

/**
 * The receiver record as it was before, with a symbol count of 32 bits (R19, L12). The bytes of a trr_receiver
 * that a program of the earlier library stored are those of a trr_receiver_32: read them into one with memcpy
 * or fread. No function takes it but trr_receiver_widen.
 */
typedef struct trr_receiver_32 {
    trr_complex_timing timing;
    trr_carrier carrier;
    /** Symbols produced since the set-up or the last reset. The count stopped at 4,294,967,295 (R19). */
    uint32_t count;
} trr_receiver_32;

/** The answer of trr_receiver_narrow (L13). */
typedef struct trr_receiver_narrow_answer {
    /** TRR_DONE or TRR_TOO_LARGE. */
    uint32_t number;
    /** The record where the number is 0. Otherwise it is no record: all its fields are 0, and it must not be
     *  used (L3). */
    trr_receiver_32 receiver;
} trr_receiver_narrow_answer;

/* ---- Earlier records: conversion */

/**
 * Answers the receiver of an earlier record: the same count, and every other field as it is (L12). Every record
 * converts (R20). A count that stopped at 4,294,967,295 goes on from there.
 *
 * The record need not be one that the library has given, but its truth values (bool) must be 0 or 1. If it is one
 * that this library or the earlier one has given, the receiver serves as one that a run has given (R23, A9).
 * Converted down again, it gives the record back (R22).
 */
TRR_MUST_USE
trr_receiver trr_receiver_widen(trr_receiver_32 x);

/**
 * Answers the earlier record of a receiver: the same count, and every other field as it is (L13). Numbers: 0,
 * and 100 (TRR_TOO_LARGE) where the count is above 4,294,967,295; then there is no record (R21). The receiver
 * that is handed in stays as it was.
 *
 * The record need not be one that the library has given, but its truth values (bool) must be 0 or 1. If it is one
 * that the library has given, the answer's record serves the earlier library as one that a run has given (R23,
 * A9). Converted up again, it gives the receiver back (R22).
 */
TRR_MUST_USE
trr_receiver_narrow_answer trr_receiver_narrow(trr_receiver x);

/* ---- Layout, as the library has it on x86-64 (L6) */

#if defined(__cplusplus) && __cplusplus >= 201103L
#define TRR_CHECK(name, condition) static_assert(condition, #name)
#elif !defined(__cplusplus) && defined(__STDC_VERSION__) && __STDC_VERSION__ >= 201112L
#define TRR_CHECK(name, condition) _Static_assert(condition, #name)
#else
#define TRR_CHECK(name, condition) typedef char trr_check_##name[(condition) ? 1 : -1]
#endif
#define TRR_SIZE(type, bytes) TRR_CHECK(size_of_##type, sizeof(type) == (bytes))
#define TRR_OFFSET(type, field, bytes) \
    TRR_CHECK(offset_of_##type##_##field, offsetof(type, field) == (bytes))
#define TRR_FIELD_SIZE(type, field, bytes) \
    TRR_CHECK(size_of_##type##_##field, sizeof(((type *)0)->field) == (bytes))

TRR_SIZE(bool, 1);
TRR_SIZE(size_t, 8);

TRR_SIZE(trr_c32, 8);
TRR_OFFSET(trr_c32, im, 4);

TRR_SIZE(trr_progress, 16);
TRR_OFFSET(trr_progress, produced, 8);

TRR_SIZE(trr_counts, 24);
TRR_OFFSET(trr_counts, consumed, 8);
TRR_OFFSET(trr_counts, produced, 16);

TRR_SIZE(trr_timing_values, 48);
TRR_OFFSET(trr_timing_values, ted, 8);
TRR_OFFSET(trr_timing_values, loop_bw, 16);
TRR_OFFSET(trr_timing_values, damping, 24);
TRR_OFFSET(trr_timing_values, max_deviation, 32);
TRR_OFFSET(trr_timing_values, ted_gain, 40);

TRR_SIZE(trr_timing_params, 72);
TRR_OFFSET(trr_timing_params, ted, 8);
TRR_OFFSET(trr_timing_params, loop_bw, 16);
TRR_OFFSET(trr_timing_params, damping, 24);
TRR_OFFSET(trr_timing_params, max_deviation, 32);
TRR_OFFSET(trr_timing_params, ted_gain, 40);
TRR_OFFSET(trr_timing_params, kp, 48);
TRR_OFFSET(trr_timing_params, ki, 56);
TRR_OFFSET(trr_timing_params, lim, 64);

TRR_SIZE(trr_clock, 32);
TRR_OFFSET(trr_clock, mu, 8);
TRR_OFFSET(trr_clock, omega, 16);
TRR_OFFSET(trr_clock, integ, 24);

TRR_SIZE(trr_real_hist, 12);
TRR_OFFSET(trr_real_hist, b, 4);
TRR_OFFSET(trr_real_hist, c, 8);

TRR_SIZE(trr_complex_hist, 24);
TRR_OFFSET(trr_complex_hist, b, 8);
TRR_OFFSET(trr_complex_hist, c, 16);

TRR_SIZE(trr_real_track, 48);
TRR_OFFSET(trr_real_track, y_prev, 32);
TRR_OFFSET(trr_real_track, d_prev, 36);
TRR_OFFSET(trr_real_track, mid, 40);
TRR_OFFSET(trr_real_track, mid_ready, 44);
TRR_OFFSET(trr_real_track, started, 45);

TRR_SIZE(trr_complex_track, 64);
TRR_OFFSET(trr_complex_track, y_prev, 32);
TRR_OFFSET(trr_complex_track, d_prev, 40);
TRR_OFFSET(trr_complex_track, mid, 48);
TRR_OFFSET(trr_complex_track, mid_ready, 56);
TRR_OFFSET(trr_complex_track, started, 57);

TRR_SIZE(trr_real_timing, 136);
TRR_OFFSET(trr_real_timing, hist, 72);
TRR_OFFSET(trr_real_timing, track, 88);

TRR_SIZE(trr_complex_timing, 160);
TRR_OFFSET(trr_complex_timing, hist, 72);
TRR_OFFSET(trr_complex_timing, track, 96);

TRR_SIZE(trr_real_set_up_answer, 144);
TRR_OFFSET(trr_real_set_up_answer, state, 8);

TRR_SIZE(trr_complex_set_up_answer, 168);
TRR_OFFSET(trr_complex_set_up_answer, state, 8);

TRR_SIZE(trr_timing_readings_answer, 64);
TRR_OFFSET(trr_timing_readings_answer, next_strobe, 48);
TRR_OFFSET(trr_timing_readings_answer, sps_estimate, 56);

TRR_SIZE(trr_carrier_values, 24);
TRR_OFFSET(trr_carrier_values, damping, 8);
TRR_OFFSET(trr_carrier_values, max_offset, 16);

TRR_SIZE(trr_carrier_params, 40);
TRR_OFFSET(trr_carrier_params, damping, 8);
TRR_OFFSET(trr_carrier_params, max_offset, 16);
TRR_OFFSET(trr_carrier_params, kp, 24);
TRR_OFFSET(trr_carrier_params, ki, 28);
TRR_OFFSET(trr_carrier_params, max, 32);

TRR_SIZE(trr_nco, 8);
TRR_OFFSET(trr_nco, freq, 4);

TRR_SIZE(trr_lock, 8);
TRR_OFFSET(trr_lock, locked, 4);

TRR_SIZE(trr_carrier_track, 16);
TRR_OFFSET(trr_carrier_track, lock, 8);

TRR_SIZE(trr_carrier, 64);
TRR_OFFSET(trr_carrier, params, 8);
TRR_OFFSET(trr_carrier, track, 48);

TRR_SIZE(trr_carrier_set_up_answer, 72);
TRR_OFFSET(trr_carrier_set_up_answer, state, 8);

TRR_SIZE(trr_carrier_readings_answer, 56);
TRR_OFFSET(trr_carrier_readings_answer, values, 8);
TRR_OFFSET(trr_carrier_readings_answer, frequency, 32);
TRR_OFFSET(trr_carrier_readings_answer, phase, 40);
TRR_OFFSET(trr_carrier_readings_answer, lock_level, 44);
TRR_OFFSET(trr_carrier_readings_answer, locked, 48);

TRR_SIZE(trr_receiver, 232);
TRR_OFFSET(trr_receiver, carrier, 160);
TRR_OFFSET(trr_receiver, count, 224);
TRR_FIELD_SIZE(trr_receiver, count, 8);

TRR_SIZE(trr_receiver_set_up_answer, 240);
TRR_OFFSET(trr_receiver_set_up_answer, receiver, 8);

TRR_SIZE(trr_receiver_readings_answer, 128);
TRR_OFFSET(trr_receiver_readings_answer, carrier, 64);
TRR_OFFSET(trr_receiver_readings_answer, count, 120);
TRR_FIELD_SIZE(trr_receiver_readings_answer, count, 8);

TRR_CHECK(bits_of_trr_receiver_count, 8 * sizeof(((trr_receiver *)0)->count) == TRR_COUNT_BITS);
TRR_CHECK(bits_of_trr_receiver_readings_answer_count,
          8 * sizeof(((trr_receiver_readings_answer *)0)->count) == TRR_COUNT_BITS);

/* As the earlier library had its receiver (R19): these numbers stay. */
TRR_SIZE(trr_receiver_32, 232);
TRR_OFFSET(trr_receiver_32, carrier, 160);
TRR_OFFSET(trr_receiver_32, count, 224);
TRR_FIELD_SIZE(trr_receiver_32, count, 4);

TRR_SIZE(trr_receiver_narrow_answer, 240);
TRR_OFFSET(trr_receiver_narrow_answer, receiver, 8);

#undef TRR_FIELD_SIZE
#undef TRR_OFFSET
#undef TRR_SIZE
#undef TRR_CHECK

#ifdef __cplusplus
}
#endif

#endif
