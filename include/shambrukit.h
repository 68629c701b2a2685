/* Shambrukit: load sheets judged before they go out.
 *
 * Link with libshambrukit.a (README.md, "For C"). Every call takes any bytes, any numbers and any lengths; NULL with a length
 * of 0 is an empty input. Every call returns. A call that is refused writes nothing and returns its answer and place.
 *
 * answer
 *    0  accepted: in a verdict, the sheet fits; in any other call, no refusal applies
 *    1  length: fewer than 4 bytes, or the length field is not the number of bytes
 *    2  version: not 1
 *    3  count: not 1 to 8 graphs
 *    4  cut: the input ends inside a graph, or goes on after the last (place: the graph; the graph count for what is left over)
 *    5  size: actor or channel count out of bounds (place: the graph, as in 6 to 11)
 *    6  range: another field out of bounds, or an actor number that no actor has
 *    7  reach: an actor that the input does not reach or that does not reach the output
 *    8  balance: no balanced firing numbers up to 4,096
 *    9  once: input or output fires more than once in an iteration
 *   10  deadlock: no order fires every actor as often as an iteration asks
 *   11  restless: an actor other than the input can fire before anything arrives
 *   12  frame: the least common multiple of the periods is above 10,000,000
 *   13  question: K or length above 10,000,000
 *   14  room: the lent result is shorter than the result
 *   15  number: no such graph or actor
 *   20  overload: the frame load is above the frame (verdict only)
 *   21  late: demand is above some length; the smallest is returned (verdict only)
 *
 * place is the graph's number from 0 for answers 4 to 11, else 0.
 */
#ifndef SHAMBRUKIT_H
#define SHAMBRUKIT_H

#include <stddef.h>
#include <stdint.h>

#ifdef __cplusplus
extern "C" {
#endif

/* Frame load and frame with answers 0, 20 and 21; the smallest late length with 21 alone; else 0. */
struct shambrukit_verdict {
    uint64_t answer, place, load, frame, length;
};

/* The value asked for, or how many numbers or bytes were written; 0 with every refusal. */
struct shambrukit_result {
    uint64_t answer, place, value;
};

/* A sheet as bytes, and as the unpacked list of 32-bit numbers. */
struct shambrukit_verdict shambrukit_judge(const uint8_t *sheet, size_t bytes);
struct shambrukit_verdict shambrukit_judge_list(const uint32_t *list, size_t numbers);

/* Demand at a length, in ticks. */
struct shambrukit_result shambrukit_demand(const uint8_t *sheet, size_t bytes, uint64_t length);
struct shambrukit_result shambrukit_demand_list(const uint32_t *list, size_t numbers, uint64_t length);

/* Fewest firings of an actor of a graph towards k outputs. */
struct shambrukit_result shambrukit_fewest(const uint8_t *sheet, size_t bytes, uint64_t graph, uint64_t actor, uint64_t k);
struct shambrukit_result shambrukit_fewest_list(const uint32_t *list, size_t numbers, uint64_t graph, uint64_t actor, uint64_t k);

/* Repetition numbers and skips of a graph, one for each actor; its task list, three numbers a task: cost, deadline, period. */
struct shambrukit_result shambrukit_repetition(const uint8_t *sheet, size_t bytes, uint64_t graph, uint64_t *numbers, size_t room);
struct shambrukit_result shambrukit_repetition_list(const uint32_t *list, size_t count, uint64_t graph, uint64_t *numbers, size_t room);
struct shambrukit_result shambrukit_skips(const uint8_t *sheet, size_t bytes, uint64_t graph, uint64_t *numbers, size_t room);
struct shambrukit_result shambrukit_skips_list(const uint32_t *list, size_t count, uint64_t graph, uint64_t *numbers, size_t room);
struct shambrukit_result shambrukit_tasks(const uint8_t *sheet, size_t bytes, uint64_t graph, uint64_t *numbers, size_t room);
struct shambrukit_result shambrukit_tasks_list(const uint32_t *list, size_t count, uint64_t graph, uint64_t *numbers, size_t room);

/* From the sheet to the unpacked list and back. */
struct shambrukit_result shambrukit_unpack(const uint8_t *sheet, size_t bytes, uint32_t *list, size_t room);
struct shambrukit_result shambrukit_pack(const uint32_t *list, size_t numbers, uint8_t *sheet, size_t room);

#ifdef __cplusplus
}
#endif

#endif
