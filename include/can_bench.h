/*
 * can_bench.h: the two questions that C firmware asks of the CAN driver.
 *
 * Link with libc_abi.a, which `rt lib`, run in crates/c_abi, writes to
 * crates/c_abi/out/.
 *
 * Both functions take and answer plain numbers. Each answers as said here for
 * every value of every argument, so the caller checks nothing first. They keep
 * no state and use no memory of the caller.
 */
#ifndef CAN_BENCH_H
#define CAN_BENCH_H

#include <stdint.h>

#ifdef __cplusplus
extern "C" {
#endif

/*
 * The wire length at which an FD write of a given length goes out.
 *
 *   length   how many data bytes are written: any number
 *
 * An FD frame has one of these lengths on the wire: 0 to 8, 12, 16, 20, 24,
 * 32, 48, 64. The answer is the smallest of them that is not below length,
 * and 255 if there is none:
 *
 *   length      answer
 *   0 to 8      length itself
 *   9 to 12     12
 *   13 to 16    16
 *   17 to 20    20
 *   21 to 24    24
 *   25 to 32    32
 *   33 to 48    48
 *   49 to 64    64
 *   above 64    255
 */
uint32_t can_fd_wire_length(uint32_t length);

/*
 * Whether the filter of a receiving object takes a frame.
 *
 *   identifier   the frame's identifier word: bit 31 marks an extended
 *                identifier, bit 30 an FD frame
 *   code, mask   the object's filter code and filter mask
 *   payload      the object's payload, in bytes
 *
 * The answer is 1 if all three of these hold, and 0 otherwise:
 *
 *   - identifier and code have the same bit 31, whatever the mask says;
 *   - identifier and code agree on every bit that is set in mask;
 *   - bit 30 of identifier is clear, or payload is exactly 64.
 *
 * The bits are taken as they stand, also where no configuration would allow
 * them: a mask may have any of its 32 bits set, an identifier may have bit 29
 * set, and every payload but 64 refuses an FD frame. Bit 30 is compared with
 * the code's only if the mask has it. That the frame came in on the object's
 * own controller is not asked here.
 */
uint32_t can_filter_accepts(uint32_t identifier, uint32_t code, uint32_t mask,
                            uint32_t payload);

#ifdef __cplusplus
}
#endif

#endif /* CAN_BENCH_H */
