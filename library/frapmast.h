/* The frame codec, the bench player and the controller for C. The functions are proved in crates/frapmast;
   `library/build` builds the archive, crates/frapmast/out/libfrapmast.a, and links library/out/libfrapmast.so from it
   (x86-64 Linux; of the C library they need at most memcpy and memset). library/frapmast.py calls libfrapmast.so from
   Python.

   How to call
   - Bytes are passed as a pointer and a length. No pointer may be null, not even where the length is 0: point anywhere.
     Map and row are passed as a pointer alone, to FRAPMAST_MAP and FRAPMAST_ROW bytes.
   - What a call writes (room, count, length, head; map, row, value, level) must not overlap anything else that the call
     is given.
   - A room is lent: the call writes its answer at the front, and what lies behind the answer keeps its bytes.
   - acknowledge must be true or false, as <stdbool.h> makes them.
   - Every other argument may have any value. Nothing is kept between calls but what map and row hold, so threads may
     call at the same time, each with a map and a row of its own.
   - FRAPMAST_STACK bytes of stack are enough for any call. This is measured and not proved: library/stack.c finds about
     2,400 bytes for decode, 1,200 for play, and less than 1,000 for each other call, at most. A loader that binds memcpy
     and memset at their first call takes up to 3,200 more there.
   The proof takes the first two, the fourth and the last for granted: Rattle's types have no null, no overlap and no third
   truth value, its proofs know no end of the stack, and nothing can test them from inside.

   What encode, decode and play answer: 0, or the number of the rule that was broken. A refused call writes zero to
   count, length or head and nothing to the room.

      5  a slot level above 1            20  start               24  acknowledge
     10  identifier above 4095           21  pair 11             25  end of frame
     11  command above 15                22  length              26  cut short
     12  more than 30 data bytes         23  check               27  slots left over
     13  the room is too short */
#ifndef FRAPMAST_H
#define FRAPMAST_H

#include <stdbool.h>
#include <stddef.h>
#include <stdint.h>

#ifdef __cplusplus
extern "C" {
#endif

#define FRAPMAST_MOST_BYTES 30       /* data bytes of a frame, at most */
#define FRAPMAST_MOST_SLOTS 360      /* slots of a frame, at most: 60, and 10 for each data byte */
#define FRAPMAST_MOST_LISTING 327840 /* room that holds the listing of any session */
#define FRAPMAST_STACK 8192          /* bytes of stack that are enough for any call */

/* A frame to its slots, one byte a slot: 1 recessive, 0 dominant. Command is EXT RAK R/W RTR as four bits.
   0, and count is the number of slots written; or 10, 11, 12, 13, judged in this order. */
uint8_t frapmast_encode(uint32_t identifier, uint32_t command, const uint8_t *bytes, size_t bytes_length,
                        bool acknowledge, uint8_t *room, size_t room_length, size_t *count);

/* Slots to the frame that they are. 0, the data bytes stand in the room, and head is identifier, command, number of
   data bytes, acknowledge (1 present, 0 absent); or 5, 20 to 27 by place, 13 if the room is shorter than the data. */
uint8_t frapmast_decode(const uint8_t *slots, size_t slots_length, uint8_t *room, size_t room_length,
                        uint16_t head[4]);

/* A recorded session to its listing, text with no zero byte at its end. 0, and length is the listing's; or 13. A broken
   session has a listing too: its last line is `bad N at P after K`. In room of less than FRAPMAST_MOST_LISTING bytes the
   session is played twice, first for the listing's length, and the call takes two to three times as long. */
uint8_t frapmast_play(const uint8_t *session, size_t session_length, uint8_t *room, size_t room_length,
                      size_t *length);

/* ---- the controller, call by call

   Its state is two arrays that the caller lends: the memory map and the row. The row holds what is not in the map.
   - frapmast_fresh makes the state of a fresh controller, whatever the bytes were. Each other call goes on from the
     state that the last one left.
   - Any bytes may be lent. Where they hold a number outside of its range (docs/STATE.md), reset, write, read and slot
     answer 6.
   - Map and row together are the whole state. A copy of both saves it, and copied back they go on from there.
   - The places of the numbers in the row are no part of this interface. A row that one version of the library has made
     is not for another.
   - Map and row must not overlap.

   What reset, write, read and slot answer: 0, or the number of the refusal. A refused call changes no byte of map and
   row, and writes 0 to value or level.

      1  address above 255          4  a register write only or reserved    7  asleep
      2  value above 255            5  levels above 7                       8  0x01: the version bits are not 001;
      3  a register read only       6  a number of the state is outside        0x03: bits 2 and 1 are not zero
         or reserved                   of its range

   docs/REGISTERS.md has the registers. */
#define FRAPMAST_MAP 256 /* bytes of the memory map */
#define FRAPMAST_ROW 176 /* bytes of the row */

/* A fresh controller: idle, the registers at their reset values, channels and mailbox zero. */
void frapmast_fresh(uint8_t map[FRAPMAST_MAP], uint8_t row[FRAPMAST_ROW]);

/* Pin reset. 0 or 6. */
uint8_t frapmast_reset(uint8_t map[FRAPMAST_MAP], uint8_t row[FRAPMAST_ROW]);

/* A host write. 0; or 6, 7, 1, 2, 3, 8, judged in this order. */
uint8_t frapmast_write(uint8_t map[FRAPMAST_MAP], uint8_t row[FRAPMAST_ROW], uint16_t address, uint16_t value);

/* A host read. 0, and value is the byte read; or 6, 7, 1, 4, judged in this order. It changes nothing else. */
uint8_t frapmast_read(const uint8_t map[FRAPMAST_MAP], const uint8_t row[FRAPMAST_ROW], uint16_t address,
                      uint8_t *value);

/* A slot, with the levels of the inputs: RxD0 + 2 RxD1 + 4 RxD2, 1 recessive, 0 dominant. 0, and level is TXD in the
   next slot, after the inversion by IVTX; or 6, 5, judged in this order. */
uint8_t frapmast_slot(uint8_t map[FRAPMAST_MAP], uint8_t row[FRAPMAST_ROW], uint16_t levels, uint8_t *level);

/* Whether the interrupt line is asserted: status 0x09 and enable 0x0A share a one. It answers for any bytes. */
bool frapmast_interrupt(const uint8_t map[FRAPMAST_MAP], const uint8_t row[FRAPMAST_ROW]);

#ifdef __cplusplus
}
#endif

#endif
