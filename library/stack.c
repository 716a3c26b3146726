/* Measures the stack that a call of the library takes. Each call runs on a stack of FRAPMAST_STACK bytes, filled before,
   above a page that may not be touched. Bytes that are no longer as they were filled were used.

   usage: stack FILE     FILE: a session. It is played, and random ones too. Random frames are encoded and decoded back.
   The controller's calls are made on random channels, with frames on the bus, and on random bytes.

   The exit status is 1 where a call used more than half of FRAPMAST_STACK. One that uses more than all of it crashes. */
#define _DEFAULT_SOURCE
#include "frapmast.h"
#include <stdio.h>
#include <stdlib.h>
#include <string.h>
#include <sys/mman.h>
#include <ucontext.h>
#include <unistd.h>

enum { FILL = 0xA5, EVENTS = 4096, LONGEST = 80000 };

static uint8_t *stack;
static ucontext_t here, there;

/* the deepest use by each call */
enum { ENCODE, DECODE, PLAY, FRESH, RESET, WRITE, READ, SLOT, INTERRUPT, CALLS };
static const char *const names[] = {"encode", "decode", "play", "fresh", "reset", "write", "read", "slot", "interrupt"};
static size_t deepest[CALLS];

static void measured(void (*call)(void), int which)
{
    size_t k = 0;
    memset(stack, FILL, FRAPMAST_STACK);
    getcontext(&there);
    there.uc_stack.ss_sp = stack;
    there.uc_stack.ss_size = FRAPMAST_STACK;
    there.uc_link = &here;
    makecontext(&there, call, 0);
    swapcontext(&here, &there);
    while (k < FRAPMAST_STACK && stack[k] == FILL)
        k++;
    if (deepest[which] < FRAPMAST_STACK - k)
        deepest[which] = FRAPMAST_STACK - k;
}

/* ---- the calls, on values that stand outside of the stack */

static uint8_t data[FRAPMAST_MOST_BYTES], slots[LONGEST], session[LONGEST], listing[FRAPMAST_MOST_LISTING], answered;
static uint32_t identifier, command;
static size_t data_count, slot_count, session_length, room, length;
static uint16_t head[4], address, value;
static uint8_t map[FRAPMAST_MAP], row[FRAPMAST_ROW], level;

static void encode(void)
{
    answered = frapmast_encode(identifier, command, data, data_count, true, slots, sizeof slots, &slot_count);
}

static void decode(void) { answered = frapmast_decode(slots, slot_count, data, sizeof data, head); }
static void play(void) { answered = frapmast_play(session, session_length, listing, room, &length); }
static void fresh(void) { frapmast_fresh(map, row); }
static void reset(void) { answered = frapmast_reset(map, row); }
static void host_write(void) { answered = frapmast_write(map, row, address, value); }
static void host_read(void) { answered = frapmast_read(map, row, address, &level); }
static void slot(void) { answered = frapmast_slot(map, row, value, &level); }
static void interrupt(void) { answered = frapmast_interrupt(map, row); }

/* in room for any listing, in room that just holds it, and in room that is one byte short */
static void played(void)
{
    room = sizeof listing;
    measured(play, PLAY);
    room = length;
    measured(play, PLAY);
    room--;
    measured(play, PLAY);
}

/* ---- cases */

static void frame(size_t bytes)
{
    identifier = rand() % 4096;
    command = rand() % 16;
    for (data_count = 0; data_count < bytes; data_count++)
        data[data_count] = rand();
    measured(encode, ENCODE);
    measured(decode, DECODE);
    slots[rand() % slot_count] ^= 1;
    measured(decode, DECODE);
}

/* data without end: every fourth bit is followed by its opposite */
static void endless(void)
{
    static const uint8_t start[] = {0, 0, 0, 0, 1, 1, 1, 1, 0, 1}, nibble[] = {0, 1, 1, 0, 1};
    for (slot_count = 0; slot_count < sizeof slots; slot_count++)
        slots[slot_count] = slot_count < sizeof start ? start[slot_count] : nibble[slot_count % sizeof nibble];
    measured(decode, DECODE);
}

static void put(unsigned value)
{
    for (; value > 127; value >>= 7)
        session[session_length++] = 128 | (value & 127);
    session[session_length++] = value;
}

static void random_session(void)
{
    static const int operands[] = {0, 2, 1, 1, 1};
    session_length = 0;
    put(1), put(EVENTS);
    for (int event = 0; event < EVENTS; event++) {
        int kind = rand() % 5;
        put(kind);
        for (int k = 0; k < operands[kind]; k++)
            put(rand() % (rand() % 4 ? kind == 3 ? 8 : 256 : 65536));
    }
    if (rand() % 2)
        session_length--;
    played();
}

/* ---- the controller's calls */

static void written(uint16_t where, uint16_t what)
{
    address = where, value = what;
    measured(host_write, WRITE);
}

/* channels that take or send a frame, whatever its identifier, and a retry setting; then ACTI */
static void set_up(void)
{
    for (int k = 0x10; k < 0x80; k++)
        written(k, k % 8 == 3 ? 8 * (rand() % 32) + rand() % 4 : k % 8 > 5 ? 0 : rand());
    written(0x01, rand() % 4 * 16 + 2 + rand() % 2);
    written(0x02, rand() % 4 ? 0 : rand() % 256);
    written(0x03, 0x10);
}

static void host_access(void)
{
    address = rand() % (rand() % 16 ? 256 : 65536);
    measured(host_read, READ);
    if (rand() % 4 == 0)
        written(0x13 + 8 * (rand() % 14), 8 * (rand() % 32) + rand() % 8);
    if (rand() % 16 == 0)
        written(rand() % 256, rand() % (rand() % 16 ? 256 : 65536));
    measured(interrupt, INTERRUPT);
}

/* a slot: dominant where the model drives it so, or the other module */
static void bus(uint8_t other)
{
    static uint8_t driven = 1;
    value = rand() % 500 ? other & driven ? 7 : 0 : rand() % 10;
    measured(slot, SLOT);
    driven = level;
    if (rand() % 40 == 0)
        host_access();
}

static void controller(void)
{
    measured(fresh, FRESH);
    set_up();
    for (int k = 0; k < 12; k++) {
        identifier = rand() % 4096;
        command = 8 + rand() % 8;
        data_count = command % 2 ? 0 : rand() % (FRAPMAST_MOST_BYTES + 1);
        encode();
        for (int rest = rand() % 100; rest > 0; rest--)
            bus(1);
        for (size_t i = 0; i < slot_count; i++)
            bus(slots[i]);
    }
    measured(reset, RESET);
}

/* any bytes, and bytes of a state of which some are changed */
static void any_bytes(bool all)
{
    for (int k = 0; k < FRAPMAST_ROW; k++)
        row[k] = all || rand() % 50 == 0 ? rand() : row[k];
    host_access();
    bus(rand() % 2);
    measured(reset, RESET);
}

static bool prepared(const char *path)
{
    FILE *file = fopen(path, "rb");
    size_t page = sysconf(_SC_PAGESIZE);
    uint8_t *all = mmap(NULL, page + FRAPMAST_STACK, PROT_NONE, MAP_PRIVATE | MAP_ANONYMOUS, -1, 0);
    if (!file || all == MAP_FAILED || mprotect(all + page, FRAPMAST_STACK, PROT_READ | PROT_WRITE))
        return false;
    stack = all + page;
    session_length = fread(session, 1, sizeof session, file);
    return true;
}

/* the measures; whether one is more than half of what the header allows for */
static bool told(void)
{
    bool over = false;
    printf("stack used, bytes at most:");
    for (int k = 0; k < CALLS; k++) {
        printf(" %s %zu%s", names[k], deepest[k], k < CALLS - 1 ? "," : "; ");
        over |= deepest[k] > FRAPMAST_STACK / 2;
    }
    printf("the header allows for %d\n", FRAPMAST_STACK);
    return over;
}

int main(int words, char **word)
{
    if (words != 2 || !prepared(word[1])) {
        fprintf(stderr, words == 2 ? "stack: no session, or no memory\n" : "usage: stack FILE\n");
        return 2;
    }
    played();
    endless();
    for (int k = 0; k < 2000; k++)
        frame(k % (FRAPMAST_MOST_BYTES + 1));
    for (int k = 0; k < 50; k++)
        random_session();
    for (int k = 0; k < 300; k++)
        controller(), any_bytes(false), any_bytes(true);
    return told();
}
