/* Compares the proved codec with a second one, written here from the rules (01, Frames on the line; Numbers refused;
   Session and listing) by other means, plays random bytes as sessions, and runs the controller's calls against the
   player.

   usage: compare FILE [SEED [FRAMES [LISTS [SESSIONS [RUNS]]]]]    FILE: a session, whose damaged copies are played too

   The same seed gives the same cases. The first difference is printed with its case, and the exit status is then 1.
   Whatever is lent to the library stands against a page that may not be touched, so that a read or write outside of it
   is a crash. */
#define _DEFAULT_SOURCE
#include "frapmast.h"
#include <signal.h>
#include <stdarg.h>
#include <stdio.h>
#include <stdlib.h>
#include <string.h>
#include <sys/mman.h>
#include <unistd.h>

/* ---- the case under way, and how a difference is told */

static const char *phase = "nothing";
static unsigned long seed = 1, number_of_case;

static void show(const char *name, const uint8_t *bytes, size_t n)
{
    printf("  %s, %zu:", name, n);
    for (size_t i = 0; i < n; i++)
        printf(" %02X", bytes[i]);
    printf("\n");
}

static void begin_difference(const char *what)
{
    printf("DIFFERENCE: %s (%s, case %lu, seed %lu)\n", what, phase, number_of_case, seed);
}

static void crashed(int which)
{
    char text[160];
    int n = snprintf(text, sizeof text, "CRASH: signal %d (%s, case %lu, seed %lu)\n", which, phase, number_of_case, seed);
    if (write(STDOUT_FILENO, text, n) < 0)
        _exit(2);
    _exit(1);
}

/* ---- random numbers (splitmix64) */

static uint64_t state;

static uint64_t draw(void)
{
    uint64_t z = state += 0x9E3779B97F4A7C15u;
    z = (z ^ z >> 30) * 0xBF58476D1CE4E5B9u;
    z = (z ^ z >> 27) * 0x94D049BB133111EBu;
    return z ^ z >> 31;
}

static size_t below(size_t n) { return draw() % n; }
static bool one_in(size_t n) { return below(n) == 0; }

/* ---- lent memory between two pages that may not be touched */

enum { MARGIN = 64 };
typedef struct { uint8_t *low, *high; } Fence;

static Fence fence(size_t bytes)
{
    size_t page = sysconf(_SC_PAGESIZE), inside = (bytes + MARGIN + page) / page * page;
    uint8_t *all = mmap(NULL, inside + 2 * page, PROT_NONE, MAP_PRIVATE | MAP_ANONYMOUS, -1, 0);
    if (all == MAP_FAILED || mprotect(all + page, inside, PROT_READ | PROT_WRITE)) {
        perror("compare: no memory");
        exit(2);
    }
    return (Fence){all + page, all + page + inside};
}

static Fence input, room, small;

/* n bytes against one fence or the other, filled with `with`; so is a margin on their open side */
static uint8_t *lend(Fence f, size_t n, uint8_t with)
{
    bool last = one_in(2);
    uint8_t *at = last ? f.high - n : f.low;
    memset(last ? at - MARGIN : at, with, n + MARGIN);
    return at;
}

static bool all_are(const uint8_t *at, size_t n, uint8_t with)
{
    return n == 0 || (at[0] == with && memcmp(at, at + 1, n - 1) == 0);
}

/* the margin is as it was */
static bool beside(Fence f, const uint8_t *at, size_t n, uint8_t with)
{
    return all_are(at == f.low ? at + n : at - MARGIN, MARGIN, with);
}

static uint8_t *lend_copy(const uint8_t *bytes, size_t n)
{
    uint8_t *at = lend(input, n, 0xEE);
    memcpy(at, bytes, n);
    return at;
}

/* ---- the second codec */

typedef struct { uint32_t identifier, command; uint8_t data[64]; size_t n; bool acknowledge; } Frame;
typedef struct { uint8_t bit[640]; size_t n; } Row;
typedef struct { uint8_t slot[1024]; size_t n; } Slots;

static void add(Row *row, uint32_t value, int width)
{
    while (width-- > 0)
        row->bit[row->n++] = value >> width & 1;
}

static uint32_t part(const Row *row, size_t from, size_t width)
{
    uint32_t value = 0;
    for (size_t i = 0; i < width; i++)
        value = 2 * value + row->bit[from + i];
    return value;
}

/* Division as on paper: the first fifteen bits turned over (start all ones), fifteen zeros behind, and for each one met
   the polynomial taken off. What is left is complemented. */
static uint32_t check_of(const Row *row)
{
    static const int powers[] = {15, 11, 10, 9, 8, 7, 4, 3, 2, 0};
    Row rest = *row;
    uint32_t check = 0;
    memset(rest.bit + rest.n, 0, 15);
    for (int i = 0; i < 15; i++)
        rest.bit[i] ^= 1;
    for (size_t i = 0; i < row->n; i++)
        if (rest.bit[i])
            for (size_t k = 0; k < sizeof powers / sizeof *powers; k++)
                rest.bit[i + 15 - powers[k]] ^= 1;
    for (int i = 0; i < 15; i++)
        check = 2 * check + (rest.bit[row->n + i] ^ 1);
    return check;
}

static void send(Slots *s, const char *levels)
{
    while (*levels)
        s->slot[s->n++] = *levels++ - '0';
}

/* every fourth bit is followed by its opposite */
static void send_row(Slots *s, const Row *row)
{
    for (size_t i = 0; i < row->n; i++) {
        s->slot[s->n++] = row->bit[i];
        if (i % 4 == 3)
            s->slot[s->n++] = 1 - row->bit[i];
    }
}

static void slots_of(const Frame *f, Slots *s)
{
    Row row = {.n = 0};
    add(&row, f->identifier, 12);
    add(&row, f->command, 4);
    for (size_t i = 0; i < f->n; i++)
        add(&row, f->data[i], 8);
    add(&row, check_of(&row), 15);
    s->n = 0;
    send(s, "0000111101");
    send_row(s, &row);
    send(s, f->acknowledge ? "0010" : "0011");
    send(s, "11111111");
}

static int encode(const Frame *f, size_t room_for, Slots *s)
{
    s->n = 0;
    if (f->identifier > 4095)
        return 10;
    if (f->command > 15)
        return 11;
    if (f->n > 30)
        return 12;
    if (room_for < 60 + 10 * f->n)
        return 13;
    slots_of(f, s);
    return 0;
}

typedef struct { const uint8_t *at, *end; } Reader;

static int level(Reader *r) { return r->at == r->end ? -1 : *r->at++; }

/* slots that are fixed: a wrong one is the fault, a missing one 26 */
static int fixed(Reader *r, const char *levels, int fault)
{
    for (; *levels; levels++) {
        int v = level(r);
        if (v < 0)
            return 26;
        if (v != *levels - '0')
            return fault;
    }
    return 0;
}

/* bits up to the end of data */
static int row_read(Reader *r, Row *row)
{
    for (row->n = 0;;) {
        for (int i = 0; i < 3; i++)
            row->bit[row->n++] = level(r);
        int a = level(r), b = level(r);
        if (b < 0)
            return 26;
        if (a == b)
            return a ? 21 : 0;
        row->bit[row->n++] = a;
        if (row->n == 4 * 68)
            return 22;
    }
}

/* length, then check */
static int row_judged(const Row *row, Frame *f)
{
    size_t nibbles = row->n / 4;
    Row covered = *row;
    if (nibbles % 2 == 0 || nibbles < 7 || nibbles > 67)
        return 22;
    covered.n -= 15;
    if (part(row, covered.n, 15) != check_of(&covered))
        return 23;
    f->identifier = part(row, 0, 12);
    f->command = part(row, 12, 4);
    f->n = (nibbles - 7) / 2;
    for (size_t i = 0; i < f->n; i++)
        f->data[i] = part(row, 16 + 8 * i, 8);
    return 0;
}

static int decode(const Slots *s, size_t room_for, Frame *f)
{
    Reader r = {s->slot, s->slot + s->n};
    Row row;
    int why, v;
    for (size_t i = 0; i < s->n; i++)
        if (s->slot[i] > 1)
            return 5;
    if ((why = fixed(&r, "0000111101", 20)) || (why = row_read(&r, &row)) || (why = row_judged(&row, f)))
        return why;
    if ((why = fixed(&r, "1", 24)))
        return why;
    if ((v = level(&r)) < 0)
        return 26;
    f->acknowledge = v == 0;
    if ((why = fixed(&r, "11111111", 25)))
        return why;
    if (r.at < r.end)
        return 27;
    return room_for < f->n ? 13 : 0;
}

/* the second codec's check on frames captured on real buses, and on nine plain bytes */
static void check_captured(void)
{
    static const struct { uint32_t identifier, command; const char *data; size_t n; uint32_t check; } captured[] = {
        {0x4D4, 0xE, "\x82\x0C\x01\x00\x11\x00\x3F\x3F\x3F\x3F\x82", 11, 0x7BA4 / 2},
        {0x5E4, 0xC, "\x00\xFF", 2, 0x1FF8 / 2},
        {0x8C4, 0xC, "\x8A\x21\x40", 3, 0x3D54 / 2},
        {0x313, 0x2, "3456789", 7, 0x6B39},
    };
    for (size_t k = 0; k < sizeof captured / sizeof *captured; k++) {
        Row row = {.n = 0};
        add(&row, captured[k].identifier, 12);
        add(&row, captured[k].command, 4);
        for (size_t i = 0; i < captured[k].n; i++)
            add(&row, (uint8_t)captured[k].data[i], 8);
        if (check_of(&row) != captured[k].check) {
            printf("compare: its own check is wrong on captured frame %zu: %04X\n", k, check_of(&row));
            exit(2);
        }
    }
}

/* ---- both codecs on one case */

static void show_frame(const char *name, int why, const Frame *f)
{
    printf("  %s: %d, identifier %u, command %u, acknowledge %d\n", name, why, f->identifier, f->command, f->acknowledge);
    show("data", f->data, f->n);
}

static int compare_encode(const Frame *f, size_t room_for, Slots *s)
{
    uint8_t fill = draw(), *bytes = lend_copy(f->data, f->n), *out = lend(room, room_for, fill);
    size_t *count = (size_t *)lend(small, sizeof *count, fill);
    int due = encode(f, room_for, s);
    int got = frapmast_encode(f->identifier, f->command, bytes, f->n, f->acknowledge, out, room_for, count);
    bool same = got == due && *count == s->n && memcmp(out, s->slot, s->n) == 0
        && all_are(out + s->n, room_for - s->n, fill) && beside(room, out, room_for, fill)
        && beside(small, (uint8_t *)count, sizeof *count, fill) && memcmp(bytes, f->data, f->n) == 0;
    if (same)
        return due;
    begin_difference("encode");
    show_frame("due", due, f);
    show("slots due", s->slot, s->n);
    printf("  answered: %d, count %zu, fill %02X\n", got, *count, fill);
    show("room", out, room_for);
    exit(1);
}

/* The due answer, f filled where it is 0. A frame that was read has these very slots: no list has two readings. */
static int compare_decode(const Slots *s, size_t room_for, Frame *f)
{
    uint8_t fill = draw(), *slots = lend_copy(s->slot, s->n), *out = lend(room, room_for, fill);
    uint16_t *head = (uint16_t *)lend(small, 8, fill);
    int due = decode(s, room_for, f);
    if (due)
        *f = (Frame){.n = 0};
    int got = frapmast_decode(slots, s->n, out, room_for, head);
    bool same = got == due && head[0] == f->identifier && head[1] == f->command && head[2] == f->n
        && head[3] == f->acknowledge && memcmp(out, f->data, f->n) == 0
        && all_are(out + f->n, room_for - f->n, fill) && beside(room, out, room_for, fill)
        && beside(small, (uint8_t *)head, 8, fill) && memcmp(slots, s->slot, s->n) == 0;
    if (same && !due) {
        Slots again;
        slots_of(f, &again);
        same = again.n == s->n && memcmp(again.slot, s->slot, s->n) == 0;
    }
    if (same)
        return due;
    begin_difference("decode");
    show("slots", s->slot, s->n);
    show_frame("due", due, f);
    printf("  answered: %d, head %u %u %u %u, fill %02X\n", got, head[0], head[1], head[2], head[3], fill);
    show("room", out, room_for);
    exit(1);
}

/* ---- random frames */

static void random_frame(Frame *f)
{
    *f = (Frame){.identifier = below(4096), .command = below(16), .n = below(31), .acknowledge = one_in(2)};
    for (size_t i = 0; i < f->n; i++)
        f->data[i] = one_in(8) ? (one_in(2) ? 0xFF : 0) : draw();
}

/* a frame that may break any of 10, 11 and 12 */
static void spoil(Frame *f)
{
    if (one_in(2))
        f->identifier = one_in(4) ? 4096 : one_in(4) ? UINT32_MAX : draw();
    if (one_in(2))
        f->command = one_in(4) ? 16 : one_in(4) ? UINT32_MAX : draw();
    if (one_in(2))
        f->n = 28 + below(8);
}

static size_t random_room(size_t exact)
{
    switch (below(6)) {
    case 0: return exact - 1;
    case 1: return below(exact + 1);
    case 2: return exact + below(100);
    default: return exact;
    }
}

/* how often each number was answered, by both */
static unsigned long answers[256];

static void tell_answers(void)
{
    printf(" ");
    for (int k = 0; k < 256; k++)
        if (answers[k])
            printf(" %d: %lu ", k, answers[k]);
    printf("\n");
    memset(answers, 0, sizeof answers);
}

static void one_frame(void)
{
    Frame f, back;
    Slots s;
    random_frame(&f);
    if (one_in(8))
        spoil(&f);
    int due = compare_encode(&f, random_room(60 + 10 * f.n), &s);
    answers[due]++;
    if (due)
        return;
    if (compare_decode(&s, f.n + below(3), &back) || back.identifier != f.identifier || back.command != f.command
        || back.acknowledge != f.acknowledge || back.n != f.n || memcmp(back.data, f.data, f.n)) {
        begin_difference("a frame does not come back");
        show_frame("sent", 0, &f);
        show_frame("back", 0, &back);
        exit(1);
    }
}

/* ---- damaged slot lists */

static void insert(Slots *s, size_t at, uint8_t v)
{
    memmove(s->slot + at + 1, s->slot + at, s->n++ - at);
    s->slot[at] = v;
}

static void delete(Slots *s, size_t at) { memmove(s->slot + at, s->slot + at + 1, --s->n - at); }

static void damage(Slots *s)
{
    size_t at = s->n ? below(s->n) : 0;
    switch (s->n ? below(9) : 7) {
    case 0: case 1: s->slot[at] ^= 1; break;
    case 2: s->slot[at] = 2 + below(254); break;
    case 3: insert(s, at, below(2)); break;
    case 4: delete(s, at); break;
    case 5: s->n = at; break;
    case 6: s->slot[s->n - 1 - at % (s->n < 14 ? s->n : 14)] ^= 1; break; /* near the end */
    case 7: for (size_t k = 1 + below(12); k > 0; k--) s->slot[s->n++] = below(2); break;
    case 8: memmove(s->slot, s->slot + at, s->n -= at); break;
    }
}

/* any number of nibbles, the check often right, so that length and check are judged apart */
static void any_length(Slots *s)
{
    Row row = {.n = 0};
    size_t bits = 4 * below(70) + 3;
    while (row.n < bits)
        add(&row, below(2), 1);
    if (bits >= 15 && !one_in(3)) {
        row.n -= 15;
        add(&row, check_of(&row), 15);
    }
    s->n = 0;
    send(s, "0000111101");
    send_row(s, &row);
    send(s, one_in(8) ? "11" : "00");
    send(s, one_in(2) ? "10" : "11");
    send(s, "11111111");
}

static void one_list(void)
{
    Frame f;
    Slots s = {.n = 0};
    size_t kind = below(8);
    if (kind < 5) {
        random_frame(&f);
        slots_of(&f, &s);
    } else if (kind < 7) {
        any_length(&s);
    } else {
        send(&s, one_in(2) ? "0000111101" : "");
        for (size_t k = below(400); k > 0; k--)
            s.slot[s.n++] = below(2);
    }
    for (size_t k = kind < 5 ? 1 + below(3) : below(2); k > 0; k--)
        damage(&s);
    answers[compare_decode(&s, one_in(3) ? below(32) : 30, &f)]++;
}

/* ---- sessions: a second reader, with what each line must say. Open are only bytes read and levels driven. */

typedef struct { const char *at, *end; } Text;

__attribute__((format(printf, 2, 3)))
static bool says(Text *t, const char *format, ...)
{
    char due[80];
    va_list values;
    va_start(values, format);
    int n = vsnprintf(due, sizeof due, format, values);
    va_end(values);
    if (t->end - t->at < n || memcmp(t->at, due, n))
        return false;
    t->at += n;
    return true;
}

static bool says_end(Text *t, long count)
{
    return says(t, "end %ld\n", count) && t->at == t->end;
}

/* the fault's number, its place, and the bytes looked at from there on */
static bool says_bad(Text *t, long why, size_t place, size_t looked)
{
    return says(t, "bad %ld at %zu after %zu\n", why, place, looked) && t->at == t->end;
}

/* the number at *at, which moves behind what was looked at; or its fault, negative */
static long number(const uint8_t *s, size_t n, size_t *at)
{
    long value = 0;
    for (int group = 0; group < 3; group++) {
        if (*at == n)
            return -30;
        uint8_t b = s[(*at)++];
        if (group == 2 && b > 3)
            return -32;
        if (group > 0 && b == 0)
            return -31;
        value += (long)(b & 127) << 7 * group;
        if (b < 128)
            return value;
    }
    return -32;
}

static bool read_only(long a) { return (a >= 4 && a <= 7) || a == 9; }
static bool write_only(long a) { return a == 3 || a == 11; }
static bool reserved(long a) { return a == 8 || (a >= 12 && a <= 15); }

static int write_refused(bool asleep, long a, long v)
{
    if (asleep)
        return 7;
    if (a > 255)
        return 1;
    if (v > 255)
        return 2;
    if (read_only(a) || reserved(a))
        return 3;
    return (a == 1 && (v & 14) != 2) || (a == 3 && (v & 6)) ? 8 : 0;
}

static int read_refused(bool asleep, long a)
{
    if (asleep)
        return 7;
    if (a > 255)
        return 1;
    return write_only(a) || reserved(a) ? 4 : 0;
}

static bool hexadecimal(Text *t)
{
    for (int k = 0; k < 2; k++, t->at++)
        if (t->at == t->end || !*t->at || !strchr("0123456789ABCDEF", *t->at))
            return false;
    return says(t, "\n");
}

static unsigned long ends, bads, events, dominant;

static bool line(Text *t, long index, long kind, const long *operand, bool *asleep)
{
    int why;
    switch (kind) {
    case 0:
        *asleep = false;
        return says(t, "%ld reset ok\n", index);
    case 1:
        if ((why = write_refused(*asleep, operand[0], operand[1])))
            return says(t, "%ld write %02lX refused %d\n", index, operand[0], why);
        *asleep = operand[0] == 3 && (operand[1] & 0xC0) == 0x40; /* SLEEP, and no GRES before it */
        return says(t, "%ld write %02lX ok\n", index, operand[0]);
    case 2:
        if ((why = read_refused(*asleep, operand[0])))
            return says(t, "%ld read %02lX refused %d\n", index, operand[0], why);
        return says(t, "%ld read %02lX ", index, operand[0]) && hexadecimal(t);
    case 3:
        if (operand[0] > 7)
            return says(t, "%ld slot %ld refused 5\n", index, operand[0]);
        if (!says(t, "%ld slot %ld drives ", index, operand[0]))
            return false;
        if (says(t, "1\n"))
            return true;
        dominant++;
        return says(t, "0\n");
    default:
        return says(t, "%ld mark %ld\n", index, operand[0]);
    }
}

static bool listing_right(const uint8_t *s, size_t n, Text t)
{
    static const int operands[] = {0, 2, 1, 1, 1};
    size_t at = 0, first = 0;
    bool asleep = false;
    bads++;
    long version = number(s, n, &at), count, kind, operand[2];
    if (version != 1)
        return says_bad(&t, version < 0 ? -version : 33, first, at - first);
    first = at;
    if ((count = number(s, n, &at)) < 0 || count > 4096)
        return says_bad(&t, count < 0 ? -count : 34, first, at - first);
    if (!says(&t, "events %ld\n", count))
        return false;
    for (long index = 0; index < count; index++) {
        first = at;
        if ((kind = number(s, n, &at)) < 0 || kind > 4)
            return says_bad(&t, kind < 0 ? -kind : 35, first, at - first);
        for (int k = 0; k < operands[kind]; k++) {
            first = at;
            if ((operand[k] = number(s, n, &at)) < 0)
                return says_bad(&t, -operand[k], first, at - first);
        }
        if (!line(&t, index, kind, operand, &asleep))
            return false;
        events++;
    }
    if (at < n)
        return says_bad(&t, 36, at, 0);
    bads--, ends++;
    return says_end(&t, count);
}

static void session_differs(const char *what, const uint8_t *s, size_t n, int got, const uint8_t *text, size_t length)
{
    begin_difference(what);
    show("session", s, n);
    printf("  answered: %d, length %zu; the listing:\n", got, length);
    fwrite(text, 1, length <= FRAPMAST_MOST_LISTING ? length : 0, stdout);
    exit(1);
}

/* the same session in other room: its listing again, or 13 and nothing written */
static void compare_room(const uint8_t *s, size_t n, const uint8_t *listing, size_t length, size_t room_for)
{
    uint8_t fill = draw(), *session = lend_copy(s, n), *out = lend(room, room_for, fill);
    size_t *count = (size_t *)lend(small, sizeof *count, fill), due = room_for < length ? 0 : length;
    int got = frapmast_play(session, n, out, room_for, count);
    bool same = got == (due ? 0 : 13) && *count == due && memcmp(out, listing, due) == 0
        && all_are(out + due, room_for - due, fill) && beside(room, out, room_for, fill)
        && beside(small, (uint8_t *)count, sizeof *count, fill) && memcmp(session, s, n) == 0;
    if (same)
        return;
    printf("room for %zu bytes, %zu due, %zu answered\n", room_for, due, *count);
    session_differs("room", s, n, got, listing, length);
}

/* in room for any listing; in room that just holds it, that is one byte short, and that is long or short by chance */
static void compare_play(const uint8_t *s, size_t n)
{
    static uint8_t listing[FRAPMAST_MOST_LISTING];
    size_t length;
    int got = frapmast_play(s, n, listing, sizeof listing, &length);
    if (got || length > sizeof listing || !listing_right(s, n, (Text){(char *)listing, (char *)listing + length}))
        session_differs("listing", s, n, got, listing, length);
    compare_room(s, n, listing, length, FRAPMAST_MOST_LISTING);
    compare_room(s, n, listing, length, length);
    compare_room(s, n, listing, length, length - 1);
    compare_room(s, n, listing, length, one_in(2) ? below(length) : length + below(1000));
}

/* ---- random sessions */

enum { LONGEST = 80000 };
typedef struct { uint8_t byte[LONGEST]; size_t n; } Session;

static void put(Session *s, unsigned value)
{
    for (; value > 127; value >>= 7)
        s->byte[s->n++] = 128 | (value & 127);
    s->byte[s->n++] = value;
}

static unsigned random_address(void)
{
    return one_in(40) ? below(65536) : one_in(3) ? below(16) : one_in(2) ? 0x10 + below(0x70) : below(256);
}

static unsigned random_value(unsigned address)
{
    if (address == 1 && !one_in(20))
        return (draw() & 0xF1) | 2;
    if (address == 3 && !one_in(20))
        return one_in(20) ? draw() & 0xF9 : one_in(3) ? 0x18 : 0x10;
    if (address >= 0x10 && address < 0x80 && address % 8 == 3 && one_in(2))
        return 8 * (1 + below(8)) + below(4);
    return one_in(60) ? below(65536) : below(256);
}

/* most often host access; the answer is how many events were put */
static unsigned host_event(Session *s)
{
    unsigned address = random_address();
    switch (below(16)) {
    case 0: put(s, 4), put(s, below(65536)); break;
    case 1: if (one_in(10)) put(s, 0); else put(s, 3), put(s, below(one_in(10) ? 65536 : 9)); break;
    case 2: case 3: case 4: case 5: put(s, 2), put(s, address); break;
    default: put(s, 1), put(s, address), put(s, random_value(address)); break;
    }
    return 1;
}

/* a frame of another module, or rest, on all three inputs */
static unsigned line_events(Session *s, unsigned most)
{
    Frame f;
    Slots slots = {.n = 0};
    if (one_in(2)) {
        random_frame(&f);
        f.n %= 5;
        f.command |= one_in(8) ? 0 : 8;
        slots_of(&f, &slots);
        if (one_in(3))
            damage(&slots);
    } else {
        for (size_t k = 1 + below(24); k > 0; k--)
            slots.slot[slots.n++] = 1;
    }
    unsigned k = 0;
    for (; k < slots.n && k < most; k++)
        put(s, 3), put(s, slots.slot[k] % 2 ? 7 : one_in(200) ? below(8) : 0);
    return k;
}

/* random events; the answer is how many */
static unsigned random_events(Session *body)
{
    unsigned count = 0, most = one_in(50) ? 4096 : below(400);
    body->n = 0;
    while (count < most)
        count += one_in(3) ? line_events(body, most - count) : host_event(body);
    return count;
}

static void events_session(Session *s)
{
    static Session body;
    unsigned count = random_events(&body);
    s->n = 0;
    put(s, one_in(50) ? below(3) : 1);
    put(s, one_in(20) ? below(5000) : one_in(20) ? count + 1 : count);
    memcpy(s->byte + s->n, body.byte, body.n);
    s->n += body.n;
}

static void random_bytes(Session *s)
{
    size_t most = one_in(1000) ? 70000 : one_in(20) ? 3000 : 64;
    s->n = 0;
    if (one_in(2))
        put(s, 1);
    if (one_in(2))
        put(s, below(4097));
    for (size_t k = below(most); k > 0; k--)
        s->byte[s->n++] = one_in(2) ? draw() : below(5);
}

static void spoil_session(Session *s)
{
    if (s->n == 0)
        return;
    size_t at = below(s->n);
    switch (below(5)) {
    case 0: s->byte[at] = draw(); break;
    case 1: s->byte[at] ^= 1 << below(8); break;
    case 2: s->n = at; break;
    case 3: memmove(s->byte + at, s->byte + at + 1, --s->n - at); break;
    case 4: memmove(s->byte + at + 1, s->byte + at, s->n++ - at), s->byte[at] = draw(); break;
    }
}

static Session example;

static void one_session(void)
{
    static Session s;
    size_t faults = one_in(2) ? 0 : 1 + below(3);
    switch (below(4)) {
    case 0: random_bytes(&s); break;
    case 1: s = example, faults++; break;
    default: events_session(&s); break;
    }
    while (faults-- > 0)
        spoil_session(&s);
    compare_play(s.byte, s.n);
}

/* ---- the controller's calls against the player: two ways through the same rules. An event is made by a call, put into
   a session and told as the line that is due. The session's listing must be these lines, byte for byte. */

static Fence map_fence, row_fence;
static struct { uint8_t *map, *row, fill; } lent;

typedef struct { uint8_t map[FRAPMAST_MAP], row[FRAPMAST_ROW]; } Copy;

static struct { Session body; char text[FRAPMAST_MOST_LISTING]; size_t length; unsigned count, driven; } played;

/* events compared, and how often they reached what a name says */
enum { STORED, SENT, REPLIED, ANSWERED, RETRIED, GIVEN_UP, MISTAKEN, FOUND, OUTCOMES };
static const char *const outcomes[] = {"stored", "sent", "replies", "answers", "retries", "given up", "receive errors",
                                       "line faults"};
static unsigned long reached[OUTCOMES], compared;

static void lend_state(void)
{
    lent.fill = one_in(4) ? 0 : draw();
    lent.map = lend(map_fence, FRAPMAST_MAP, lent.fill);
    lent.row = lend(row_fence, FRAPMAST_ROW, lent.fill);
    if (one_in(4))
        return;
    for (size_t k = 0; k < FRAPMAST_MAP; k++)
        lent.map[k] = draw();
    for (size_t k = 0; k < FRAPMAST_ROW; k++)
        lent.row[k] = draw();
}

static void copy_state(Copy *c)
{
    memcpy(c->map, lent.map, sizeof c->map);
    memcpy(c->row, lent.row, sizeof c->row);
}

static bool state_is(const Copy *c)
{
    return memcmp(c->map, lent.map, sizeof c->map) == 0 && memcmp(c->row, lent.row, sizeof c->row) == 0;
}

static bool beside_state(void)
{
    return beside(map_fence, lent.map, FRAPMAST_MAP, lent.fill) && beside(row_fence, lent.row, FRAPMAST_ROW, lent.fill);
}

static void call_differs(const char *what, const Copy *before, unsigned kind, const unsigned *operand, int why)
{
    begin_difference(what);
    printf("  event %u: kind %u, operands %u %u, answered %d\n", played.count, kind, operand[0], operand[1], why);
    show("map before", before->map, sizeof before->map);
    show("row before", before->row, sizeof before->row);
    show("map", lent.map, FRAPMAST_MAP);
    show("row", lent.row, FRAPMAST_ROW);
    exit(1);
}

static int call(unsigned kind, const unsigned *operand, uint8_t *value)
{
    switch (kind) {
    case 0: return frapmast_reset(lent.map, lent.row);
    case 1: return frapmast_write(lent.map, lent.row, operand[0], operand[1]);
    case 2: return frapmast_read(lent.map, lent.row, operand[0], value);
    default: return frapmast_slot(lent.map, lent.row, operand[0], value);
    }
}

/* An event by its call. A read and a refused call change no state, and a refused one writes 0 as its value. */
static int called(unsigned kind, const unsigned *operand, uint8_t *answer)
{
    uint8_t fill = draw(), *value = lend(small, 1, fill);
    Copy before;
    copy_state(&before);
    int why = call(kind, operand, value);
    if (why > 8)
        call_differs("an answer above 8", &before, kind, operand, why);
    if ((why || kind == 2) && !state_is(&before))
        call_differs("a read or a refused call changed the state", &before, kind, operand, why);
    if (kind < 2 ? *value != fill : why ? *value != 0 : kind == 3 && *value > 1)
        call_differs("value", &before, kind, operand, why);
    if (!beside(small, value, 1, fill) || !beside_state())
        call_differs("a byte beside was written", &before, kind, operand, why);
    *answer = *value;
    return why;
}

/* a register, or -1 where the read is refused; no event */
static int peek(unsigned address)
{
    uint8_t value;
    return called(2, (unsigned[]){address, 0}, &value) ? -1 : value;
}

/* the interrupt line by its registers, and nothing changes */
static void compare_interrupt(void)
{
    int status = peek(0x09), enable = peek(0x0A);
    Copy before;
    copy_state(&before);
    bool asserted = frapmast_interrupt(lent.map, lent.row);
    if (!state_is(&before) || !beside_state() || (status >= 0 && asserted != ((status & enable) != 0)))
        call_differs("interrupt", &before, 0, (unsigned[]){0, 0}, asserted);
}

/* ---- a run: its events, and their lines */

__attribute__((format(printf, 1, 2)))
static void tell(const char *format, ...)
{
    va_list values;
    va_start(values, format);
    played.length += vsnprintf(played.text + played.length, 80, format, values);
    va_end(values);
}

static void tell_end(int why, const char *format, unsigned value)
{
    char end[40];
    snprintf(end, sizeof end, why ? " refused %u" : format, why ? (unsigned)why : value);
    tell("%s\n", end);
}

static void tell_event(unsigned kind, const unsigned *operand, int why, uint8_t value)
{
    tell("%u ", played.count);
    switch (kind) {
    case 0: tell("reset"), tell_end(why, " ok", 0); break;
    case 1: tell("write %02X", operand[0]), tell_end(why, " ok", 0); break;
    case 2: tell("read %02X", operand[0]), tell_end(why, " %02X", value); break;
    case 3: tell("slot %u", operand[0]), tell_end(why, " drives %u", value); break;
    default: tell("mark %u\n", operand[0]); break;
    }
}

/* what the registers say of a slot: 0x04, 0x05 and 0x09 before and after it */
static void count_reached(const int *before, const int *after)
{
    int raised = after[2] & ~before[2];
    reached[STORED] += (raised & 3) != 0;
    reached[SENT] += (raised & 8) != 0;
    reached[REPLIED] += (raised & 8) && !(before[0] & 2);
    reached[ANSWERED] += (raised & 8) && (raised & 3);
    reached[RETRIED] += after[1] >> 4 > before[1] >> 4;
    reached[GIVEN_UP] += (raised & 16) != 0;
    reached[MISTAKEN] += (raised & 4) != 0;
    reached[FOUND] += (after[0] & ~before[0] & 12) != 0;
}

static void peek_statuses(int *status)
{
    status[0] = peek(0x04), status[1] = peek(0x05), status[2] = peek(0x09);
}

static const int operands_of[] = {0, 2, 1, 1, 1};

static void event(unsigned kind, unsigned first, unsigned second)
{
    unsigned operand[] = {first, second};
    int before[3], after[3], why = 0;
    uint8_t value = 0;
    if (played.count == 4096)
        return;
    put(&played.body, kind);
    for (int k = 0; k < operands_of[kind]; k++)
        put(&played.body, operand[k]);
    peek_statuses(before);
    if (kind < 4)
        why = called(kind, operand, &value);
    peek_statuses(after);
    if (kind == 3 && before[0] >= 0)
        count_reached(before, after);
    if (kind == 3 && !why)
        played.driven = value ^ (lent.map[0] >> 1 & 1); /* before the inversion by IVTX */
    compare_interrupt();
    tell_event(kind, operand, why, value);
    played.count++;
}

/* events that stand in a session's form */
static void events_of(const Session *body, unsigned count)
{
    size_t at = 0;
    while (count-- > 0) {
        unsigned operand[2] = {0, 0}, kind = number(body->byte, body->n, &at);
        for (int k = 0; k < operands_of[kind]; k++)
            operand[k] = number(body->byte, body->n, &at);
        event(kind, operand[0], operand[1]);
    }
}

static void begin_run(void)
{
    lend_state();
    frapmast_fresh(lent.map, lent.row);
    played.body.n = played.length = played.count = 0;
    played.driven = 1;
}

static void compare_run(void)
{
    static Session s;
    static char due[FRAPMAST_MOST_LISTING + 80];
    static uint8_t listing[FRAPMAST_MOST_LISTING];
    size_t length, n = sprintf(due, "events %u\n", played.count);
    memcpy(due + n, played.text, played.length);
    n += played.length;
    n += sprintf(due + n, "end %u\n", played.count);
    s.n = 0;
    put(&s, 1), put(&s, played.count);
    memcpy(s.byte + s.n, played.body.byte, played.body.n);
    s.n += played.body.n;
    int got = frapmast_play(s.byte, s.n, listing, sizeof listing, &length);
    compared += played.count;
    if (!got && length == n && memcmp(listing, due, n) == 0)
        return;
    printf("due by the calls:\n%.*s", (int)n, due);
    session_differs("calls and player", s.byte, s.n, got, listing, length);
}

/* ---- a bus: the model, and another module that sends, answers and acknowledges. A slot is dominant where one drives
   it so. `bus` is the frame under way as the line shows it, `own` what the other module sends of it. */

static struct { Slots bus, own; bool sends; unsigned closing, rest, wires; uint32_t base; } bench;

static uint32_t random_identifier(void)
{
    return one_in(12) ? below(4096) : one_in(3) ? bench.base ^ 1 << below(6) : bench.base;
}

static void begin(Frame *f)
{
    f->acknowledge = one_in(2) && (f->command & 4 || one_in(8));
    slots_of(f, &bench.own);
    if (one_in(8))
        damage(&bench.own);
    bench.sends = true;
}

static void begin_frame(void)
{
    static const uint8_t commands[] = {0xC, 0x8, 0xC, 0xF, 0xB, 0xE, 0xA};
    Frame f;
    random_frame(&f);
    f.identifier = random_identifier();
    f.command = one_in(16) ? below(16) : commands[below(sizeof commands)];
    f.n = f.command % 2 && !one_in(16) ? 0 : one_in(8) ? f.n : below(5);
    begin(&f);
}

/* a request was heard up to R/W: the other module answers from RTR on */
static void begin_answer(void)
{
    Frame f;
    Row row = {.n = 0};
    for (size_t i = 10; i < 28; i++)
        if (i % 5 != 4)
            row.bit[row.n++] = bench.bus.slot[i];
    random_frame(&f);
    f.identifier = part(&row, 0, 12);
    f.command = 2 * part(&row, 12, 3);
    f.n = below(6);
    begin(&f);
}

/* what the other module drives: its frame, an answer, an acknowledge, noise or nothing */
static unsigned others(void)
{
    size_t n = bench.bus.n;
    if (one_in(1500))
        return 0;
    if (!bench.sends && bench.closing == 2)
        return bench.bus.slot[26] == one_in(8); /* where RAK asks for it, most often */
    if (!bench.sends && n == 28 && bench.bus.slot[27] && one_in(2))
        begin_answer();
    return bench.sends && n < bench.own.n ? bench.own.slot[n] % 2 : 1;
}

/* the line's level into the frame under way: the pair 00 ends its data, ten slots later it is over */
static void heard(unsigned level)
{
    Slots *bus = &bench.bus;
    bench.rest = level && bus->n == 0 ? bench.rest + 1 : 0;
    if (bench.rest)
        return;
    if (bench.sends && bus->n < bench.own.n && bench.own.slot[bus->n] % 2 && !level)
        bench.sends = false;
    bus->slot[bus->n++] = level;
    bool paired = bus->n > 10 && bus->n % 5 == 0 && level == bus->slot[bus->n - 2];
    if (bench.closing)
        bench.closing++;
    else if (paired && !level)
        bench.closing = 1;
    if (bench.closing == 11 || (!bench.closing && paired && level) || bus->n == 400)
        bus->n = bench.closing = 0, bench.sends = false;
}

static void bus_slot(void)
{
    if (bench.bus.n == 0 && !bench.sends && one_in(bench.rest < 12 ? 100 : 12))
        begin_frame();
    unsigned level = others() & played.driven, levels = level ? 7 : bench.wires;
    if (one_in(3000))
        levels = below(8);
    event(3, levels ^ (lent.map[0] & 1 ? 7 : 0), 0);
    heard(level);
}

/* ---- the host of a run */

static void arm(unsigned channel)
{
    unsigned status = one_in(20) ? below(8) : below(4), length = one_in(8) ? below(32) : one_in(12) ? 0 : 1 + below(8);
    event(1, 0x13 + 8 * channel, 8 * length + status);
}

/* identifier, command, pointer, mask; then length and status */
static void set_channel(unsigned channel)
{
    unsigned at = 0x10 + 8 * channel, identifier = random_identifier();
    unsigned mask = one_in(8) ? below(4096) : one_in(2) ? 0xFC0 : 0xFFF;
    event(1, at, identifier >> 4);
    event(1, at + 1, (identifier & 15) << 4 | (one_in(20) ? below(16) : 8 + below(8)));
    event(1, at + 2, one_in(8) ? below(256) : below(128));
    event(1, at + 6, mask >> 4);
    event(1, at + 7, (mask & 15) << 4);
    arm(channel);
}

static void set_up(void)
{
    bench.base = below(4096), bench.wires = 0;
    bench.bus.n = bench.closing = bench.rest = 0, bench.sends = false;
    for (unsigned k = 0; k < 14; k++)
        if (one_in(3))
            set_channel(k);
        else
            event(1, 0x13 + 8 * k, 3);
    event(1, 0x01, below(4) << 4 | 2 | !one_in(3));
    event(1, 0x02, one_in(2) ? 0 : one_in(2) ? 12 : below(256));
    event(1, 0x00, one_in(8) ? below(4) : 0);
    event(1, 0x0A, below(256));
    event(1, 0x03, 0x10);
}

static void host_turn(void)
{
    static Session one;
    switch (below(14)) {
    case 0: case 1: case 2: case 3: arm(below(14)); break;
    case 4: set_channel(below(14)); break;
    case 5: event(2, 4 + below(4), 0), event(2, 9, 0); break;
    case 6: case 11: case 12: event(1, 0x0B, one_in(4) ? below(256) : 0xFF); break;
    case 7: event(1, 0x03, one_in(20) ? 0x40 : 0x10 | (one_in(3) ? 8 : 0) | one_in(6)); break;
    case 8: bench.wires = one_in(4) ? below(7) : 0; break; /* the levels of a dominant slot */
    case 9: event(2, 0x80 + below(128), 0); break;
    case 10: one.n = 0, events_of(&one, host_event(&one)); break;
    default: if (one_in(8) || peek(0x04) < 0) event(0, 0, 0), event(1, 0x03, 0x10); break;
    }
}

static void bus_run(unsigned most)
{
    set_up();
    while (played.count < most) {
        if (one_in(25))
            host_turn();
        bus_slot();
    }
}

static void one_run(void)
{
    static Session body;
    begin_run();
    if (one_in(4)) {
        unsigned count = random_events(&body);
        events_of(&body, count);
    } else {
        bus_run(one_in(8) ? 4096 : 100 + below(1500));
    }
    compare_run();
}

static void tell_runs(void)
{
    printf("  %lu events", compared);
    for (int k = 0; k < OUTCOMES; k++)
        printf(", %lu %s", reached[k], outcomes[k]);
    printf("\n");
}

/* ---- any bytes as map and row */

/* some bytes changed, or all of them; small numbers more often than not, so that many are in their ranges */
static void spoil_state(void)
{
    size_t faults = one_in(8) ? 400 : 1 + below(6);
    while (faults-- > 0) {
        uint8_t byte = one_in(2) ? below(5) : one_in(2) ? below(16) : draw();
        if (one_in(4))
            lent.map[below(FRAPMAST_MAP)] = byte;
        else
            lent.row[below(FRAPMAST_ROW)] = byte;
    }
}

static unsigned long out_of_range, in_range;

/* any event by its call: 6 where a read is refused with 6, and only there */
static void any_event(void)
{
    unsigned kind = below(8) < 5 ? 3 : below(16) ? 1 + below(2) : 0, address = random_address();
    unsigned operand[] = {kind == 3 ? below(one_in(20) ? 65536 : 8) : address, random_value(address)};
    uint8_t value;
    Copy before;
    copy_state(&before);
    bool broken = called(2, (unsigned[]){0x80, 0}, &value) == 6;
    int why = called(kind, operand, &value);
    out_of_range += broken, in_range += !broken;
    if ((why == 6) != broken)
        call_differs("6 by one call, and not by another", &before, kind, operand, why);
    compare_interrupt();
}

/* any bytes at first; then the state that a run left, spoiled, and events; and so again */
static void one_state(void)
{
    Copy good;
    lend_state();
    any_event();
    begin_run();
    bus_run(100 + below(300));
    copy_state(&good);
    for (size_t k = 20 + below(100); k > 0; k--) {
        if (one_in(8)) {
            memcpy(lent.map, good.map, sizeof good.map);
            memcpy(lent.row, good.row, sizeof good.row);
            spoil_state();
        }
        any_event();
    }
}

static void tell_states(void) { printf("  %lu events in range, %lu out of range\n", in_range, out_of_range); }

/* ---- the parts */

static void run(const char *name, unsigned long n, void (*one)(void))
{
    phase = name;
    for (number_of_case = 1; number_of_case <= n; number_of_case++)
        one();
    printf("%s: %lu\n", name, n);
    fflush(stdout);
}

static void read_example(const char *path)
{
    FILE *f = fopen(path, "rb");
    if (!f) {
        perror(path);
        exit(2);
    }
    example.n = fread(example.byte, 1, 70000, f);
    fclose(f);
}

int main(int n, char **word)
{
    static const int signals[] = {SIGSEGV, SIGBUS, SIGILL, SIGFPE, SIGTRAP};
    unsigned long frames = 1000000, lists = 1000000, sessions = 100000, runs = 10000;
    unsigned long *given[] = {&seed, &frames, &lists, &sessions, &runs};
    if (n < 2 || n > 7) {
        fprintf(stderr, "usage: compare FILE [SEED [FRAMES [LISTS [SESSIONS [RUNS]]]]]\n");
        return 2;
    }
    for (int i = 2; i < n; i++)
        *given[i - 2] = strtoul(word[i], NULL, 10);
    for (size_t i = 0; i < sizeof signals / sizeof *signals; i++)
        signal(signals[i], crashed);
    read_example(word[1]);
    input = fence(LONGEST), room = fence(FRAPMAST_MOST_LISTING + 1000), small = fence(100);
    map_fence = fence(FRAPMAST_MAP), row_fence = fence(FRAPMAST_ROW);
    state = seed;
    check_captured();
    run("frames", frames, one_frame);
    tell_answers();
    run("damaged slot lists", lists, one_list);
    tell_answers();
    phase = "the example", number_of_case = 0;
    compare_play(example.byte, example.n);
    run("sessions", sessions, one_session);
    printf("  %lu end, %lu bad, %lu events, %lu of them drive a 0\n", ends, bads, events, dominant);
    run("runs by calls and by the player", runs, one_run);
    tell_runs();
    run("states of any bytes", runs, one_state);
    tell_states();
    printf("%lu frames, %lu damaged slot lists, %lu sessions, %lu runs, %lu states: no difference\n", frames, lists,
           sessions, runs, runs);
    return 0;
}
