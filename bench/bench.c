/*
 * The time of one plan, the proved planners beside the plain C ones, on sheets, texts and captures made here; and whether the two answer alike.
 *
 * Both are compiled for x86-64 by the same compiler at -O3 and called in the same process. Each figure is the best of
 * many batches, so that a pause of the machine counts for nothing. No buffer is cleared between plans.
 */
#include "plain.h"

int printf(const char *form, ...);
int snprintf(char *to, size_t n, const char *form, ...);
void *memcpy(void *to, const void *from, size_t n);
int memcmp(const void *a, const void *b, size_t n);
struct timespec {
    long seconds;
    long nanoseconds;
};
int clock_gettime(int clock, struct timespec *now);

/* the proved planners, from the crate `exports`: a figure, or 2^32 and the refusal's number; *place is always set, to the refusal's
   place, else to 0, or to the stream that limits a ring */
uint64_t planner_pnet(const uint8_t *s, size_t n, uint32_t *bound, size_t bn, uint32_t *refined, size_t rn,
                      uint32_t *rounds, size_t cn, uint64_t *place);
uint64_t planner_urgent(const uint8_t *s, size_t n, uint32_t *places, size_t pn, uint32_t *figure, size_t fn,
                        uint32_t *rounds, size_t rn, uint64_t *place);
uint64_t planner_profibus(const uint8_t *s, size_t n, uint64_t *place);
uint64_t planner_worldfip(const uint8_t *s, size_t n, uint64_t *rows, size_t rn, uint64_t *place);
uint64_t planner_capture(const uint8_t *s, size_t n, const uint8_t *c, size_t m, uint64_t *answers, size_t an,
                         uint32_t *largest, size_t ln, uint64_t *above, size_t bn, uint8_t *left, size_t on,
                         uint64_t *place);
/* and sheets as text and rewritten: the length of what was written, or a refusal as above */
uint64_t planner_text_of(const uint8_t *s, size_t n, uint8_t *text, size_t room, uint64_t *place);
uint64_t planner_sheet_of(const uint8_t *text, size_t n, uint8_t *s, size_t room, uint64_t *place);
uint64_t planner_rewritten(const uint8_t *s, size_t n, uint8_t *new, size_t room, uint64_t *place);

static uint8_t sheet[16384];
static size_t length;
static uint32_t ours[3][32], theirs[3][32];
static uint32_t our_urgents[3][800], their_urgents[3][800]; /* places, figures and rounds of each stream */
static uint64_t our_rows[4096], their_rows[4096];
static uint64_t our_place, their_place;

enum { LONG = 150000, SHORT = 1460 }; /* records: about 1 MB and 10 KB */

static uint8_t capture[7 * LONG];
static uint32_t records; /* 0 while there is no capture */
static size_t captured;  /* its bytes */
/* what a capture shows of each stream */
static struct shown {
    uint64_t answers[800], above[800];
    uint32_t largest[800];
    uint8_t left[800];
} we_saw, they_saw;

static void put(uint64_t value, int width)
{
    for (int i = width - 1; i >= 0; i--)
        sheet[length++] = (uint8_t)(value >> 8 * i);
}

static void pnet_stream(uint32_t master, uint32_t cycle, uint32_t spacing, uint32_t deadline)
{
    put(2, 1), put(master, 1), put(cycle, 2), put(spacing, 4), put(deadline, 4);
}

/* `streams` P-NET streams; the first half of the masters have twice as many as the others, so that something is saved. The
   spacings are long, so that a search is over in a round or two. */
static void pnet_sheet(uint32_t masters, uint32_t streams, uint32_t spacing)
{
    length = 0;
    put(1, 1), put(masters, 1);
    for (uint32_t i = 0; i < streams; i++)
        pnet_stream(i % (masters + masters / 2) % masters + 1, 100 + i % 100, spacing + 37 * i, spacing);
}

/* Many rounds: the first `busy` masters have `own` streams each, and the others share the rest. The spacings of the first `links`
   of these are set one behind the other: each value of a busy master's search takes one more request in, and what that adds takes
   the next value past the next spacing. So a busy master has links + 1 rounds. A master with the fewest streams has at most one on
   any sheet, as nothing is saved at the others. */
static void pnet_chain(uint32_t masters, uint32_t busy, uint32_t own, uint32_t streams, uint32_t links)
{
    enum { CYCLE = 53, HOLD = 47 + CYCLE, SAVED = HOLD - 10, NEVER = 1000000000 };
    uint32_t others = masters - busy, rest = streams - busy * own, turn = HOLD * masters;
    uint32_t value = own * turn - (others * own - rest) * SAVED;

    length = 0;
    put(1, 1), put(masters, 1);
    for (uint32_t i = 0; i < busy * own; i++)
        pnet_stream(i % busy + 1, CYCLE, NEVER, NEVER);
    for (uint32_t i = 0; i < rest; i++) {
        uint32_t count = rest / others + (i % others < rest % others), bound = count * turn;

        pnet_stream(busy + i % others + 1, CYCLE, i < links ? bound + value - 1 : NEVER, bound);
        value += SAVED;
    }
}

enum { TURN = 48, SLOW = 1000000000 }; /* V of one master with C of 1 bp; and the longest spacing there is */

static void urgent_head(uint32_t masters)
{
    length = 0;
    put(1, 1), put(masters, 1);
}

/* a stream of each master, with C of 1 bp and D = T */
static void of_each(uint32_t masters, uint32_t spacing)
{
    for (uint32_t k = 1; k <= masters; k++)
        pnet_stream(k, 1, spacing, spacing);
}

/* Streams with deadlines of 60 to 540 turns in no order, so that each has to find its place; most are below the bound of first come where a master has
   80 streams, and are met all the same. */
static void urgent_sheet(uint32_t masters, uint32_t count)
{
    urgent_head(masters);
    for (uint32_t i = 0; i < count; i++) {
        uint32_t deadline = (60 + i * 37 % 97 * 5) * masters * 150;

        pnet_stream(i % masters + 1, 50 + i % 50, 2 * deadline, deadline);
    }
}

/* Long searches, all accepted: each of `quick` streams of a master takes half of what those ahead leave, and `slow` ones wait for what is left. */
static void urgent_halves(uint32_t masters, uint32_t quick, uint32_t slow)
{
    urgent_head(masters);
    for (uint32_t i = 1; i <= quick; i++)
        of_each(masters, (TURN * masters) << i);
    for (uint32_t i = 0; i < slow; i++)
        of_each(masters, SLOW);
}

/* The longest found that is accepted: ten masters, spacings just so that a search goes on by few slots at a time. */
static void urgent_longest(void)
{
    static const uint32_t quick[] = {960,    1920,   3840,   7680,   15360,   30721,   61443,
                                     122890, 245764, 491997, 983094, 1967365, 3956194, 15776160};

    urgent_head(10);
    for (unsigned i = 0; i < sizeof quick / sizeof quick[0]; i++)
        of_each(10, quick[i]);
    for (uint32_t k = 1; k <= 10; k++)
        put(7, 1), put(k, 1), put(1, 2), put(7931095, 4), put(7874730, 4), put(56365, 4);
    for (uint32_t i = 0; i < 65; i++)
        of_each(10, SLOW);
}

/* Long searches, refused: the slow streams stand first on the sheet, and the last ones leave them next to nothing, or are too late themselves. */
static void urgent_refused(uint32_t masters, uint32_t slow, uint32_t a, uint32_t b, uint32_t c)
{
    urgent_head(masters);
    for (uint32_t i = 0; i < slow; i++)
        of_each(masters, SLOW);
    of_each(masters, a), of_each(masters, b);
    if (c)
        of_each(masters, c);
}

static uint32_t be32(const uint8_t *p)
{
    return (uint32_t)p[0] << 24 | (uint32_t)p[1] << 16 | (uint32_t)p[2] << 8 | p[3];
}

/* The P-NET sheet at hand with every stream of kind 7, up to J late. Each T is longer by J, so that a search goes on as it did; where it is the
   greatest already, D is what J leaves of it. */
static void with_jitter(uint32_t jitter)
{
    static uint8_t from[sizeof sheet];
    size_t end = length;

    memcpy(from, sheet, end);
    length = 2;
    for (size_t at = 2; at < end; at += 12) {
        uint32_t spacing = be32(from + at + 4), deadline = be32(from + at + 8);

        if (spacing + jitter <= 1000000000)
            spacing += jitter;
        else if (deadline > spacing - jitter)
            deadline = spacing - jitter;
        put(7, 1), put(from[at + 1], 1), put(from[at + 2], 1), put(from[at + 3], 1);
        put(spacing, 4), put(deadline, 4), put(jitter, 4);
    }
}

/* The P-NET sheet at hand with its edition written, and with so many more masters, which have no streams. */
static void with_edition(uint32_t edition, uint32_t silent)
{
    for (size_t at = length; at > 2; at--)
        sheet[at + 1] = sheet[at - 1];
    length += 2;
    sheet[1] = (uint8_t)(sheet[1] + silent);
    sheet[2] = 8, sheet[3] = (uint8_t)edition;
}

static void ring_streams(uint32_t masters, uint32_t streams)
{
    for (uint32_t i = 0; i < streams; i++)
        put(4, 1), put(i % masters + 1, 1), put(100 + i % 400, 4), put(900000000 - 100 * (uint64_t)i, 4);
}

static void profibus_sheet(uint32_t masters, uint32_t streams)
{
    length = 0;
    put(3, 1), put(masters, 1), put(1000, 4), put(500, 4);
    ring_streams(masters, streams);
}

/* the same with each master's own longest message, the last master's first */
static void open_ring(uint32_t masters, uint32_t streams)
{
    length = 0;
    put(9, 1), put(masters, 1), put(1000, 4);
    for (uint32_t y = masters; y > 0; y--)
        put(10, 1), put(y, 1), put(500 + y, 4);
    ring_streams(masters, streams);
}

/* periods in rows: powers of two up to `longest`, so that the table has that many rows */
static void worldfip_sheet(uint32_t variables, uint32_t longest, uint32_t slots)
{
    uint32_t period = 1;

    length = 0;
    put(5, 1), put(1000 / slots, 4);
    for (uint32_t i = 0; i < variables; i++) {
        put(6, 1), put(1000 - i, 2), put((uint64_t)period * 1000, 4);
        period = period == longest ? 2 : period * 2;
    }
}

static void event(uint32_t kind, uint32_t stream, uint32_t stamp)
{
    uint8_t *to = capture + 7 * records++;

    to[0] = (uint8_t)kind;
    to[1] = (uint8_t)(stream >> 8), to[2] = (uint8_t)stream;
    for (int i = 0; i < 4; i++)
        to[3 + i] = (uint8_t)(stamp >> (24 - 8 * i));
}

/* `count` records of streams drawn at random: a request where none is open, else its answer. Responses then lie about R. The
   counter wraps near the beginning, and then now and again, as the bus rests after each 4096 records. */
static void capture_of(uint32_t streams, uint32_t count)
{
    uint8_t waiting[800] = {0};
    uint64_t draw = 1;
    uint32_t clock = 0xFFFF0000;

    records = 0;
    while (records < count) {
        draw = draw * 6364136223846793005u + 1442695040888963407u;
        uint32_t i = (uint32_t)((draw >> 33) % streams);
        event(waiting[i] ? 17 : 16, i + 1, clock);
        waiting[i] ^= 1;
        clock += records % 4096 == 0 ? 1u << 30 : 120 + (uint32_t)(draw >> 56);
    }
    captured = 7 * (size_t)records;
}

/* what a proved planner answered, as the plain ones do: 0 or the refusal's number */
static int number_of(uint64_t answer)
{
    return (int)(answer >> 32 ? answer - (1ull << 32) : 0);
}

static int our_pnet(void)
{
    return number_of(planner_pnet(sheet, length, ours[0], 32, ours[1], 32, ours[2], 32, &our_place));
}

static int their_pnet(void)
{
    their_place = 0;
    return plain_pnet(sheet, length, theirs[0], 32, theirs[1], 32, theirs[2], 32, &their_place);
}

static int our_urgent(void)
{
    return number_of(planner_urgent(sheet, length, our_urgents[0], 800, our_urgents[1], 800, our_urgents[2], 800, &our_place));
}

static int their_urgent(void)
{
    their_place = 0;
    return plain_urgent(sheet, length, their_urgents[0], 800, their_urgents[1], 800, their_urgents[2], 800, &their_place);
}

static int our_profibus(void)
{
    uint64_t answer = planner_profibus(sheet, length, &our_place);
    if (answer >> 32 == 0)
        ours[0][0] = (uint32_t)answer;
    return number_of(answer);
}

static int their_profibus(void)
{
    uint32_t stream;
    int refusal = plain_profibus(sheet, length, &theirs[0][0], &stream, &their_place);
    if (refusal == 0)
        their_place = stream;
    return refusal;
}

static int our_worldfip(void)
{
    return number_of(planner_worldfip(sheet, length, our_rows, 4096, &our_place));
}

static int their_worldfip(void)
{
    uint32_t count;
    their_place = 0;
    return plain_worldfip(sheet, length, their_rows, 4096, &count, &their_place);
}

static int our_capture(void)
{
    return number_of(planner_capture(sheet, length, capture, captured, we_saw.answers, 800, we_saw.largest, 800,
                                     we_saw.above, 800, we_saw.left, 800, &our_place));
}

static int their_capture(void)
{
    their_place = 0;
    return plain_capture(sheet, length, capture, captured, they_saw.answers, 800, they_saw.largest, 800,
                         they_saw.above, 800, they_saw.left, 800, &their_place);
}

static uint8_t text[80000]; /* what is imported */
static size_t written;
/* what the two wrote, and how long it is */
static struct put {
    uint8_t bytes[80000];
    uint32_t length;
} we_put, they_put;

static int our_text(void)
{
    uint64_t answer = planner_text_of(sheet, length, we_put.bytes, sizeof we_put.bytes, &our_place);
    if (answer >> 32 == 0)
        we_put.length = (uint32_t)answer;
    return number_of(answer);
}

static int their_text(void)
{
    their_place = 0;
    return plain_text_of(sheet, length, they_put.bytes, sizeof they_put.bytes, &they_put.length, &their_place);
}

static int our_sheet(void)
{
    uint64_t answer = planner_sheet_of(text, written, we_put.bytes, sizeof we_put.bytes, &our_place);
    if (answer >> 32 == 0)
        we_put.length = (uint32_t)answer;
    return number_of(answer);
}

static int their_sheet(void)
{
    their_place = 0;
    return plain_sheet_of(text, written, they_put.bytes, sizeof they_put.bytes, &they_put.length, &their_place);
}

static int our_rewritten(void)
{
    uint64_t answer = planner_rewritten(sheet, length, we_put.bytes, sizeof we_put.bytes, &our_place);
    if (answer >> 32 == 0)
        we_put.length = (uint32_t)answer;
    return number_of(answer);
}

static int their_rewritten(void)
{
    their_place = 0;
    return plain_rewritten(sheet, length, they_put.bytes, sizeof they_put.bytes, &they_put.length, &their_place);
}

/* the text of the sheet at hand */
static void text_of_sheet(void)
{
    uint32_t size = 0;
    uint64_t place;

    plain_text_of(sheet, length, text, sizeof text, &size, &place);
    written = size;
}

static double now(void)
{
    struct timespec t;
    clock_gettime(2, &t); /* the time of this process, so that others on the machine do not count */
    return (double)t.seconds * 1e9 + (double)t.nanoseconds;
}

/* nanoseconds of so many calls */
static double batch(int (*plan)(void), long count)
{
    double from = now();
    for (long i = 0; i < count; i++)
        plan();
    return now() - from;
}

/* so many calls that a batch takes 4 ms or more */
static long enough(int (*plan)(void))
{
    long count = 1;
    while (batch(plan, count) < 4e6)
        count *= 2;
    return count;
}

/* nanoseconds for one call of each: batches of the two by turns, the best of forty, so that a slow moment of the machine does not fall on
   one of them alone; of three where a call takes long */
static void timed(int (*a)(void), int (*b)(void), double *best_a, double *best_b)
{
    long times_a = enough(a), times_b = enough(b);
    int batches = batch(b, times_b) < 4e7 ? 40 : 3;

    *best_a = *best_b = 1e18;
    for (int i = 0; i < batches; i++) {
        double each_a = batch(a, times_a) / (double)times_a, each_b = batch(b, times_b) / (double)times_b;
        *best_a = each_a < *best_a ? each_a : *best_a;
        *best_b = each_b < *best_b ? each_b : *best_b;
    }
}

static int agree(void)
{
    for (int run = 0; run < 3; run++)
        for (int k = 0; k < 32; k++)
            if (ours[run][k] != theirs[run][k])
                return 0;
    for (int m = 0; m < 4096; m++)
        if (our_rows[m] != their_rows[m])
            return 0;
    if (memcmp(our_urgents, their_urgents, sizeof our_urgents) != 0)
        return 0;
    for (int i = 0; i < 800; i++)
        if (we_saw.answers[i] != they_saw.answers[i] || we_saw.largest[i] != they_saw.largest[i] ||
            we_saw.above[i] != they_saw.above[i] || we_saw.left[i] != they_saw.left[i])
            return 0;
    return we_put.length == they_put.length && memcmp(we_put.bytes, they_put.bytes, sizeof we_put.bytes) == 0;
}

/* how what is measured stands before its figures */
#define NAME "%-48s"

static int wrong;

/* whether the two answer alike: the refusal's number, its place, and all results */
static int alike(int (*proved)(void), int (*plain)(void), int *refusal)
{
    our_place = ~0ull; /* no place: what is not set is seen */
    *refusal = plain();
    return proved() == *refusal && our_place == their_place && agree();
}

/* Both on bytes that are cut and changed at each place: most of that is refused, each kind of refusal at many places. */
static void spoiled(const char *name, uint8_t *bytes, size_t *size, int (*proved)(void), int (*plain)(void))
{
    static const uint8_t change[3] = {0, 1, 0x80}; /* 0: cut there */
    size_t whole = *size;
    long asked = 0, refused = 0, differ = 0;

    for (size_t at = 0; at < whole; at++)
        for (int i = 0; i < 3; i++) {
            int refusal;

            *size = i == 0 ? at : whole;
            bytes[at] ^= change[i];
            differ += !alike(proved, plain, &refusal);
            bytes[at] ^= change[i];
            refused += refusal != 0;
            asked++;
        }
    *size = whole;
    printf(NAME " %12ld asked %9ld refused %8ld differ\n", name, asked, refused, differ);
    wrong |= differ != 0;
}

static void line(const char *name, int (*proved)(void), int (*plain)(void))
{
    int refusal;
    if (!alike(proved, plain, &refusal)) {
        printf(NAME " the two differ\n", name);
        wrong = 1;
        return;
    }
    double a, b;
    timed(proved, plain, &a, &b);
    printf(NAME " %12.0f ns %12.0f ns %8.2f", name, a, b, a / b);
    if (records)
        printf(" %12.2f %8.2f", a / records, b / records);
    printf(" %s\n", refusal ? "(refused)" : "");
}

/* of a P-NET sheet */
static size_t front(void)
{
    return sheet[2] == 8 ? 4 : 2;
}

static uint32_t stream_count(void)
{
    uint32_t count = 0;

    for (size_t at = front(); at < length; at += sheet[at] == 7 ? 16 : 12)
        count++;
    return count;
}

/* what a P-NET sheet is called: its edition where that is written, J for one whose streams have it, and how many there are */
static int call(char *name, size_t room)
{
    return snprintf(name, room, "P-NET%s%s, %u streams", front() == 2 ? "" : sheet[3] == 2 ? " ed. 2" : " ed. 1", sheet[front()] == 7 ? " J" : "", stream_count());
}

/* a P-NET sheet by that, its masters and the greatest round count */
static void pnet_line(void)
{
    char name[80];
    uint32_t most = 0;
    int at = call(name, sizeof name);

    their_pnet();
    for (uint32_t k = 0; k < sheet[1]; k++)
        most = theirs[2][k] > most ? theirs[2][k] : most;
    snprintf(name + at, sizeof name - (size_t)at, ", %u masters, rounds %u", sheet[1], most);
    line(name, our_pnet, their_pnet);
}

/* urgent requests first, by that, its masters and the rounds of all searches together */
static void urgent_line(void)
{
    char name[80];
    uint32_t all = 0;
    int at = call(name, sizeof name), refused = their_urgent();

    at += snprintf(name + at, sizeof name - (size_t)at, ", %u masters", sheet[1]);
    if (!refused) {
        for (uint32_t i = 0; i < stream_count(); i++)
            all += their_urgents[2][i];
        snprintf(name + at, sizeof name - (size_t)at, ", rounds %u", all);
    }
    line(name, our_urgent, their_urgent);
}

/* its text, written and read */
static void text_lines(void)
{
    char name[80];
    int at = call(name, sizeof name);

    text_of_sheet();
    snprintf(name + at, sizeof name - (size_t)at, ", written as %u bytes", (uint32_t)written);
    line(name, our_text, their_text);
    snprintf(name + at, sizeof name - (size_t)at, ", read from %u bytes", (uint32_t)written);
    line(name, our_sheet, their_sheet);
}

int main(void)
{
    printf(NAME " %15s %15s %8s\n", "sheet", "proved", "plain C", "ratio");
    pnet_sheet(2, 3, 100000), pnet_line();
    pnet_sheet(4, 10, 100000), pnet_line();
    for (uint32_t streams = 100; streams <= 800; streams *= 2)
        pnet_sheet(20, streams, 1000000), pnet_line();
    with_jitter(500000), pnet_line(); /* the last of these */
    pnet_sheet(20, 800, 1000000), with_edition(2, 0), pnet_line();
    pnet_sheet(20, 800, 1000000), with_edition(2, 12), pnet_line();
    pnet_sheet(32, 800, 1000000), pnet_line();
    pnet_chain(4, 1, 4, 10, 6), pnet_line();
    pnet_chain(32, 1, 30, 100, 70), pnet_line();
    pnet_chain(32, 8, 80, 800, 160), pnet_line();
    pnet_chain(32, 3, 80, 800, 560), pnet_line();
    with_jitter(500000), pnet_line();
    pnet_chain(32, 3, 80, 800, 560), with_edition(2, 0), pnet_line(); /* every cycle is as long, so the search goes the same way */
    pnet_chain(15, 5, 80, 800, 400), pnet_line();
    for (uint32_t streams = 100; streams <= 800; streams *= 2)
        pnet_chain(32, 1, streams < 200 ? 40 : 80, streams, 60), pnet_line();
    profibus_sheet(3, 3);
    line("PROFIBUS, 3 masters, 3 streams", our_profibus, their_profibus);
    profibus_sheet(10, 100);
    line("PROFIBUS, 10 masters, 100 streams", our_profibus, their_profibus);
    profibus_sheet(10, 400);
    line("PROFIBUS, 10 masters, 400 streams", our_profibus, their_profibus);
    profibus_sheet(10, 800);
    line("PROFIBUS, 10 masters, 800 streams", our_profibus, their_profibus);
    open_ring(3, 3);
    line("PROFIBUS kind 9, 3 masters, 3 streams", our_profibus, their_profibus);
    open_ring(10, 800);
    line("PROFIBUS kind 9, 10 masters, 800 streams", our_profibus, their_profibus);
    open_ring(32, 800);
    line("PROFIBUS kind 9, 32 masters, 800 streams", our_profibus, their_profibus);
    worldfip_sheet(4, 4, 3);
    line("WorldFIP, 4 variables, 4 rows", our_worldfip, their_worldfip);
    worldfip_sheet(16, 256, 8);
    line("WorldFIP, 16 variables, 256 rows", our_worldfip, their_worldfip);
    worldfip_sheet(64, 4096, 8);
    line("WorldFIP, 64 variables, 4096 rows, 8 slots", our_worldfip, their_worldfip);
    worldfip_sheet(64, 4096, 100);
    line("WorldFIP, 64 variables, 4096 rows, 100 slots", our_worldfip, their_worldfip);

    printf("\n" NAME " %15s %15s %8s\n", "urgent requests first", "proved", "plain C", "ratio");
    pnet_sheet(2, 3, 100000), urgent_line();
    pnet_sheet(20, 800, 1000000), urgent_line();
    with_jitter(500000), urgent_line();
    pnet_sheet(20, 800, 1000000), with_edition(2, 0), urgent_line();
    urgent_sheet(10, 100), urgent_line();
    urgent_sheet(10, 800), urgent_line();
    urgent_halves(10, 15, 63), urgent_line();
    urgent_longest(), urgent_line();
    urgent_refused(1, 77, 49, 2353, 9737785), urgent_line();
    urgent_refused(10, 78, 481, 235115, 0), urgent_line();

    printf("\n" NAME " %15s %15s %8s\n", "text", "proved", "plain C", "ratio");
    pnet_sheet(2, 3, 100000), text_lines();
    pnet_sheet(20, 800, 100000), text_lines();
    with_jitter(50000), text_lines();
    pnet_sheet(20, 800, 100000), with_edition(2, 0), text_lines();

    open_ring(32, 800), text_of_sheet();
    line("PROFIBUS kind 9, 800 streams, written", our_text, their_text);
    line("PROFIBUS kind 9, 800 streams, read", our_sheet, their_sheet);

    printf("\n" NAME " %15s %15s %8s\n", "rewritten", "proved", "plain C", "ratio");
    profibus_sheet(3, 3);
    line("PROFIBUS, 3 masters, 3 streams", our_rewritten, their_rewritten);
    profibus_sheet(32, 800);
    line("PROFIBUS, 32 masters, 800 streams", our_rewritten, their_rewritten);
    open_ring(32, 800);
    line("PROFIBUS kind 9, 32 masters, 800 streams", our_rewritten, their_rewritten);

    printf("\n" NAME " %15s %15s %8s %21s\n", "capture", "proved", "plain C", "ratio", "ns a record");
    pnet_sheet(2, 3, 100000);
    capture_of(3, SHORT);
    line("10 KB, 2 masters, 3 streams", our_capture, their_capture);
    capture_of(3, LONG);
    line("1 MB, 2 masters, 3 streams", our_capture, their_capture);
    pnet_sheet(10, 100, 1000000);
    capture_of(100, SHORT);
    line("10 KB, 10 masters, 100 streams", our_capture, their_capture);
    capture_of(100, LONG);
    line("1 MB, 10 masters, 100 streams", our_capture, their_capture);
    pnet_sheet(20, 800, 1000000);
    capture_of(800, SHORT);
    line("10 KB, 20 masters, 800 streams", our_capture, their_capture);
    capture_of(800, LONG);
    line("1 MB, 20 masters, 800 streams", our_capture, their_capture);

    printf("\n%s\n", "cut and changed at each byte: numbers, places and results");
    pnet_sheet(10, 100, 100000);
    spoiled("P-NET, 100 streams, 10 masters", sheet, &length, our_pnet, their_pnet);
    with_jitter(50000);
    spoiled("P-NET J, 100 streams, 10 masters", sheet, &length, our_pnet, their_pnet);
    pnet_sheet(10, 100, 100000), with_edition(1, 3);
    spoiled("P-NET ed. 1, 100 streams, 13 masters", sheet, &length, our_pnet, their_pnet);
    pnet_sheet(10, 100, 100000), with_edition(2, 3);
    spoiled("P-NET ed. 2, 100 streams, 13 masters", sheet, &length, our_pnet, their_pnet);
    pnet_sheet(10, 100, 100000), with_jitter(50000), with_edition(2, 3);
    spoiled("P-NET ed. 2 J, 100 streams, 13 masters", sheet, &length, our_pnet, their_pnet);
    urgent_sheet(10, 100);
    spoiled("urgent first, 100 streams, 10 masters", sheet, &length, our_urgent, their_urgent);
    with_jitter(5000), with_edition(2, 0);
    spoiled("urgent first, ed. 2 J, 100 streams, 10 masters", sheet, &length, our_urgent, their_urgent);
    urgent_halves(3, 8, 4);
    spoiled("urgent first, 36 streams, 3 masters", sheet, &length, our_urgent, their_urgent);
    profibus_sheet(10, 100);
    spoiled("PROFIBUS, 10 masters, 100 streams", sheet, &length, our_profibus, their_profibus);
    spoiled("a ring rewritten", sheet, &length, our_rewritten, their_rewritten);
    open_ring(10, 100);
    spoiled("PROFIBUS kind 9, 10 masters, 100 streams", sheet, &length, our_profibus, their_profibus);
    spoiled("a ring of kind 9 rewritten", sheet, &length, our_rewritten, their_rewritten);
    spoiled("a ring of kind 9 written as text", sheet, &length, our_text, their_text);
    worldfip_sheet(16, 256, 8);
    spoiled("WorldFIP, 16 variables, 256 rows", sheet, &length, our_worldfip, their_worldfip);
    pnet_sheet(2, 3, 100000);
    capture_of(3, 300);
    spoiled("a sheet beside a capture", sheet, &length, our_capture, their_capture);
    spoiled("a capture of 300 records", capture, &captured, our_capture, their_capture);
    with_edition(2, 1);
    spoiled("a sheet of edition 2 beside a capture", sheet, &length, our_capture, their_capture);
    spoiled("a capture of 300 records beside edition 2", capture, &captured, our_capture, their_capture);
    pnet_sheet(10, 100, 100000);
    spoiled("a sheet written as text", sheet, &length, our_text, their_text);
    with_jitter(50000);
    spoiled("a sheet with J written as text", sheet, &length, our_text, their_text);
    with_edition(2, 0);
    spoiled("a sheet with J and its edition written as text", sheet, &length, our_text, their_text);
    pnet_sheet(4, 10, 100000);
    text_of_sheet();
    spoiled("a text of 11 lines", text, &written, our_sheet, their_sheet);
    with_jitter(50000);
    text_of_sheet();
    spoiled("a text of 11 lines with J", text, &written, our_sheet, their_sheet);
    with_edition(2, 0);
    text_of_sheet();
    spoiled("a text of 12 lines with J and an edition", text, &written, our_sheet, their_sheet);
    open_ring(4, 10);
    text_of_sheet();
    spoiled("a text of 15 lines of a ring", text, &written, our_sheet, their_sheet);
    worldfip_sheet(16, 256, 8);
    text_of_sheet();
    spoiled("a text of 17 lines", text, &written, our_sheet, their_sheet);
    return wrong;
}
