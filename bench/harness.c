// Calls each export of exports.rt.in in a bounded loop and prints the best of several repeats, in nanoseconds a call.
//
// What the calls answer is checked once before the loops and summed in them, so that no call can be left out.

#define _DEFAULT_SOURCE

#include <stdbool.h>
#include <stddef.h>
#include <stdint.h>
#include <stdio.h>
#include <string.h>
#include <sys/resource.h>
#include <sys/wait.h>
#include <time.h>
#include <unistd.h>

uint64_t bench_split(const uint8_t *text, size_t length);
uint64_t bench_first_fault(const uint8_t *text, size_t length);
uint64_t bench_feed_frames(const uint8_t *text, size_t length, uint32_t times);
uint64_t bench_lend_frames(const uint8_t *text, size_t length, uint32_t times);
uint64_t bench_feed_frame_bytes(const uint8_t *text, size_t length, uint32_t times);
uint64_t bench_lend_frame_bytes(const uint8_t *text, size_t length, uint32_t times);
uint64_t bench_frame(const uint8_t *body, size_t length, uint32_t times);
uint64_t bench_stamps(uint64_t from, uint32_t times);
uint64_t bench_feed_packets(const uint8_t *piece, size_t length, uint32_t times);
uint64_t bench_lend_packets(const uint8_t *piece, size_t length, uint32_t times);
uint32_t bench_parse_price(const uint8_t *text, size_t length);
uint64_t bench_make_messages(const uint8_t *head, size_t head_length, const uint8_t *tail, size_t tail_length,
                             uint32_t times);
uint64_t bench_on_message(const uint8_t *logon, size_t logon_length, const uint8_t *head, size_t head_length,
                          const uint8_t *tail, size_t tail_length, uint32_t times);
uint64_t bench_issue(const uint8_t *logon, size_t logon_length, const uint8_t *report, size_t report_length,
                     uint32_t times);
uint64_t bench_resends(const uint8_t *logon, size_t logon_length, const uint8_t *report, size_t report_length,
                       uint32_t bodies, uint32_t times);
uint64_t bench_decode(const uint8_t *bytes, size_t length);
bool bench_decoded(const uint8_t *bytes, size_t length, uint8_t *out, size_t room);
uint64_t bench_day(const uint8_t *order, size_t order_length, const uint8_t *accepted, size_t accepted_length,
                   const uint8_t *executed, size_t executed_length, uint32_t open, uint32_t rounds, uint32_t taken);
uint64_t bench_day_text(const uint8_t *order, size_t order_length, const uint8_t *accepted, size_t accepted_length,
                        const uint8_t *executed, size_t executed_length, uint32_t open, uint32_t rounds, uint8_t *out,
                        size_t room);
uint64_t bench_requests(const uint8_t *order, size_t order_length, const uint8_t *accepted, size_t accepted_length,
                        const uint8_t *request, size_t request_length, uint32_t open, uint32_t taken);
uint64_t bench_gateway(const uint8_t *logon, size_t logon_length, const uint8_t *head, size_t head_length, const uint8_t *tail,
                       size_t tail_length, const uint8_t *accepted, size_t accepted_length, const uint8_t *executed,
                       size_t executed_length, uint32_t open, uint32_t rounds, uint32_t taken);
uint64_t bench_gateway_text(const uint8_t *logon, size_t logon_length, const uint8_t *head, size_t head_length,
                            const uint8_t *tail, size_t tail_length, const uint8_t *accepted, size_t accepted_length,
                            const uint8_t *executed, size_t executed_length, uint32_t open, uint32_t rounds, uint8_t *out,
                            size_t room);
bool bench_put_enter_order(const uint8_t *bytes, size_t length, uint32_t times, uint8_t *out, size_t room);

enum {
    REPEATS = 40,
    CALLS = 200000,
    FRAME_LENGTH = 160,
    FIELDS = 17,
    ENTER_ORDER = 49,
    REPORT_FRAME = 179,
    EXECUTED_PACKET = 43,
    // The message within that packet.
    EXECUTED_FROM = 3,
    EXECUTED_LENGTH = 40,
    ACCEPTED_LENGTH = 66,
    // How many orders are open before the rounds of a day, and the steps that each of these and each round takes.
    OPEN_ORDERS = 10,
    STEPS_OF_OPEN = 2,
    STEPS_OF_ROUND = 3,
    // The events at the whole core before its first order: the client logs on, the port is logged in.
    EVENTS_OF_LOGINS = 4,
    // So many days of a request on each open order are timed at once.
    DAYS_OF_REQUESTS = 100,
    // So many rounds are kept where memory is measured, and so many bodies.
    ROUNDS_KEPT = 20000,
    BODIES_KEPT = 100000,
    // A session is asked for this many calls before the next one begins, since it keeps what it issues.
    SESSION_CALLS = 2000,
    RESENDS = 20,
};

// A NewOrderSingle, the whole frame: 160 bytes in 17 fields, its body length and its check sum right.
static const char FRAME[] =
    "8=FIX.4.4\0019=137\001"
    "35=D\00149=BROKER01\00156=FEVZURK\00134=1042\00152=20260102-14:30:00\001"
    "11=ORD0000017\00155=INTC\00154=1\00138=300\00140=2\00144=23.45\00159=0\001528=A\00160=20260102-14:30:00\001"
    "10=092\001";

static const char PRICE[] = "23.45";

// An Enter Order: to buy 300 shares of INTC at 23.45.
static const char ORDER[] =
    "OFVZ00000000001B\000\000\001,INTC    \000\003\224\004\000\001\206\236FEVZYAN\000\000\000\000N ";

// The body of an ExecutionReport, from MsgType on, in 20 fields.
static const char REPORT[] =
    "35=8\00149=GATE\00156=C1\00134=2\00152=19700101-00:00:00.000\00137=1\00111=A1\00117=1\001150=A\00139=A\001"
    "55=INTC\00154=1\00138=300\00144=23.45\001151=300\00114=0\0016=0\00160=19700101-00:00:00.000\00158=x\0011=y\001";

// An Executed as sequenced data.
static const char EXECUTED[] =
    "\000\051SE\000\000\000\000\000\000\000\001G0000000000001\000\000\000\144\000\003\224\004L\000\000\000\000\000\000\000\007";

// C1 logs on.
static const char LOGON[] = "35=A\00149=C1\00156=GATE\00134=1\00198=0\001108=30\001";

// A NewOrderSingle of C1, before its number and behind it.
static const char HEAD[] = "35=D\00149=C1\00156=GATE\001";
static const char TAIL[] =
    "52=20260102-14:30:00\00111=ORD0000017\00155=INTC\00154=1\00138=300\00140=2\00144=23.45\00159=0\001528=A\001"
    "60=20260102-14:30:00\001";

// What an ExecutionReport says.
static const char BODY[] =
    "35=8\00137=1\00111=A1\00117=1\001150=A\00139=A\00155=INTC\00154=1\00138=300\00144=23.45\001151=300\00114=0\0016=0\001";

// What a client asks of the order core but for its ClOrdID, and the market's Accepted of it.
static const char CORE_ORDER[] = "35=D\00155=INTC\00154=1\00138=300\00140=2\00144=23.45\00159=0\001528=A\001";
static const char ACCEPTED[] =
    "A\000\000\000\000\000\000\000\001G0000000000001B\000\000\001,INTC    \000\003\224\004\000\001\206\236FIRMY"
    "\000\000\000\000\000\000\000\001AN\000\000\000\000NLN";

// What it asks of such an order later, but for both ClOrdIDs.
static const char CORE_CANCEL[] = "35=F\001";
static const char CORE_REPLACE[] = "35=G\00155=INTC\00154=1\00138=500\00140=2\00144=23.5\00159=0\001528=A\001";

// What a frame of an order at the whole core has behind its number and its ClOrdID.
static const char GATEWAY_TAIL[] = "55=INTC\00154=1\00138=300\00140=2\00144=23.45\00159=0\001528=A\001";

static const uint64_t LEAP_DAY_OF_2000 = 951782400000;

static uint64_t sum;

static double now(void) {
    struct timespec time;
    clock_gettime(CLOCK_MONOTONIC, &time);
    return (double)time.tv_sec * 1e9 + (double)time.tv_nsec;
}

// Hides from the compiler what stands behind a pointer, so that each call reads it anew.
static const uint8_t *hidden(const void *pointer) {
    __asm__ volatile("" : "+r"(pointer) : : "memory");
    return pointer;
}

static void split_calls(void) {
    for (int i = 0; i < CALLS; i++) {
        sum += bench_split(hidden(FRAME), FRAME_LENGTH);
    }
}

static void first_fault_calls(void) {
    for (int i = 0; i < CALLS; i++) {
        sum += bench_first_fault(hidden(FRAME), FRAME_LENGTH);
    }
}

// These exports loop by themselves, over one reader or one body.
static void feed_frames_calls(void) {
    sum += bench_feed_frames(hidden(FRAME), FRAME_LENGTH, CALLS);
}

static void lend_frames_calls(void) {
    sum += bench_lend_frames(hidden(FRAME), FRAME_LENGTH, CALLS);
}

// A hundredth of the calls, since each takes its bytes one by one.
static void feed_frame_bytes_calls(void) {
    sum += bench_feed_frame_bytes(hidden(FRAME), FRAME_LENGTH, CALLS / 100);
}

static void lend_frame_bytes_calls(void) {
    sum += bench_lend_frame_bytes(hidden(FRAME), FRAME_LENGTH, CALLS / 100);
}

static void frame_calls(void) {
    sum += bench_frame(hidden(REPORT), sizeof REPORT - 1, CALLS);
}

static void stamp_calls(void) {
    sum += bench_stamps(LEAP_DAY_OF_2000 + sum % 2, CALLS);
}

static void feed_packets_calls(void) {
    sum += bench_feed_packets(hidden(EXECUTED), EXECUTED_PACKET, CALLS);
}

static void lend_packets_calls(void) {
    sum += bench_lend_packets(hidden(EXECUTED), EXECUTED_PACKET, CALLS);
}

static void parse_price_calls(void) {
    for (int i = 0; i < CALLS; i++) {
        sum += bench_parse_price(hidden(PRICE), sizeof PRICE - 1);
    }
}

static void decode_calls(void) {
    for (int i = 0; i < CALLS; i++) {
        sum += bench_decode(hidden(EXECUTED + EXECUTED_FROM), EXECUTED_LENGTH);
    }
}

// The export loops by itself: it reads the order once, and then writes it again and again.
static void put_calls(void) {
    uint8_t out[ENTER_ORDER];
    sum += bench_put_enter_order(hidden(ORDER), ENTER_ORDER, CALLS, out, sizeof out);
    sum += hidden(out)[ENTER_ORDER - 1];
}

static uint64_t on_message(uint32_t times) {
    return bench_on_message(hidden(LOGON), sizeof LOGON - 1, hidden(HEAD), sizeof HEAD - 1, hidden(TAIL), sizeof TAIL - 1,
                            times);
}

static uint64_t issue(uint32_t times) {
    return bench_issue(hidden(LOGON), sizeof LOGON - 1, hidden(BODY), sizeof BODY - 1, times);
}

static uint64_t resends(uint32_t bodies, uint32_t times) {
    return bench_resends(hidden(LOGON), sizeof LOGON - 1, hidden(BODY), sizeof BODY - 1, bodies, times);
}

static uint64_t make_messages(uint32_t times) {
    return bench_make_messages(hidden(HEAD), sizeof HEAD - 1, hidden(TAIL), sizeof TAIL - 1, times);
}

static void make_messages_calls(void) {
    for (int i = 0; i < CALLS / SESSION_CALLS; i++) {
        sum += make_messages(SESSION_CALLS);
    }
}

static void on_message_calls(void) {
    for (int i = 0; i < CALLS / SESSION_CALLS; i++) {
        sum += on_message(SESSION_CALLS);
    }
}

static void issue_calls(void) {
    for (int i = 0; i < CALLS / SESSION_CALLS; i++) {
        sum += issue(SESSION_CALLS);
    }
}

// The best time of a resend of so many bodies: of a session that is asked RESENDS times, less that of one that isn't
// asked.
static double best_resend(uint32_t bodies) {
    double least_without = 1e18;
    double least_with = 1e18;
    for (int repeat = 0; repeat < REPEATS; repeat++) {
        double start = now();
        sum += resends(bodies, 0);
        double middle = now();
        sum += resends(bodies, RESENDS);
        double end = now();
        least_without = middle - start < least_without ? middle - start : least_without;
        least_with = end - middle < least_with ? end - middle : least_with;
    }
    return (least_with - least_without) / RESENDS;
}

static uint64_t day(uint32_t rounds, uint32_t taken) {
    return bench_day(hidden(CORE_ORDER), sizeof CORE_ORDER - 1, hidden(ACCEPTED), ACCEPTED_LENGTH,
                     hidden(EXECUTED + EXECUTED_FROM), EXECUTED_LENGTH, OPEN_ORDERS, rounds, taken);
}

// The best time of a round, where a day has so many: of days that take their rounds, less that of days that end before.
static double best_round(uint32_t rounds, int days) {
    uint32_t before = OPEN_ORDERS * STEPS_OF_OPEN;
    double least_without = 1e18;
    double least_with = 1e18;
    for (int repeat = 0; repeat < REPEATS; repeat++) {
        double start = now();
        for (int i = 0; i < days; i++) {
            sum += day(rounds, before);
        }
        double middle = now();
        for (int i = 0; i < days; i++) {
            sum += day(rounds, before + rounds * STEPS_OF_ROUND);
        }
        double end = now();
        least_without = middle - start < least_without ? middle - start : least_without;
        least_with = end - middle < least_with ? end - middle : least_with;
    }
    return (least_with - least_without) / days / rounds;
}

static uint64_t gateway_with(const uint8_t *executed, uint32_t rounds, uint32_t taken) {
    return bench_gateway(hidden(LOGON), sizeof LOGON - 1, hidden(HEAD), sizeof HEAD - 1, hidden(GATEWAY_TAIL),
                         sizeof GATEWAY_TAIL - 1, hidden(ACCEPTED), ACCEPTED_LENGTH, executed, EXECUTED_LENGTH, OPEN_ORDERS,
                         rounds, taken);
}

static uint64_t gateway(uint32_t rounds, uint32_t taken) {
    return gateway_with(hidden(EXECUTED + EXECUTED_FROM), rounds, taken);
}

// The best time of a round at the whole core, as above.
static double best_gateway_round(uint32_t rounds, int days) {
    uint32_t before = EVENTS_OF_LOGINS + OPEN_ORDERS * STEPS_OF_OPEN;
    double least_without = 1e18;
    double least_with = 1e18;
    for (int repeat = 0; repeat < REPEATS; repeat++) {
        double start = now();
        for (int i = 0; i < days; i++) {
            sum += gateway(rounds, before);
        }
        double middle = now();
        for (int i = 0; i < days; i++) {
            sum += gateway(rounds, before + rounds * STEPS_OF_ROUND);
        }
        double end = now();
        least_without = middle - start < least_without ? middle - start : least_without;
        least_with = end - middle < least_with ? end - middle : least_with;
    }
    return (least_with - least_without) / days / rounds;
}

static uint64_t requests(const char *request, size_t length, uint32_t taken) {
    return bench_requests(hidden(CORE_ORDER), sizeof CORE_ORDER - 1, hidden(ACCEPTED), ACCEPTED_LENGTH, hidden(request), length,
                          OPEN_ORDERS, taken);
}

// The best time of a request, where a day has one on each open order: of days with them, less that of days that end
// before.
static double best_request(const char *request, size_t length) {
    uint32_t before = OPEN_ORDERS * STEPS_OF_OPEN;
    double least_without = 1e18;
    double least_with = 1e18;
    for (int repeat = 0; repeat < REPEATS; repeat++) {
        double start = now();
        for (int i = 0; i < DAYS_OF_REQUESTS; i++) {
            sum += requests(request, length, before);
        }
        double middle = now();
        for (int i = 0; i < DAYS_OF_REQUESTS; i++) {
            sum += requests(request, length, before + OPEN_ORDERS);
        }
        double end = now();
        least_without = middle - start < least_without ? middle - start : least_without;
        least_with = end - middle < least_with ? end - middle : least_with;
    }
    return (least_with - least_without) / DAYS_OF_REQUESTS / OPEN_ORDERS;
}

// The same rounds with the whole order executed, so that it is closed.
static uint64_t closing_rounds(uint32_t rounds, uint32_t taken) {
    uint8_t executed[EXECUTED_LENGTH];
    memcpy(executed, EXECUTED + EXECUTED_FROM, sizeof executed);
    executed[25] = 300 / 256;
    executed[26] = 300 % 256;
    return gateway_with(hidden(executed), rounds, taken);
}

static void keeps_no_round(void) {
    sum += closing_rounds(ROUNDS_KEPT, EVENTS_OF_LOGINS + OPEN_ORDERS * STEPS_OF_OPEN);
}

static void keeps_rounds(void) {
    sum += closing_rounds(ROUNDS_KEPT, EVENTS_OF_LOGINS + OPEN_ORDERS * STEPS_OF_OPEN + ROUNDS_KEPT * STEPS_OF_ROUND);
}

static void keeps_no_body(void) {
    sum += issue(0);
}

static void keeps_bodies(void) {
    sum += issue(BODIES_KEPT);
}

// The most memory that a process of its own has while it makes the call, in bytes; 0 where it can't be told.
static double most_memory(void (*call)(void)) {
    pid_t child = fork();
    if (child == 0) {
        call();
        _exit(0);
    }
    struct rusage used;
    int status = 0;
    if (child < 0 || wait4(child, &status, 0, &used) != child || status != 0) {
        return 0;
    }
    return 1024.0 * (double)used.ru_maxrss;
}

static double best(void (*calls)(void)) {
    double least = 1e18;
    for (int repeat = 0; repeat < REPEATS; repeat++) {
        double start = now();
        calls();
        double each = (now() - start) / CALLS;
        if (each < least) {
            least = each;
        }
    }
    return least;
}

static bool frame_is_right(void) {
    size_t length = sizeof FRAME - 1;
    const char *body = strchr(strchr(FRAME, 1) + 1, 1) + 1;
    size_t body_length = length - 7 - (size_t)(body - FRAME);
    unsigned check = 0;
    for (size_t i = 0; i < length - 7; i++) {
        check += (uint8_t)FRAME[i];
    }
    char front[40];
    char back[16];
    snprintf(front, sizeof front, "8=FIX.4.4%c9=%zu%c", 1, body_length, 1);
    snprintf(back, sizeof back, "10=%03u%c", check % 256, 1);
    return length == FRAME_LENGTH && strncmp(FRAME, front, strlen(front)) == 0 && strcmp(FRAME + length - 7, back) == 0;
}

static bool split_is_right(void) {
    return bench_split((const uint8_t *)FRAME, FRAME_LENGTH) == FIELDS &&
           bench_split((const uint8_t *)FRAME, FRAME_LENGTH - 1) == UINT64_MAX - 1;
}

static bool first_fault_is_right(void) {
    static const char TWICE[] = "35=0\00158=a\00158=b\001";
    return bench_first_fault((const uint8_t *)FRAME, FRAME_LENGTH) == FIELDS &&
           bench_first_fault((const uint8_t *)TWICE, sizeof TWICE - 1) == 58;
}

// A frame has its header's three fields and its body's; one that is cut is given by no feed.
static bool frames_are_right(void) {
    return bench_feed_frames((const uint8_t *)FRAME, FRAME_LENGTH, 3) == 3 * FIELDS &&
           bench_feed_frames((const uint8_t *)FRAME, FRAME_LENGTH - 1, 1) == 0 &&
           bench_lend_frames((const uint8_t *)FRAME, FRAME_LENGTH, 3) == 3 * FIELDS &&
           bench_lend_frames((const uint8_t *)FRAME, FRAME_LENGTH - 1, 1) == 0 &&
           bench_feed_frame_bytes((const uint8_t *)FRAME, FRAME_LENGTH, 3) == 3 * FIELDS &&
           bench_lend_frame_bytes((const uint8_t *)FRAME, FRAME_LENGTH, 3) == 3 * FIELDS &&
           bench_frame((const uint8_t *)REPORT, sizeof REPORT - 1, 2) == 2 * REPORT_FRAME;
}

// "20000229-00:00:00.000", its bytes mixed as the export mixes them.
static bool stamp_is_right(void) {
    uint64_t mixed = 0;
    for (const char *at = "20000229-00:00:00.000"; *at != 0; at++) {
        mixed = mixed * 31 + (uint8_t)*at;
    }
    return bench_stamps(LEAP_DAY_OF_2000, 1) == mixed;
}

static bool packets_are_right(void) {
    return sizeof EXECUTED - 1 == EXECUTED_PACKET && bench_feed_packets((const uint8_t *)EXECUTED, EXECUTED_PACKET, 3) == 3 &&
           bench_lend_packets((const uint8_t *)EXECUTED, EXECUTED_PACKET, 3) == 3;
}

static bool parse_price_is_right(void) {
    return bench_parse_price((const uint8_t *)PRICE, sizeof PRICE - 1) == 234500 &&
           bench_parse_price((const uint8_t *)FRAME, FRAME_LENGTH) == 0;
}

static bool put_is_right(void) {
    uint8_t out[ENTER_ORDER] = {0};
    const uint8_t *order = (const uint8_t *)ORDER;
    return sizeof ORDER - 1 == ENTER_ORDER && !bench_put_enter_order(order, ENTER_ORDER, 1, out, sizeof out - 1) &&
           !bench_put_enter_order(order, ENTER_ORDER - 1, 1, out, sizeof out) && out[0] == 0 &&
           bench_put_enter_order(order, ENTER_ORDER, 1, out, sizeof out) && memcmp(out, ORDER, ENTER_ORDER) == 0;
}

static bool decode_is_right(void) {
    uint8_t out[EXECUTED_LENGTH] = {0};
    const uint8_t *executed = (const uint8_t *)EXECUTED + EXECUTED_FROM;
    return bench_decode(executed, EXECUTED_LENGTH) == 7 && bench_decode(executed, EXECUTED_LENGTH - 1) == 0 &&
           !bench_decoded((const uint8_t *)EXECUTED, EXECUTED_LENGTH, out, sizeof out) &&
           bench_decoded(executed, EXECUTED_LENGTH, out, sizeof out) && memcmp(out, executed, sizeof out) == 0;
}

// Adds what comes of an order and its Accepted: it is pending, it is asked of the market, it is new.
static char *add_order(char *at, char *end, int number) {
    static const char ENTER_REST[] = "B\000\000\001,INTC    \000\003\224\004\000\001\206\236FIRMYAN\000\000\000\000NR";
    int id = 1000000000 + number;
    at += snprintf(at, (size_t)(end - at),
                   "35=8%c37=%d%c11=%d%c17=%d%c150=A%c39=A%c55=INTC%c54=1%c38=300%c44=23.45%c151=300%c14=0%c6=0%c", 1, number, 1,
                   id, 1, 2 * number - 1, 1, 1, 1, 1, 1, 1, 1, 1, 1, 1);
    at += snprintf(at, (size_t)(end - at), "OG%013d", number);
    memcpy(at, ENTER_REST, sizeof ENTER_REST - 1);
    at += sizeof ENTER_REST - 1;
    return at + snprintf(at, (size_t)(end - at),
                         "35=8%c37=%d%c11=%d%c17=%d%c150=0%c39=0%c55=INTC%c54=1%c38=300%c44=23.45%c151=300%c14=0%c6=0%c", 1,
                         number, 1, id, 1, 2 * number, 1, 1, 1, 1, 1, 1, 1, 1, 1, 1);
}

// Adds what comes of 100 shares at 23.45 that are traded of it: the report of this number.
static char *add_trade(char *at, char *end, int number, int report) {
    return at + snprintf(at, (size_t)(end - at),
                         "35=8%c37=%d%c11=%d%c17=%d%c150=F%c39=1%c55=INTC%c54=1%c38=300%c44=23.45%c32=100%c31=23.45%c151=200%c"
                         "14=100%c6=23.45%c",
                         1, number, 1, 1000000000 + number, 1, report, 1, 1, 1, 1, 1, 1, 1, 1, 1, 1, 1, 1);
}

// A day of ten orders and one round tells and asks just this; each further round has three reports and a message.
static bool day_is_right(void) {
    static char due[8192];
    static uint8_t out[8192];
    char *at = due;
    for (int number = 1; number <= OPEN_ORDERS + 1; number++) {
        at = add_order(at, due + sizeof due, number);
    }
    at = add_trade(at, due + sizeof due, OPEN_ORDERS + 1, 2 * OPEN_ORDERS + 3);
    size_t length = (size_t)(at - due);
    uint64_t told = bench_day_text((const uint8_t *)CORE_ORDER, sizeof CORE_ORDER - 1, (const uint8_t *)ACCEPTED,
                                   ACCEPTED_LENGTH, (const uint8_t *)EXECUTED + EXECUTED_FROM, EXECUTED_LENGTH, OPEN_ORDERS, 1,
                                   out, sizeof out);
    return sizeof ACCEPTED - 1 == ACCEPTED_LENGTH && told == length && memcmp(out, due, length) == 0 &&
           day(2, OPEN_ORDERS * STEPS_OF_OPEN) == 3 * OPEN_ORDERS &&
           day(2000, OPEN_ORDERS * STEPS_OF_OPEN + 2000 * STEPS_OF_ROUND) == 3 * OPEN_ORDERS + 4 * 2000;
}

// Adds a frame of this body, with its length and its check sum.
static char *add_frame(char *at, char *end, const char *body) {
    char *from = at;
    unsigned check = 0;
    at += snprintf(at, (size_t)(end - at), "8=FIX.4.4%c9=%zu%c%s", 1, strlen(body), 1, body);
    for (const char *byte = from; byte < at; byte++) {
        check += (uint8_t)*byte;
    }
    return at + snprintf(at, (size_t)(end - at), "10=%03u%c", check % 256, 1);
}

// Adds the frame of a report on an order, with its number; `told` is what stands between its ClOrdID and its end.
static char *add_report(char *at, char *end, int number, int order, int report, const char *told) {
    char body[512];
    snprintf(body, sizeof body,
             "35=8|49=GATE|56=C1|34=%d|52=19700101-00:00:00.000|37=%d|11=%d|17=%d|%s60=19700101-00:00:00.000|", number, order,
             1000000000 + order, report, told);
    for (char *byte = body; *byte != 0; byte++) {
        *byte = *byte == '|' ? 1 : *byte;
    }
    return add_frame(at, end, body);
}

// The whole core on a day of ten orders and one round writes just these frames and packets; each further round three
// frames and a packet.
static bool gateway_is_right(void) {
    static const char ANSWER[] = "35=A\00149=GATE\00156=C1\00134=1\00152=19700101-00:00:00.000\00198=0\001108=30\001";
    static const char LOGIN[] = "\000\057LUSER01PASSWORD                               1";
    static const char ENTER_FRONT[] = "\000\062UOG";
    static const char ENTER_REST[] = "B\000\000\001,INTC    \000\003\224\004\000\001\206\236FIRMYAN\000\000\000\000NR";
    static const char OPEN[] = "55=INTC|54=1|38=300|44=23.45|151=300|14=0|6=0|";
    static char due[16384];
    static uint8_t out[16384];
    char told[256];
    char *end = due + sizeof due;
    char *at = add_frame(due, end, ANSWER);
    memcpy(at, LOGIN, sizeof LOGIN - 1);
    at += sizeof LOGIN - 1;
    for (int order = 1; order <= OPEN_ORDERS + 1; order++) {
        snprintf(told, sizeof told, "150=A|39=A|%s", OPEN);
        at = add_report(at, end, 2 * order, order, 2 * order - 1, told);
        memcpy(at, ENTER_FRONT, sizeof ENTER_FRONT - 1);
        at += sizeof ENTER_FRONT - 1;
        at += snprintf(at, (size_t)(end - at), "%013d", order);
        memcpy(at, ENTER_REST, sizeof ENTER_REST - 1);
        at += sizeof ENTER_REST - 1;
        snprintf(told, sizeof told, "150=0|39=0|%s", OPEN);
        at = add_report(at, end, 2 * order + 1, order, 2 * order, told);
    }
    at = add_report(at, end, 2 * OPEN_ORDERS + 4, OPEN_ORDERS + 1, 2 * OPEN_ORDERS + 3,
                    "150=F|39=1|55=INTC|54=1|38=300|44=23.45|32=100|31=23.45|151=200|14=100|6=23.45|");
    size_t length = (size_t)(at - due);
    uint64_t written = bench_gateway_text((const uint8_t *)LOGON, sizeof LOGON - 1, (const uint8_t *)HEAD, sizeof HEAD - 1,
                                          (const uint8_t *)GATEWAY_TAIL, sizeof GATEWAY_TAIL - 1, (const uint8_t *)ACCEPTED,
                                          ACCEPTED_LENGTH, (const uint8_t *)EXECUTED + EXECUTED_FROM, EXECUTED_LENGTH,
                                          OPEN_ORDERS, 1, out, sizeof out);
    return written == length && memcmp(out, due, length) == 0 &&
           gateway(2, EVENTS_OF_LOGINS + OPEN_ORDERS * STEPS_OF_OPEN) == 2 + 3 * OPEN_ORDERS &&
           gateway(100, EVENTS_OF_LOGINS + OPEN_ORDERS * STEPS_OF_OPEN + 100 * STEPS_OF_ROUND) == 2 + 3 * OPEN_ORDERS + 4 * 100;
}

// Each request is pending, which one report says, and asks the market once.
static bool requests_are_right(void) {
    uint32_t before = OPEN_ORDERS * STEPS_OF_OPEN;
    return requests(CORE_CANCEL, sizeof CORE_CANCEL - 1, before) == 3 * OPEN_ORDERS &&
           requests(CORE_CANCEL, sizeof CORE_CANCEL - 1, before + OPEN_ORDERS) == 5 * OPEN_ORDERS &&
           requests(CORE_REPLACE, sizeof CORE_REPLACE - 1, before) == 3 * OPEN_ORDERS &&
           requests(CORE_REPLACE, sizeof CORE_REPLACE - 1, before + OPEN_ORDERS) == 5 * OPEN_ORDERS;
}

// Each order is given up; each report is one frame; a resend is a gap fill for the Logon, and each body.
static bool session_is_right(void) {
    return on_message(7) == 7 && make_messages(3) == 3 * 14 && issue(5) == 5 && resends(9, 2) == 2 * 10;
}

int main(void) {
    if (!frame_is_right() || !split_is_right() || !parse_price_is_right() || !put_is_right()) {
        fprintf(stderr, "wrong: the frame is right %d, split %d, parse_price %d, put %d\n", frame_is_right(),
                split_is_right(), parse_price_is_right(), put_is_right());
        return 1;
    }
    if (!first_fault_is_right() || !frames_are_right() || !stamp_is_right() || !packets_are_right()) {
        fprintf(stderr, "wrong: first_fault is right %d, frames %d, stamp %d, packets %d\n", first_fault_is_right(),
                frames_are_right(), stamp_is_right(), packets_are_right());
        return 1;
    }
    if (!session_is_right()) {
        fprintf(stderr, "wrong: a session's messages %d, made %d, reports %d, resends %d\n", on_message(7) == 7,
                make_messages(3) == 3 * 14, issue(5) == 5, resends(9, 2) == 2 * 10);
        return 1;
    }
    if (!decode_is_right() || !day_is_right() || !requests_are_right()) {
        fprintf(stderr, "wrong: decode is right %d, a day of the order core %d, its requests %d\n", decode_is_right(),
                day_is_right(), requests_are_right());
        return 1;
    }
    if (!gateway_is_right()) {
        fprintf(stderr, "wrong: a day of the whole core\n");
        return 1;
    }
    double split = best(split_calls);
    printf("%-44s %7.1f   aim: below 400\n", "split, a NewOrderSingle frame of 160 bytes", split);
    printf("%-44s %7.1f   aim: below 150\n", "first_fault of its fields, the difference", best(first_fault_calls) - split);
    printf("%-44s %7.1f   aim: below 700\n", "Framer::feed, the same frame, with its split", best(feed_frames_calls));
    printf("%-44s %7.1f   no aim\n", "Framer: put, front, to_fields, pass", best(lend_frames_calls));
    printf("%-44s %7.1f   no aim\n", "Framer::feed, byte by byte", 100 * best(feed_frame_bytes_calls));
    printf("%-44s %7.1f   no aim\n", "the same, lent and copied", 100 * best(lend_frame_bytes_calls));
    printf("%-44s %7.1f   aim: below 500\n", "frame, a report of 20 fields", best(frame_calls));
    printf("%-44s %7.1f   no aim\n", "stamp, moments one after another", best(stamp_calls));
    printf("%-44s %7.1f   aim: below  60\n", "Packets::feed, an Executed's packet", best(feed_packets_calls));
    printf("%-44s %7.1f   no aim\n", "Packets: put, front, to_packet, pass", best(lend_packets_calls));
    printf("%-44s %7.1f   aim: below  25\n", "parse_price, the text 23.45", best(parse_price_calls));
    printf("%-44s %7.1f   aim: below  25\n", "EnterOrder::put, 49 bytes", best(put_calls));
    printf("%-44s %7.1f   aim: below  40\n", "decode, an Executed of 40 bytes", best(decode_calls));
    printf("%-44s %7.0f   aim: below 6000\n", "D, its A and its E: a day's first round", best_round(1, 400));
    printf("%-44s %7.0f   aim: below 6000\n", "D, its A and its E: rounds 1 to 50", best_round(50, 20));
    printf("%-44s %7.0f   aim: below 6000\n", "D, its A and its E: rounds 1 to 2,000", best_round(2000, 1));
    printf("%-44s %7.0f   aim: below 4000\n", "F on each of ten open orders", best_request(CORE_CANCEL, sizeof CORE_CANCEL - 1));
    printf("%-44s %7.0f   aim: below 4000\n", "G on each of ten open orders", best_request(CORE_REPLACE, sizeof CORE_REPLACE - 1));
    printf("%-44s %7.0f   aim: below 15000\n", "Core::step: D, its A, its E: rounds 1 to 10", best_gateway_round(10, 40));
    printf("%-44s %7.0f   aim: below 15000\n", "Core::step: the same, rounds 1 to 50", best_gateway_round(50, 10));
    printf("%-44s %7.0f   aim: below 15000\n", "Core::step: the same, rounds 1 to 2,000", best_gateway_round(2000, 1));
    double made = best(make_messages_calls);
    printf("%-44s %7.1f   aim: below 600\n", "Session::on_message, an order in sequence", best(on_message_calls) - made);
    printf("%-44s %7.1f   aim: below 1500\n", "Session::issue, a report", best(issue_calls));
    double first = best_resend(1000);
    printf("%-44s %7.1f   no aim\n", "a resend of 1,000 bodies, for each", first / 1000);
    double before = first;
    for (uint32_t bodies = 2000; bodies <= 8000; bodies *= 2) {
        double resend = best_resend(bodies);
        printf("a resend of %u,000 bodies, for each %17.1f   aim: the resend below 3 times the one before: %.2f\n", bodies / 1000,
               resend / bodies, resend / before);
        before = resend;
    }
    double body = (most_memory(keeps_bodies) - most_memory(keeps_no_body)) / BODIES_KEPT;
    double order = (most_memory(keeps_rounds) - most_memory(keeps_no_round)) / ROUNDS_KEPT;
    printf("%-44s %7.0f   bytes\n", "a report that a session keeps", body);
    printf("%-44s %7.0f   bytes\n", "a closed order at the core, less its reports", order - STEPS_OF_ROUND * body);
    printf("nanoseconds a call, the best of %d times %d calls\n", REPEATS, CALLS);
    return sum == 0;
}
