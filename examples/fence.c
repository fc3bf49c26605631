/*
 * The fence from C: records are made and read back, and a packet is judged before its socket's deadline and at it.
 *
 *     ./archives
 *     cc -std=c11 -Iinclude examples/fence.c target/staticlib/libexport.a target/staticlib/libexport_gate.a -o target/fence
 *
 * The numbers are those of document 01's case. Exits with 1 where an answer is not the one expected.
 */
#include "threadwicket.h"

#include <inttypes.h>
#include <stdio.h>
#include <string.h>

/* 192.0.2.10 port 4500, the protected endpoint, and a UDP packet from it to 198.51.100.1 */
static const struct threadwicket_endpoint ENDPOINT = {.address = {192, 0, 2, 10}, .port = 4500, .family = 4};
static const uint8_t PACKET[] = {0x45, 0x00, 0x00, 0x1c, 0x00, 0x00, 0x00, 0x00, 0x40, 0x11, 0x00, 0x00, 0xc0, 0x00,
                                 0x02, 0x0a, 0xc6, 0x33, 0x64, 0x01, 0x11, 0x94, 0x00, 0x35, 0x00, 0x08, 0x00, 0x00};

/* the same over IPv6, from 2001:db8::a with a header of destination options before UDP */
static const struct threadwicket_endpoint ENDPOINT6 = {.address = {0x20, 0x01, 0x0d, 0xb8, [15] = 10}, .port = 4500, .family = 6};
static const uint8_t PACKET6[56] = {0x60, [5] = 16, [6] = 60, [7] = 64, [8] = 0x20, [9] = 0x01, [10] = 0x0d, [11] = 0xb8, [23] = 10, [24] = 0x20,
                                    [25] = 0x01, [26] = 0x0d, [27] = 0xb8, [39] = 99, [40] = 17, [48] = 0x11, [49] = 0x94, [51] = 0x35, [53] = 8};

/* the root cgroup, the socket's cookie and token, its deadline */
enum { ROOT = 7, COOKIE = 9, TOKEN = 3, DEADLINE = 1000 };

static int unexpected;

static void expect(const char *what, uint32_t answer, uint32_t wanted) {
    printf("%s: %" PRIu32 "\n", what, answer);
    if (answer != wanted) {
        printf("  expected %" PRIu32 "\n", wanted);
        unexpected = 1;
    }
}

/* ---- the bytes that the gate is given */

static uint8_t config[THREADWICKET_CONFIG_LEN];
static uint8_t current[THREADWICKET_CURRENT_LEN];
static uint8_t table[THREADWICKET_COOKIE_VALUE_LEN]; /* of one record */

static void make_records(void) {
    struct threadwicket_config endpoint = {
        .family = ENDPOINT.family, .port = ENDPOINT.port, .capacity = THREADWICKET_CAPACITY, .root_cgroup = ROOT};
    memcpy(endpoint.address, ENDPOINT.address, sizeof endpoint.address);
    struct threadwicket_current registered = {.control = THREADWICKET_LIFECYCLE_OPEN, .token = TOKEN, .cookie = COOKIE};
    struct threadwicket_cookie_value active = {
        .control = THREADWICKET_ACTIVE, .cookie = COOKIE, .token = TOKEN, .deadline = DEADLINE, .epoch = 2};

    expect("encode the configuration", threadwicket_config_encode(&endpoint, sizeof endpoint, config, sizeof config),
           THREADWICKET_DONE);
    expect("encode the current record", threadwicket_current_encode(&registered, sizeof registered, current, sizeof current),
           THREADWICKET_DONE);
    expect("encode the cookie value", threadwicket_cookie_value_encode(&active, sizeof active, table, sizeof table),
           THREADWICKET_DONE);
}

static void read_back(void) {
    struct threadwicket_cookie_value value;
    expect("decode the cookie value", threadwicket_cookie_value_decode(table, sizeof table, &value, sizeof value), THREADWICKET_DONE);
    printf("  control 0x%08" PRIx64 " cookie %" PRIu64 " token %" PRIu64 " deadline %" PRIu64 " epoch %" PRIu64 "\n",
           value.control, value.cookie, value.token, value.deadline, value.epoch);
    if (value.control != THREADWICKET_ACTIVE || value.cookie != COOKIE || value.token != TOKEN || value.deadline != DEADLINE
        || value.epoch != 2)
        unexpected = 1;
}

static void refusals(void) {
    struct threadwicket_current closed = {.control = THREADWICKET_RETIREMENT_CLOSED, .token = 4, .cookie = 0};
    uint8_t bytes[THREADWICKET_CURRENT_LEN] = {0};
    expect("encode into a buffer that is one byte short",
           threadwicket_current_encode(&closed, sizeof closed, bytes, sizeof bytes - 1), THREADWICKET_ROOM);
    closed.token = 3;
    expect("encode a closed token that is odd", threadwicket_current_encode(&closed, sizeof closed, bytes, sizeof bytes),
           THREADWICKET_UNSOUND);
    closed.control += UINT64_C(1) << 32;
    closed.token = 4;
    expect("encode a control word of more than 32 bits", threadwicket_current_encode(&closed, sizeof closed, bytes, sizeof bytes),
           THREADWICKET_UNSOUND);
    expect("decode one byte too few", threadwicket_current_decode(current, sizeof current - 1, &closed, sizeof closed),
           THREADWICKET_LENGTH);
    printf("  control %" PRIu64 " token %" PRIu64 " cookie %" PRIu64 "\n", closed.control, closed.token, closed.cookie);
    if (closed.control != 0 || closed.token != 0 || closed.cookie != 0)
        unexpected = 1;
}

static void nothing_handed_over(void) {
    struct threadwicket_key key;
    struct threadwicket_reading reading;
    expect("decode no bytes", threadwicket_key_decode(NULL, 0, &key, sizeof key), THREADWICKET_LENGTH);
    expect("classify no packet", threadwicket_classify(NULL, 0, &ENDPOINT, &reading), THREADWICKET_INDETERMINATE);
    expect("classify for no endpoint", threadwicket_classify(PACKET, sizeof PACKET, NULL, NULL), THREADWICKET_INDETERMINATE);
    expect("classify without room for the reading",
           threadwicket_classify_raw(PACKET, sizeof PACKET, ENDPOINT.family, ENDPOINT.address, ENDPOINT.port, &reading, sizeof reading - 1),
           THREADWICKET_NO_ROOM);
}

static void classify(void) {
    struct threadwicket_reading reading;
    expect("classify the packet", threadwicket_classify(PACKET, sizeof PACKET, &ENDPOINT, &reading), THREADWICKET_PROTECTED);
    printf("  extension headers passed: %" PRIu64 "\n", reading.headers);
    expect("classify the one over IPv6", threadwicket_classify(PACKET6, sizeof PACKET6, &ENDPOINT6, &reading), THREADWICKET_PROTECTED);
    printf("  extension headers passed: %" PRIu64 "\n", reading.headers);
    if (reading.headers != 1)
        unexpected = 1;
}

/* the packet of a socket that is bound to no address, at a time */
static uint32_t judge(uint64_t now) {
    struct threadwicket_call call = {.config = config,
                                     .config_len = sizeof config,
                                     .current = current,
                                     .current_len = sizeof current,
                                     .table = table,
                                     .table_len = sizeof table,
                                     .packet = PACKET,
                                     .packet_len = sizeof PACKET,
                                     .attachment = ROOT,
                                     .cookie = COOKIE,
                                     .now_boot_ns = now};
    return threadwicket_gate(&call, NULL);
}

int main(void) {
    make_records();
    read_back();
    refusals();
    nothing_handed_over();
    classify();
    expect("judge it before the deadline", judge(DEADLINE - 1), THREADWICKET_ALLOW);
    expect("judge it at the deadline", judge(DEADLINE), THREADWICKET_DROP_EXPIRED);
    expect("refresh the deadline in time", threadwicket_refresh(DEADLINE - 1, DEADLINE, 2 * DEADLINE), THREADWICKET_APPLY);
    expect("refresh it too late", threadwicket_refresh(DEADLINE, DEADLINE, 2 * DEADLINE), THREADWICKET_PRIOR_EXPIRED);
    return unexpected;
}
