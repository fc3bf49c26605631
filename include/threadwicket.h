/*
 * Threadwicket for programs in C and in languages that call C.
 *
 * The functions are proved in Rattle and stand in two static libraries, both for x86-64, which the script `archives` proves and builds:
 *
 *     target/staticlib/libexport.a        all but the gate
 *     target/staticlib/libexport_gate.a   the gate
 *
 *     cc -Iinclude program.c target/staticlib/libexport.a target/staticlib/libexport_gate.a
 *
 * examples/fence.c uses them. No function allocates, keeps a pointer, reads or writes anything but what it is handed, or fails to
 * return; each may be called from several threads at once.
 *
 * Pointers. Bytes pass as a pointer and a length. The pointer is valid for the whole length; where the length is 0 it may be null. What a
 * call writes overlaps nothing else that the call is handed. An address is sixteen bytes in network order: an IPv4 one stands in the first
 * four. No alignment is asked of bytes.
 *
 * Ports are numbers in the host's byte order: ntohs(sin_port), not sin_port.
 */
#ifndef THREADWICKET_H
#define THREADWICKET_H

#include <stddef.h>
#include <stdint.h>

#ifdef __cplusplus
#define THREADWICKET_ASSERT(holds, name) static_assert(holds, #name)
extern "C" {
#elif defined __STDC_VERSION__ && __STDC_VERSION__ >= 201112L
#define THREADWICKET_ASSERT(holds, name) _Static_assert(holds, #name)
#else
#define THREADWICKET_ASSERT(holds, name) typedef char threadwicket_assert_##name[(holds) ? 1 : -1]
#endif

/* ---- what the functions of the records answer */

enum {
    THREADWICKET_DONE = 0,
    THREADWICKET_LENGTH = 1,  /* decode: the bytes are not of the record's length; encode: the fields are not of the struct's size */
    THREADWICKET_REFUSED = 2, /* decode: the bytes are no record */
    THREADWICKET_UNSOUND = 3, /* encode: the fields are no record, or one is too wide for its place */
    THREADWICKET_ROOM = 4     /* there is less room than the answer needs */
};

/* ---- the classifier */

/* an address and a port, of an endpoint or of a socket */
struct threadwicket_endpoint {
    uint8_t address[16]; /* in network order; an IPv4 one in the first four */
    uint16_t port;       /* in host order */
    uint8_t family;      /* 4 or 6; 0 where a socket is not bound */
};

/* what reading a packet came to, beside the answer */
struct threadwicket_reading {
    uint64_t headers; /* the IPv6 extension headers passed, 0 to 4; 0 where the packet was not read */
};

THREADWICKET_ASSERT(sizeof(struct threadwicket_reading) == 8, a_reading_is_one_number);

/* Whether a packet's UDP source is the endpoint. */
enum {
    THREADWICKET_PROTECTED = 0,    /* from the endpoint's address and port */
    THREADWICKET_UNRELATED = 1,    /* certainly not from it; so is a packet of the other family */
    THREADWICKET_INDETERMINATE = 2 /* cut, malformed, a fragment, or past what the classifier follows; or the endpoint's family is neither 4 nor 6 */
};

/* what threadwicket_classify_raw and threadwicket_gate_raw answer where the reading is too short; no answer has this number */
enum { THREADWICKET_NO_ROOM = 256 };

/* threadwicket_classify with its parts one by one, for other languages. address: sixteen bytes, never null. port: in host order. */
uint32_t threadwicket_classify_raw(const uint8_t *packet, size_t packet_len, uint8_t family, const uint8_t *address, uint16_t port,
                                   struct threadwicket_reading *reading, size_t reading_len);

/*
 * packet: the whole packet from its IP header on. Without an endpoint (null) the answer is Indeterminate. reading may be null. The answer is
 * one of the three above, and can be compared as it is.
 */
static inline uint32_t threadwicket_classify(const uint8_t *packet, size_t packet_len, const struct threadwicket_endpoint *endpoint,
                                             struct threadwicket_reading *reading) {
    static const struct threadwicket_endpoint none = {{0}, 0, 0};
    struct threadwicket_reading unasked;
    const struct threadwicket_endpoint *of = endpoint ? endpoint : &none;
    return threadwicket_classify_raw(packet, packet_len, of->family, of->address, of->port, reading ? reading : &unasked, sizeof unasked);
}

/* ---- the gate */

/* The verdict, by its counter slot. */
enum {
    THREADWICKET_ALLOW = 0,            /* the registered socket, before its deadline */
    THREADWICKET_DROP_COOKIE_ZERO = 2, /* the socket has no cookie */
    THREADWICKET_DROP_MISSING = 3,     /* no record stands under its cookie and the current token */
    THREADWICKET_DROP_CLOSED = 4,      /* its record is not Active */
    THREADWICKET_DROP_EXPIRED = 5,     /* its deadline is reached or passed */
    THREADWICKET_DROP_MALFORMED = 6,   /* a record, the table or the packet cannot be read, or the hook is attached elsewhere */
    THREADWICKET_DROP_STALE_TOKEN = 7, /* another socket is registered under the current token, or none */
    THREADWICKET_PASS_UNRELATED = 255  /* not from the protected address; it has no slot */
};

/* what the gate is asked of a packet */
struct threadwicket_call {
    const uint8_t *config; /* the configuration's bytes */
    size_t config_len;
    const uint8_t *current; /* the current record's bytes */
    size_t current_len;
    const uint8_t *table; /* cookie values side by side, at most 4,096 of them */
    size_t table_len;
    const uint8_t *packet; /* the whole packet from its IP header on */
    size_t packet_len;
    uint64_t attachment;                 /* the number of the cgroup that the hook is attached to */
    uint64_t cookie;                     /* the socket's */
    uint64_t now_boot_ns;                /* the boot clock */
    struct threadwicket_endpoint socket; /* what the socket is bound to, family 0 where it is not */
};

/* threadwicket_gate with the call's parts one by one, for other languages. address: sixteen bytes, never null. port: in host order. */
uint32_t threadwicket_gate_raw(const uint8_t *config, size_t config_len, uint64_t attachment, uint8_t family, const uint8_t *address,
                               uint16_t port, const uint8_t *packet, size_t packet_len, uint64_t cookie, const uint8_t *current,
                               size_t current_len, const uint8_t *table, size_t table_len, uint64_t now_boot_ns,
                               struct threadwicket_reading *reading, size_t reading_len);

/* call is not null; reading may be. The answer is one of the eight verdicts above, and can be compared as it is. */
static inline uint32_t threadwicket_gate(const struct threadwicket_call *call, struct threadwicket_reading *reading) {
    struct threadwicket_reading unasked;
    return threadwicket_gate_raw(call->config, call->config_len, call->attachment, call->socket.family, call->socket.address,
                                 call->socket.port, call->packet, call->packet_len, call->cookie, call->current, call->current_len,
                                 call->table, call->table_len, call->now_boot_ns, reading ? reading : &unasked, sizeof unasked);
}

/* ---- deadlines */

/* Whether a requested deadline may take the place of the prior one, on the clock observed. */
enum {
    THREADWICKET_PRIOR_EXPIRED = 0,              /* the prior deadline is reached or passed */
    THREADWICKET_REQUESTED_DEADLINE_INVALID = 1, /* the requested one is not after the clock, or is more than 300 s ahead */
    THREADWICKET_DEADLINE_REGRESSED = 2,         /* the requested one is earlier than the prior one */
    THREADWICKET_APPLY = 3
};

uint32_t threadwicket_refresh(uint64_t observed_boot_ns, uint64_t prior_boot_ns, uint64_t requested_boot_ns);

/* ---- the records
 *
 * A record is bytes, as the map or the wire has them, or fields: its own numbers without marks, versions and zeros, in a struct of
 * uint64_t of its own. Hand a struct over with its sizeof.
 *
 * threadwicket_NAME_decode(bytes, bytes_len, fields, fields_len) answers
 *     THREADWICKET_LENGTH   bytes_len is not THREADWICKET_NAME_LEN.
 *     THREADWICKET_REFUSED  the bytes are no record.
 *     THREADWICKET_ROOM     they are one, and fields_len is less than the struct's size.
 *     THREADWICKET_DONE     the fields are written.
 * The first refusal that applies is answered. Under the first two all fields are zero afterwards: of a current and of a mutation record
 * these are themselves a sound record's, so look at the answer, not at the fields. Where fields_len is less than the struct's size nothing
 * is written, whatever is answered, and never anything after the fields.
 *
 * threadwicket_NAME_encode(fields, fields_len, bytes, bytes_len) answers
 *     THREADWICKET_LENGTH   fields_len is not the struct's size.
 *     THREADWICKET_UNSOUND  the fields are no record.
 *     THREADWICKET_ROOM     bytes_len is less than THREADWICKET_NAME_LEN.
 *     THREADWICKET_DONE     the record's bytes are written, and nothing after them.
 * The first refusal that applies is answered, and nothing is written then. Fields that decode gave encode to the same bytes, and bytes
 * that encode gave decode to the same fields.
 */

enum {
    THREADWICKET_CURRENT_LEN = 24,
    THREADWICKET_MUTATION_LEN = 16,
    THREADWICKET_KEY_LEN = 16,
    THREADWICKET_ENTRY_LEN = 32,
    THREADWICKET_COOKIE_VALUE_LEN = 40,
    THREADWICKET_CONFIG_LEN = 40,
    THREADWICKET_INSPECTION_LEN = 128
};

/* the control words of a current record */
enum {
    THREADWICKET_CURRENT_INITIAL = 0,             /* before the first token: token 0, cookie 0 */
    THREADWICKET_LIFECYCLE_OPEN = 0x4f450201,     /* an odd token; the cookie is 0 (open) or not (registered) */
    THREADWICKET_RETIREMENT_CLOSED = 0x4f450202   /* an even token that is not 0; cookie 0 */
};

/* the control words of an entry and of a cookie value. The token is odd and the epoch not 0 in each. */
enum {
    THREADWICKET_INITIAL_CLOSED = 0x4f450101,  /* deadline 0, epoch 1 */
    THREADWICKET_ACTIVE = 0x4f450102,          /* a deadline that is not 0 */
    THREADWICKET_TERMINAL_CLOSED = 0x4f450103, /* deadline 0 */
    THREADWICKET_RECLAIMING = 0x4f4501ff       /* deadline 0 */
};

/* the capacity that a configuration has */
enum { THREADWICKET_CAPACITY = 4096 };

/* the durable token in force, and the socket cookie registered under it */
struct threadwicket_current {
    uint64_t control, token, cookie;
};

/* the last completed generation, and the claim in flight: 0, or generation + 1 */
struct threadwicket_mutation {
    uint64_t generation, claim;
};

/* the key of a cookie value: neither is 0 */
struct threadwicket_key {
    uint64_t cookie, token;
};

/* the state of one registered socket */
struct threadwicket_entry {
    uint64_t control, token, deadline, epoch;
};

/* the key of a registered socket and the state of its entry; the cookie is not 0 */
struct threadwicket_cookie_value {
    uint64_t control, cookie, token, deadline, epoch;
};

/* the protected endpoint, family 4 or 6, its port in host order; the capacity, 4,096; the root cgroup of the attachment, not 0 */
struct threadwicket_config {
    uint64_t family, port, capacity, root_cgroup;
    uint8_t address[16]; /* of family 4 the last twelve are zero */
};

/* three records as they stood at one moment. present is 1, or 0 and all fields of value are zero. */
struct threadwicket_inspection {
    uint64_t present;
    struct threadwicket_current current;
    struct threadwicket_mutation mutation;
    struct threadwicket_cookie_value value;
};

THREADWICKET_ASSERT(sizeof(struct threadwicket_current) == 24, the_size_of_current);
THREADWICKET_ASSERT(sizeof(struct threadwicket_mutation) == 16, the_size_of_mutation);
THREADWICKET_ASSERT(sizeof(struct threadwicket_key) == 16, the_size_of_key);
THREADWICKET_ASSERT(sizeof(struct threadwicket_entry) == 32, the_size_of_entry);
THREADWICKET_ASSERT(sizeof(struct threadwicket_cookie_value) == 40, the_size_of_cookie_value);
THREADWICKET_ASSERT(sizeof(struct threadwicket_config) == 48, the_size_of_config);
THREADWICKET_ASSERT(sizeof(struct threadwicket_inspection) == 88, the_size_of_inspection);

uint32_t threadwicket_current_decode(const uint8_t *bytes, size_t bytes_len, struct threadwicket_current *fields, size_t fields_len);
uint32_t threadwicket_current_encode(const struct threadwicket_current *fields, size_t fields_len, uint8_t *bytes, size_t bytes_len);
uint32_t threadwicket_mutation_decode(const uint8_t *bytes, size_t bytes_len, struct threadwicket_mutation *fields, size_t fields_len);
uint32_t threadwicket_mutation_encode(const struct threadwicket_mutation *fields, size_t fields_len, uint8_t *bytes, size_t bytes_len);
uint32_t threadwicket_key_decode(const uint8_t *bytes, size_t bytes_len, struct threadwicket_key *fields, size_t fields_len);
uint32_t threadwicket_key_encode(const struct threadwicket_key *fields, size_t fields_len, uint8_t *bytes, size_t bytes_len);
uint32_t threadwicket_entry_decode(const uint8_t *bytes, size_t bytes_len, struct threadwicket_entry *fields, size_t fields_len);
uint32_t threadwicket_entry_encode(const struct threadwicket_entry *fields, size_t fields_len, uint8_t *bytes, size_t bytes_len);
uint32_t threadwicket_cookie_value_decode(const uint8_t *bytes, size_t bytes_len, struct threadwicket_cookie_value *fields, size_t fields_len);
uint32_t threadwicket_cookie_value_encode(const struct threadwicket_cookie_value *fields, size_t fields_len, uint8_t *bytes, size_t bytes_len);
uint32_t threadwicket_config_decode(const uint8_t *bytes, size_t bytes_len, struct threadwicket_config *fields, size_t fields_len);
uint32_t threadwicket_config_encode(const struct threadwicket_config *fields, size_t fields_len, uint8_t *bytes, size_t bytes_len);
uint32_t threadwicket_inspection_decode(const uint8_t *bytes, size_t bytes_len, struct threadwicket_inspection *fields, size_t fields_len);
uint32_t threadwicket_inspection_encode(const struct threadwicket_inspection *fields, size_t fields_len, uint8_t *bytes, size_t bytes_len);

#ifdef __cplusplus
}
#endif

#endif
