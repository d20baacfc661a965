// Runs every work item by us and by each peer. `time` prints nanoseconds, the least of interleaved rounds; `count`, under callgrind, dumps instructions;
// `profile WORK` runs one item of ours 100 times.
#define _GNU_SOURCE
#include <stdbool.h>
#include <stdio.h>
#include <stdlib.h>
#include <string.h>
#include <time.h>
#include <valgrind/callgrind.h>

#include "calls.h"
#include "jobs.h"
#include "states.h"

enum { ROUNDS = 25 };

static struct job jobs[512];
static int job_count;

struct job *add(const char *work, const char *who, uint64_t (*run)(const struct job *), uint64_t expect) {
    struct job *j = &jobs[job_count++];
    snprintf(j->work, sizeof j->work, "%s", work);
    j->who = who, j->run = run, j->expect = expect, j->ns = 1e18;
    return j;
}

static struct bytes text(char *s) { return (struct bytes){(unsigned char *)s, strlen(s)}; }

// ---- what each does

static uint64_t nothing(const struct job *j) { return j->expect; }
static uint64_t our_name(const struct job *j) { return bench_name_valid(j->n, j->a.at, j->a.len); }
static uint64_t our_signature(const struct job *j) { return bench_signature_valid(j->a.at, j->a.len); }
static uint64_t our_utf8(const struct job *j) { return bench_utf8_valid(j->a.at, j->a.len); }
static uint64_t our_head(const struct job *j) { return bench_header_read(j->a.at, j->a.len); }
static uint64_t our_image(const struct job *j) { return bench_image_check(j->image.at, j->image.len); }
static uint64_t our_memory(const struct job *j) { return bench_memory_good(j->memory.at, j->memory.len); }
static uint64_t dbus_text(const struct job *j) { return j->dbus((const char *)j->a.at, NULL); }
static uint64_t glib_text(const struct job *j) { return j->glib((const char *)j->a.at); }

static gboolean glib_utf8(const gchar *s) { return g_utf8_validate(s, -1, NULL); }

static uint64_t dbus_head(const struct job *j) {
    DBusMessage *m = dbus_message_demarshal((const char *)j->a.at, j->a.len, NULL);
    if (!m) return 1;
    dbus_message_unref(m);
    return 0;
}

static uint64_t glib_head(const struct job *j) {
    GDBusMessage *m = g_dbus_message_new_from_blob(j->a.at, j->a.len, G_DBUS_CAPABILITY_FLAGS_NONE, NULL);
    if (!m) return 1;
    g_object_unref(m);
    return 0;
}

static unsigned char other[1 << 17] __attribute__((aligned(64)));
static int (*volatile compare)(const void *, const void *, size_t) = memcmp;
static void *(*volatile copy)(void *, const void *, size_t) = memcpy;

static uint64_t copied(const struct job *j) {
    copy(other, j->a.at, j->a.len);
    return 0;
}

static uint64_t compared(const struct job *j) { return compare(j->a.at, j->memory.at, j->a.len) != 0; }

// Path, interface and member of the call that is judged; and of the same call without an interface.
static uint32_t places[6], bare[6];
static unsigned char cells[1024];

static uint64_t decide_by(const struct job *j, const uint32_t *fields) {
    return bench_decide(j->image.at, j->image.len, 0, 1, 1000, gids, 16, cells, sizeof cells, j->a.at, j->a.len, fields);
}

static uint64_t decide(const struct job *j) { return decide_by(j, places); }
static uint64_t decide_bare(const struct job *j) { return decide_by(j, bare); }

static uint64_t one_piece(const struct job *j, uint32_t peer, const unsigned char *at, size_t len) {
    return guard_piece(j->image, j->memory, peer, at, len);
}

static uint64_t piece(const struct job *j) { return one_piece(j, 2, j->a.at, j->a.len); }

static uint64_t cuts(const struct job *j) {
    uint64_t last = 0;
    for (int k = 0; k < j->n; k++) {
        size_t from = j->a.len * k / j->n, to = j->a.len * (k + 1) / j->n;
        last = one_piece(j, 2, j->a.at + from, to - from);
    }
    return last % 256;
}

static struct bytes call, answer;

// The last byte of a message, and the head of the next: the state is the same again.
static uint64_t end_and_head(const struct job *j) {
    uint64_t a = one_piece(j, 2, (const unsigned char *)"", 1), b = one_piece(j, 2, j->a.at, j->a.len);
    return a % 256 + b % 256;
}

static uint64_t call_and_return(const struct job *j) {
    uint64_t a = one_piece(j, 2, call.at, call.len), b = one_piece(j, 1, answer.at, answer.len);
    return a % 256 + b % 256;
}

static uint64_t own_again(const struct job *j) {
    return guard_own(j->image, j->memory, 1, NAME, strlen(NAME));
}

static uint64_t start(const struct job *j) { return guard_start(j->memory); }

enum { LONGEST_BATCH = 256 };
static uint8_t room[LONGEST_BATCH][PLACE];

// As many messages as there are places: how many were written, and what the last one tells. The bytes taken in all are looked at too.
static uint64_t batch(const struct job *j) {
    size_t taken, wrote = aygeshunt_batch(j->image.at, j->image.len, j->memory.at, j->memory.len, 2, j->a.at, j->a.len, room[0], sizeof room, &taken);
    return taken == j->a.len && wrote == (size_t)j->n ? told(room[wrote - 1]) : ~0ULL;
}

// ---- the jobs of each kind

static struct bytes head_bytes(const char *work, struct bytes b) {
    add(work, "ours", our_head, 0)->a = b;
    add(work, "libdbus", dbus_head, 0)->a = b;
    add(work, "GLib", glib_head, 0)->a = b;
    add(work, "memcpy", copied, 0)->a = b;
    return b;
}

static struct bytes head(const char *work, struct message m, size_t want) {
    struct bytes b = message_bytes(&m);
    must(!want || b.len == want, work);
    return head_bytes(work, b);
}

static struct job *texts(const char *work, char *s, uint64_t (*run)(const struct job *), dbus_bool_t (*dbus)(const char *, DBusError *),
                         gboolean (*glib)(const gchar *)) {
    struct job *ours = add(work, "ours", run, 1), *j;
    ours->a = text(s);
    j = add(work, "libdbus", dbus_text, 1);
    j->dbus = dbus, j->a = text(s);
    j = add(work, "GLib", glib_text, 1);
    j->glib = glib, j->a = text(s);
    add(work, "memcpy", copied, 0)->a = text(s);
    return ours;
}

static void signatures(const char *work, char *s) { texts(work, s, our_signature, dbus_signature_validate, g_variant_is_signature); }
static void utf8(const char *work, char *s) { texts(work, s, our_utf8, dbus_validate_utf8, glib_utf8); }

// The value as an unknown field of a return, for us; as the body of a return, for the peers, which test it there.
static void value(const char *work, const struct value *v) {
    struct bytes field = message_bytes(&(struct message){.kind = 2, .flags = 1, .reply_serial = 1, .extra = v});
    struct bytes body = message_bytes(&(struct message){.kind = 2, .flags = 1, .reply_serial = 1, .content = v});
    add(work, "ours", our_head, 0)->a = field;
    add(work, "libdbus", dbus_head, 0)->a = body;
    add(work, "GLib", glib_head, 0)->a = body;
    add(work, "memcpy", copied, 0)->a = field;
}

static void names(size_t n) {
    static const struct {
        const char *what;
        int form;
        dbus_bool_t (*dbus)(const char *, DBusError *);
        gboolean (*glib)(const gchar *);
    } forms[] = {{"interface", 0, dbus_validate_interface, g_dbus_is_interface_name},
                 {"well-known name", 1, dbus_validate_bus_name, g_dbus_is_name},
                 {"unique name", 2, dbus_validate_bus_name, g_dbus_is_unique_name},
                 {"member", 4, dbus_validate_member, g_dbus_is_member_name},
                 {"path", 5, dbus_validate_path, g_variant_is_object_path}};
    for (size_t i = 0; i < sizeof forms / sizeof *forms; i++) {
        char work[96];
        sprintf(work, "%s of %zu bytes", forms[i].what, n);
        texts(work, name_of(forms[i].form, n), our_name, forms[i].dbus, forms[i].glib)->n = forms[i].form;
    }
}

static void image(const char *work, struct bytes b) {
    add(work, "ours", our_image, 0)->image = b;
    struct bytes twin = {aligned_alloc(64, 65536), b.len};
    memcpy(twin.at, b.at, b.len);
    struct job *j = add(work, "memcmp", compared, 0);
    j->memory = b, j->a = twin;
}

static void decision(const char *work, uint64_t (*run)(const struct job *), struct bytes b, uint64_t expect) {
    struct job *j = add(work, "decide", run, expect);
    j->image = b, j->a = call;
    add(work, "test", our_image, 0)->image = b;
}

static void memory(const char *work, struct bytes m) {
    add(work, "ours", our_memory, 1)->memory = m;
    struct bytes twin = {aligned_alloc(64, (MEMORY + 63) / 64 * 64), MEMORY};
    memcpy(twin.at, m.at, MEMORY);
    struct job *j = add(work, "memcmp", compared, 0);
    j->memory = m, j->a = twin;
}

static void guarded(const char *work, uint64_t (*run)(const struct job *), uint64_t expect, struct bytes rules, struct bytes m, struct bytes a, int n) {
    struct job *j = add(work, "ours", run, expect);
    j->image = rules, j->memory = m, j->a = a, j->n = n;
}

// A message n times in one batch, each told of alike.
static void batched(const char *of, int n, uint64_t expect, struct bytes rules, struct bytes m, struct bytes message) {
    char work[96];
    snprintf(work, sizeof work, "batch of %d, %s, each", n, of);
    guarded(work, batch, expect, rules, m, in_a_row(message, n), n);
    must(batch(&jobs[job_count - 1]) == expect, work);
    for (int i = 0; i < n; i++) must(told(room[i]) == expect, work);
}

static void all_batches(struct bytes quiet, struct bytes signal) {
    static const int lengths[] = {1, 32, 256};
    struct bytes many = image_of(PASSING, 512), two = served(2), sixteen = served(PEERS);
    for (int i = 0; i < 3; i++) batched("176-byte call, 16 rules, 2 peers", lengths[i], BY(1) + 256 * 176, passing, two, quiet);
    for (int i = 0; i < 3; i++) batched("176-byte call, 16 rules, 16 peers", lengths[i], BY(1) + 256 * 176, passing, sixteen, quiet);
    for (int i = 0; i < 3; i++) batched("176-byte call, 512 rules, 16 peers", lengths[i], BY(1) + 256 * 176, many, sixteen, quiet);
    batched("16 bytes of type 5, 16 rules, 16 peers", 256, 20 + 256 * 16, passing, sixteen, message_bytes(&(struct message){.kind = 5}));
    struct bytes dear = dearest_head(0);
    batched("the dearest head, 16 rules, 16 peers", 32, 20 + 256 * dear.len, passing, sixteen, dear);
    batched("signal to 16 peers, 16 rules", 256, 256 * signal.len, passing, sixteen, signal);
    batched("signal, 512 rules that all fit but for the name", 32, 256 * signal.len, image_of(NEARLY_ANY, 512), nearly(), signal);
}

static const int sizes[] = {16, 128, 512};

static void all_policy(void) {
    char work[96];
    for (int i = 0; i < 3; i++) {
        sprintf(work, "image test, %d rules", sizes[i]);
        image(work, image_of(OTHERS, sizes[i]));
    }
    image("image test, 512 rules of four strings", image_of(NEARLY, 512));
    for (int i = 0; i < 3; i++) {
        sprintf(work, "decision, %d rules, none fits", sizes[i]);
        decision(work, decide, image_of(OTHERS, sizes[i]), 0);
        sprintf(work, "decision, %d rules, all fit but for the name", sizes[i]);
        decision(work, decide, image_of(NEARLY, sizes[i]), 0);
        sprintf(work, "decision, %d rules, a mandatory one decides first", sizes[i]);
        decision(work, decide, image_of(MANDATORY, sizes[i]), 3 + 2 * (sizes[i] - 1));
    }
    decision("decision, 512 rules, none fits, no interface", decide_bare, image_of(OTHERS, 512), 0);
    decision("decision, 512 rules, all fit but for the name, no interface", decide_bare, image_of(NEARLY, 512), 0);
}

static void growth(struct bytes long_head) {
    char work[96];
    for (int n = 0; n <= 512; n += 64) {
        sprintf(work, "growth:image test:rules:%d", n);
        image(work, image_of(OTHERS, n));
        sprintf(work, "growth:none fits:rules:%d", n);
        decision(work, decide, image_of(OTHERS, n), 0);
        sprintf(work, "growth:all but the name:rules:%d", n);
        decision(work, decide, image_of(NEARLY, n), 0);
    }
    struct bytes m = served(PEERS);
    for (int n = 0; n <= 1792; n += 256) {
        struct message c = {.kind = 1, .flags = 1, .interface = INTERFACE, .member = MEMBER, .destination = NAME, .path = name_of(5, 32 + n)};
        struct bytes b = message_bytes(&c);
        sprintf(work, "growth:head:length:%zu", b.len);
        guarded(work, piece, BY(1) + 256 * b.len, passing, m, b, 0);
        c.path = PATH, c.body = n;
        b = message_bytes(&c);
        sprintf(work, "growth:body:length:%zu", b.len);
        guarded(work, piece, BY(1) + 256 * b.len, passing, m, b, 0);
    }
    for (int n = 1; n <= 64; n *= 2) {
        sprintf(work, "growth:2,048-byte head:pieces:%d", n);
        guarded(work, cuts, 0, passing, m, long_head, n);
    }
}

static void all_jobs(void) {
    add("nothing", "ours", nothing, 0);
    passing = image_of(PASSING, 16);
    struct message c = {.kind = 1, .path = PATH, .interface = INTERFACE, .member = MEMBER, .destination = NAME, .signature = ""};
    head("head, 48-byte call C", (struct message){.kind = 1, .path = "/", .member = "M"}, 48);
    call = head("head, 176-byte call", c, 176);
    struct message l = {.kind = 1, .flags = 1, .path = name_of(5, 967), .interface = name_of(0, 255), .member = name_of(4, 255),
                        .destination = name_of(1, 255), .sender = name_of(2, 255)};
    struct bytes long_head = head("head, 2,048 bytes", l, 2048);
    c.extra = &NUMBER;
    head("head, 176-byte call and an unknown field of u", c, 184);
    c.extra = NULL;
    head_bytes("head, 2,048 bytes, the dearest known", dearest_head(0));
    head_bytes("head, 2,048 bytes, variants in 31 parentheses", parenthesized_head());
    head("head, signal", (struct message){.kind = 4, .path = PATH, .interface = INTERFACE, .member = MEMBER}, 0);
    answer = head("head, return", (struct message){.kind = 2, .flags = 1, .destination = ":1.2", .reply_serial = 1}, 0);
    value("a{sv} of six properties: unknown field, body", &PROPERTIES);
    value("as of 20 names: unknown field, body", &NAMES);
    value("s of 1,900 ASCII bytes: unknown field, body", &TEXT);
    value("a(iiibiay) of 20: unknown field, body", &STRUCTS);
    names(14);
    names(30);
    names(255);
    signatures("signature sa{sv}as", "sa{sv}as");
    signatures("signature, 255 times y", repeated("y", 255, ""));
    signatures("signature, 31 times a{s(iu)}, (sasv)y", repeated("a{s(iu)}", 31, "(sasv)y"));
    utf8("text of 30 ASCII bytes", repeated("abcdefghij", 3, ""));
    utf8("text of 255 ASCII bytes", repeated("abcdefghijklmno", 17, ""));
    utf8("text of 2,000 ASCII bytes", repeated("abcdefghij", 200, ""));
    utf8("text of 2,000 bytes, characters of three", wide_text(2000));
    for (int i = 0; i < 6; i += 2) {
        const char *s = i == 0 ? PATH : i == 2 ? INTERFACE : MEMBER;
        places[i] = (unsigned char *)memmem(call.at, call.len, s, strlen(s)) - call.at, places[i + 1] = strlen(s);
        if (i != 2) bare[i] = places[i], bare[i + 1] = places[i + 1];
    }
    for (int j = 0; j < 4; j++) cells[256 * j] = sprintf((char *)cells + 256 * j + 1, "org.example.Service.Fir%02d", j);
    all_policy();
    memory("memory test, empty", started(0));
    memory("memory test, 16 idle peers", started(PEERS));
    memory("memory test, 16 idle peers with a name each", named());
    memory("memory test, 16 peers within 2 KB heads", halfway(long_head));
    memory("memory test, 16 peers with the dearest heads", behind(dearest_head(1)));
    memory("memory test, 16 peers, 256 waits", waiting(0));
    memory("memory test, 16 peers, 256 waits, serials falling", falling());
    memory("memory test, 16 peers, 64 names of 255 bytes, 256 waits", full());
    c.flags = 1;
    struct bytes quiet = message_bytes(&c), signal = message_bytes(&(struct message){.kind = 4, .path = PATH, .interface = INTERFACE, .member = MEMBER});
    guarded("piece, 176-byte call, 16 rules, 2 peers", piece, BY(1) + 256 * 176, passing, served(2), quiet, 0);
    guarded("piece, 176-byte call, 16 rules, 16 peers", piece, BY(1) + 256 * 176, passing, served(PEERS), quiet, 0);
    guarded("piece, 176-byte call, 512 rules, 16 peers", piece, BY(1) + 256 * 176, image_of(PASSING, 512), served(PEERS), quiet, 0);
    guarded("piece, signal to 16 peers, 16 rules", piece, 256 * signal.len, passing, served(PEERS), signal, 0);
    guarded("piece, 2,048-byte head, 16 rules, 16 peers", piece, BY(1) + 256 * 2048, passing, served(PEERS), long_head, 0);
    struct bytes dear = dearest_head(1), byte = {cells, 1};
    guarded("piece, a byte of a body, 16 rules, 16 peers with the dearest heads", piece, 10 + 256, passing, behind(dearest_head(1 << 26)), byte, 0);
    guarded("a message's end and the next head, 16 peers with the dearest heads", end_and_head, 20 + 10, passing, behind(dear), dear, 0);
    guarded("call and its return, 16 rules, 16 peers", call_and_return, 0, passing, served(PEERS), call, 0);
    guarded("own, a name of its own, 16 rules, 16 peers", own_again, BY(0), passing, served(PEERS), call, 0);
    guarded("start", start, 0, passing, started(0), call, 0);
    all_ticks();
    all_conversions();
    all_batches(quiet, signal);
    growth(long_head);
}

// ---- running

static double now(void) {
    struct timespec t;
    clock_gettime(CLOCK_MONOTONIC, &t);
    return t.tv_sec * 1e9 + t.tv_nsec;
}

static void __attribute__((noinline)) repeat(struct job *j, int times) {
    for (int i = 0; i < times; i++)
        if (j->run(j) != j->expect) {
            fprintf(stderr, "driver: %s by %s gave %lu\n", j->work, j->who, (unsigned long)j->run(j));
            exit(1);
        }
}

static void round_of(struct job *j) {
    double t = now();
    repeat(j, 1);
    t = now() - t;
    int times = t > 40000 ? 2 : 1 + (int)(60000 / (t + 30));
    double from = now();
    repeat(j, times);
    double ns = (now() - from) / times;
    if (ns < j->ns) j->ns = ns;
}

int main(int argc, char **argv) {
    all_jobs();
    if (argc > 1 && !strcmp(argv[1], "count")) {
        for (int i = 0; i < job_count; i++) {
            char label[160];
            snprintf(label, sizeof label, "%.95s|%.20s", jobs[i].work, jobs[i].who);
            repeat(&jobs[i], 3);
            CALLGRIND_ZERO_STATS;
            repeat(&jobs[i], 4);
            CALLGRIND_DUMP_STATS_AT(label);
        }
        return 0;
    }
    if (argc > 2 && !strcmp(argv[1], "profile")) {
        for (int i = 0; i < job_count; i++)
            if (!strcmp(jobs[i].work, argv[2]) && strcmp(jobs[i].who, "test")) repeat(&jobs[i], 100), job_count = 0;
        return 0;
    }
    for (int r = 0; r < ROUNDS; r++)
        for (int i = 0; i < job_count; i++) round_of(&jobs[i]);
    for (int i = 0; i < job_count; i++) printf("%s|%s|%.1f\n", jobs[i].work, jobs[i].who, jobs[i].ns);
    return 0;
}
