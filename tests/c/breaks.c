// Faults, one at a time, between the cases and the library: what BREAK names is done wrong, and a case has to find it. The linker's --wrap puts them in.
#include <aygeshunt.h>

#include <string.h>

enum { PLACE = AYGESHUNT_PLACE_LENGTH };

size_t __real_aygeshunt_memory_length(void);
size_t __real_aygeshunt_start(uint8_t *memory, size_t m, uint8_t *place, size_t p);
size_t __real_aygeshunt_connect(const uint8_t *image, size_t i, uint8_t *memory, size_t m, uint32_t uid, const uint32_t *gids, size_t g, uint8_t *place, size_t p);
size_t __real_aygeshunt_own(const uint8_t *image, size_t i, uint8_t *memory, size_t m, uint32_t peer, const uint8_t *name, size_t n, uint8_t *place, size_t p);
size_t __real_aygeshunt_release(uint8_t *memory, size_t m, uint32_t peer, const uint8_t *name, size_t n, uint8_t *place, size_t p);
size_t __real_aygeshunt_piece(const uint8_t *image, size_t i, uint8_t *memory, size_t m, uint32_t peer, const uint8_t *bytes, size_t n, uint8_t *place, size_t p);
size_t __real_aygeshunt_batch(const uint8_t *image, size_t i, uint8_t *memory, size_t m, uint32_t peer, const uint8_t *bytes, size_t n, uint8_t *places, size_t p, size_t *taken);
size_t __real_aygeshunt_disconnect(uint8_t *memory, size_t m, uint32_t peer, uint8_t *place, size_t p);
size_t __real_aygeshunt_tick(uint8_t *memory, size_t m, uint64_t tick, uint64_t limit, uint8_t *place, size_t p);

static int is(const char *fault) { return !strcmp(fault, BREAK); }
static volatile uint8_t seen;

size_t __wrap_aygeshunt_memory_length(void) { return __real_aygeshunt_memory_length() - is("memory_length: one less"); }

size_t __wrap_aygeshunt_start(uint8_t *memory, size_t m, uint8_t *place, size_t p) {
    if (is("start: without a place too") && p == PLACE - 1 && m) memory[0] = 0;
    if (is("start: memory a byte longer is taken") && m == AYGESHUNT_MEMORY_LENGTH + 1) m--;
    size_t wrote = __real_aygeshunt_start(memory, m, place, p);
    if (is("start: fills all places") && p >= 2 * PLACE) memcpy(place + PLACE, place, PLACE);
    if (is("start: a byte of memory is not cleared") && wrote && m > 9) memory[9] = 7;
    return wrote;
}

size_t __wrap_aygeshunt_connect(const uint8_t *image, size_t i, uint8_t *memory, size_t m, uint32_t uid, const uint32_t *gids, size_t g, uint8_t *place, size_t p) {
    if (is("connect: at most 16 gids are looked at") && g > 16) g = 16;
    if (is("connect: reads a gid more") && p >= PLACE) seen = (uint8_t)((const volatile uint32_t *)gids)[g];
    size_t wrote = __real_aygeshunt_connect(image, i, memory, m, uid, gids, g, place, p);
    if (is("connect: memory comes first") && wrote && place[0] == 50 && m != AYGESHUNT_MEMORY_LENGTH) place[0] = 51;
    if (is("connect: no slot") && wrote) place[16] = 0;
    if (is("connect: forgets the last tick") && wrote && place[0] == 0) memset(memory + 4, 0, 8);
    return wrote;
}

size_t __wrap_aygeshunt_own(const uint8_t *image, size_t i, uint8_t *memory, size_t m, uint32_t peer, const uint8_t *name, size_t n, uint8_t *place, size_t p) {
    if (is("own: a longer name is cut") && n > 255) n = 255;
    if (is("own: reads behind the name") && p >= PLACE) seen = ((const volatile uint8_t *)name)[n];
    if (is("own: looks at the image first") && i) seen = ((const volatile uint8_t *)image)[0];
    return __real_aygeshunt_own(image, i, memory, m, peer, name, n, place, p);
}

size_t __wrap_aygeshunt_release(uint8_t *memory, size_t m, uint32_t peer, const uint8_t *name, size_t n, uint8_t *place, size_t p) {
    size_t wrote = __real_aygeshunt_release(memory, m, peer, name, n, place, p);
    if (is("release: a refusal changes memory") && wrote && place[0] == 35) memory[8]++;
    if (is("release: writes a byte behind the place") && wrote && p > PLACE) place[PLACE] = 0;
    return wrote;
}

size_t __wrap_aygeshunt_piece(const uint8_t *image, size_t i, uint8_t *memory, size_t m, uint32_t peer, const uint8_t *bytes, size_t n, uint8_t *place, size_t p) {
    if (is("piece: reads behind the bytes") && p >= PLACE) seen = ((const volatile uint8_t *)bytes)[n];
    if (is("piece: reads before the image") && p >= PLACE) seen = ((const volatile uint8_t *)image)[-1];
    if (is("piece: writes behind memory") && p >= PLACE) ((volatile uint8_t *)memory)[m] = 0;
    if (is("piece: writes behind the room") && p >= PLACE) ((volatile uint8_t *)place)[p] = 0;
    size_t wrote = __real_aygeshunt_piece(image, i, memory, m, peer, bytes, n, place, p);
    if (is("piece: needs an aligned place") && wrote && (uintptr_t)place % 4) place[1] = 1;
    if (is("piece: one peer is counted") && wrote && place[8] == 2) place[16] = 1;
    if (is("piece: who decided is not shown") && wrote) memset(place + 20, 0, 8);
    if (is("piece: a wait begins at 0") && wrote && place[8] == 2 && peer == 2) memset(memory + 12 + 3420 + 80 + 16 * (memory[12 + 3420 + 76] - 1) + 8, 0, 8);
    return wrote;
}

static void put(uint8_t *place, uint32_t answer) {
    memset(place, 0, PLACE);
    place[0] = (uint8_t)answer;
}

// Faults of a batch that can be made of what it wrote.
static size_t batch_after(size_t wrote, uint8_t *memory, size_t n, uint8_t *places, size_t p, size_t *taken) {
    uint8_t *last = places + PLACE * (wrote - 1), *next = places + PLACE * wrote;
    int more = PLACE * (wrote + 1) <= p;
    if (is("batch: a place too many") && more) put(next, 10);
    if (is("batch: a byte behind the places") && PLACE * wrote < p) *next = 0;
    if (is("batch: the last taken") && wrote > 1) *taken = aygeshunt_word(last, AYGESHUNT_TAKEN);
    if (is("batch: an extra 10") && more && n == *taken && last[0] == 0) put(next, 10), wrote++;
    if (is("batch: goes on after a broken head") && more && last[0] == 1) put(next, 40), wrote++;
    if (is("batch: goes on after 30") && more && last[0] == 30) put(next, 30), wrote++;
    if (is("batch: goes on after 50") && more && last[0] == 50) put(next, 50), wrote++;
    if (is("batch: who decided is shown first only") && wrote > 1) memset(last + 20, 0, 8);
    if (is("batch: memory of the first call only") && wrote > 5) memory[12 + 76] ^= 1;
    if (is("batch: counts a place too few") && wrote > 2) wrote--;
    return wrote;
}

size_t __wrap_aygeshunt_batch(const uint8_t *image, size_t i, uint8_t *memory, size_t m, uint32_t peer, const uint8_t *bytes, size_t n, uint8_t *places, size_t p, size_t *taken) {
    if (is("batch: looks at memory without a place") && m) seen = ((const volatile uint8_t *)memory)[0];
    if (is("batch: places are rounded up") && p % PLACE && p > PLACE) p += PLACE - p % PLACE;
    if (is("batch: one place at most") && p > PLACE) p = PLACE;
    if (is("batch: the last place stays empty") && p >= 4 * PLACE) p -= PLACE;
    if (is("batch: an empty piece fills nothing") && n == 0 && p >= PLACE) return *taken = 0, 0;
    size_t before = *taken, wrote = __real_aygeshunt_batch(image, i, memory, m, peer, bytes, n, places, p, taken);
    if (is("batch: taken is not told without a place") && p < PLACE) *taken = before;
    if (is("batch: a bad image fills nothing") && wrote && places[0] == 50) return 0;
    return wrote ? batch_after(wrote, memory, n, places, p, taken) : 0;
}

size_t __wrap_aygeshunt_disconnect(uint8_t *memory, size_t m, uint32_t peer, uint8_t *place, size_t p) {
    if (is("disconnect: another peer goes") && peer == 3) peer = 1;
    size_t wrote = __real_aygeshunt_disconnect(memory, m, peer, place, p);
    if (is("disconnect: no bytes") && wrote) place[12] = 0;
    if (is("disconnect: the last tick is forgotten") && wrote && place[0] == 0) memset(memory + 4, 0, 8);
    return wrote;
}

static uint64_t tick_at(const uint8_t *at) { return aygeshunt_word(at, 0) | (uint64_t)aygeshunt_word(at, 1) << 32; }

static void set_tick(uint8_t *at, uint64_t tick) {
    for (int i = 0; i < 8; i++) at[i] = (uint8_t)(tick >> 8 * i);
}

// A tick of some call in memory that should not be there is overlooked: it is made good first.
static void mend(uint8_t *memory) {
    for (int slot = 0; slot < 16; slot++)
        for (int i = 0; i < 16; i++) {
            uint8_t *call = memory + 12 + 3420 * slot + 80 + 16 * i;
            if (is("tick: a newer wait is good") && aygeshunt_word(call, 1) && tick_at(call + 8) > tick_at(memory + 4)) set_tick(call + 8, 0);
            if (is("tick: an unused tick is overlooked") && !aygeshunt_word(call, 1)) set_tick(call + 8, 0);
        }
}

// Faults of what a tick is told.
static void tick_before(const uint8_t *memory, uint64_t *tick, uint64_t *limit) {
    uint64_t last = tick_at(memory + 4);
    if (is("tick: a lower one is taken for the last") && *tick < last) *tick = last;
    if (is("tick: it has 32 bits")) *tick = (uint32_t)*tick;
    if (is("tick: only the high word is compared") && *tick >> 32 == last >> 32 && *tick < last) *tick = last;
    if (is("tick: the limit has 32 bits")) *limit = (uint32_t)*limit;
    if (is("tick: only what is older than the limit ends") && *limit < UINT64_MAX) ++*limit;
    if (is("tick: what is a tick younger ends too") && *limit) --*limit;
    if (is("tick: a limit of 0 ends nothing") && *limit == 0) *limit = UINT64_MAX;
    if (is("tick: the limit is a time") && *limit <= *tick) *limit = *tick - *limit;
}

// Faults that can be made of what a tick wrote.
static void tick_after(uint8_t *memory, uint64_t before, uint64_t tick, uint8_t *place, size_t p) {
    if (is("tick: an equal one is refused") && place[0] == 0 && tick == before) put(place, 41);
    if (is("tick: it is not set") && place[0] == 0) set_tick(memory + 4, before);
    if (is("tick: a refusal sets it") && place[0] == 41) set_tick(memory + 4, tick);
    if (is("tick: a refusal ends waits") && place[0] == 41) __real_aygeshunt_tick(memory, AYGESHUNT_MEMORY_LENGTH, before, 0, place, p), put(place, 41);
    if (is("tick: a refusal has a count") && place[0] == 41) place[12] = 1;
    if (is("tick: no count")) memset(place + 12, 0, 4);
    if (is("tick: the count has a byte")) place[13] = 0;
    if (is("tick: the count stands in another word")) memcpy(place + 16, place + 12, 4), memset(place + 12, 0, 4);
    if (is("tick: who decided is shown")) place[20] = 2;
    if (is("tick: a wait that goes on is new again") && place[0] == 0 && memory[12 + 3420 + 76]) set_tick(memory + 12 + 3420 + 88, tick);
    if (is("tick: writes a byte behind the place") && p > PLACE) place[PLACE] = 0;
}

size_t __wrap_aygeshunt_tick(uint8_t *memory, size_t m, uint64_t tick, uint64_t limit, uint8_t *place, size_t p) {
    if (is("tick: looks at memory without a place") && m) seen = ((const volatile uint8_t *)memory)[0];
    if (p < PLACE) return __real_aygeshunt_tick(memory, m, tick, limit, place, p);
    if (is("tick: writes behind memory")) ((volatile uint8_t *)memory)[m] = 0;
    if (is("tick: memory a byte longer is taken") && m == AYGESHUNT_MEMORY_LENGTH + 1) m--;
    if (m < AYGESHUNT_MEMORY_LENGTH) return __real_aygeshunt_tick(memory, m, tick, limit, place, p);
    uint64_t before = tick_at(memory + 4);
    mend(memory), tick_before(memory, &tick, &limit);
    size_t wrote = __real_aygeshunt_tick(memory, m, tick, limit, place, p);
    if (is("tick: 41 comes before 51") && tick < before) put(place, 41);
    tick_after(memory, before, tick, place, p);
    return wrote;
}
