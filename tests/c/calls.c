#include "calls.h"

const uint32_t gids_lent[32] = {20, 21, 22, 23, 24, 25, 26, 27, 28, 29, 30, 31, 32, 33, 34, 35, 36};

size_t make(const call *c, slice image, slice memory, slice bytes, const uint32_t *gids, slice room, size_t *taken) {
    switch (c->kind) {
    case START: return aygeshunt_start(memory.at, memory.len, room.at, room.len);
    case CONNECT: return aygeshunt_connect(image.at, image.len, memory.at, memory.len, c->peer, gids, c->gids, room.at, room.len);
    case OWN: return aygeshunt_own(image.at, image.len, memory.at, memory.len, c->peer, bytes.at, bytes.len, room.at, room.len);
    case RELEASE: return aygeshunt_release(memory.at, memory.len, c->peer, bytes.at, bytes.len, room.at, room.len);
    case PIECE: return aygeshunt_piece(image.at, image.len, memory.at, memory.len, c->peer, bytes.at, bytes.len, room.at, room.len);
    case BATCH: return aygeshunt_batch(image.at, image.len, memory.at, memory.len, c->peer, bytes.at, bytes.len, room.at, room.len, taken);
    case TICK: return aygeshunt_tick(memory.at, memory.len, c->tick, c->limit, room.at, room.len);
    default: return aygeshunt_disconnect(memory.at, memory.len, c->peer, room.at, room.len);
    }
}
