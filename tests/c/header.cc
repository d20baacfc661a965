// The header serves C++ too: names keep their C linkage, and the reader of words works on any address.
#include <aygeshunt.h>

#include <vector>

int main() {
    const uint32_t gid = 0;
    std::vector<uint8_t> memory(AYGESHUNT_MEMORY_LENGTH), room(AYGESHUNT_PLACE_LENGTH + 1);
    if (aygeshunt_memory_length() != memory.size()) return 1;
    if (aygeshunt_start(memory.data(), memory.size(), room.data() + 1, AYGESHUNT_PLACE_LENGTH) != 1) return 2;
    if (aygeshunt_word(room.data() + 1, AYGESHUNT_ANSWER) != AYGESHUNT_DONE) return 3;
    if (aygeshunt_disconnect(memory.data(), memory.size(), 1, room.data(), AYGESHUNT_PLACE_LENGTH) != 1) return 4;
    if (aygeshunt_word(room.data(), AYGESHUNT_ANSWER) != AYGESHUNT_NO_PEER) return 5;
    if (aygeshunt_tick(memory.data(), memory.size(), UINT64_MAX, 0, room.data(), AYGESHUNT_PLACE_LENGTH) != 1) return 6;
    if (aygeshunt_word(room.data(), AYGESHUNT_ANSWER) != AYGESHUNT_DONE) return 7;
    if (aygeshunt_tick(memory.data(), memory.size(), UINT64_MAX - 1, 0, room.data(), AYGESHUNT_PLACE_LENGTH) != 1) return 8;
    if (aygeshunt_word(room.data(), AYGESHUNT_ANSWER) != AYGESHUNT_TICK_TOO_LOW) return 9;
    // an image of one own rule with prefix a.b, and a list of that name
    const std::vector<uint8_t> names = {3, 'a', '.', 'b'}, image = {51, 0, 0, 0, 0, 0, 0, 0, 32, 0, 0, 0, 1, 0, 0, 0, 32, 0, 0, 0, 0, 0, 0, 0, 48, 0,
                                                                   0,  0, 48, 0, 0, 0, 0, 1, 2, 0, 0, 0, 0, 0, 0, 0, 0, 0, 3, 0, 0, 0, 'a', '.', 'b'};
    std::vector<uint8_t> converted(65536);
    size_t length;
    if (aygeshunt_connect(image.data(), image.size(), memory.data(), memory.size(), 0, &gid, 0, room.data(), AYGESHUNT_PLACE_LENGTH) != 1) return 10;
    if (aygeshunt_word(room.data(), AYGESHUNT_ANSWER) != AYGESHUNT_CONNECT_DENIED) return 11;
    if (aygeshunt_retire(image.data(), image.size(), names.data(), 3, converted.data(), converted.size(), &length) != AYGESHUNT_BAD_LIST) return 12;
    if (aygeshunt_retire(image.data(), image.size(), names.data(), names.size(), converted.data(), 53, &length) != AYGESHUNT_TOO_LARGE) return 13;
    if (aygeshunt_retire(image.data(), image.size(), names.data(), names.size(), converted.data(), converted.size(), &length) != AYGESHUNT_DONE) return 14;
    return length == 54 && converted[34] == 1 ? 0 : 15;
}
