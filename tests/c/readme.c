#include <aygeshunt.h>
#include <stdio.h>

static const uint8_t image[80] = {80, [4] = 1, [8] = 32, [16] = 40, [20] = 1, [24] = 40, [28] = 80, [33] = 1, [41] = 1};  // all may connect and send
static const uint8_t bytes[60] = {'l', 1, 0, 1, [8] = 1, [12] = 26, [16] = 1, 1, 'o', 0, 1, [24] = '/', [32] = 3, 1, 's', 0, 1, [40] = 'M',
                                  [48] = 'l', 1, 0, 1};  // a call to the bus, and twelve bytes of the next one
static uint8_t memory[AYGESHUNT_MEMORY_LENGTH], places[64][AYGESHUNT_PLACE_LENGTH];

int main(void) {
    aygeshunt_start(memory, sizeof memory, places[0], sizeof places);
    aygeshunt_connect(image, sizeof image, memory, sizeof memory, 1000, (const uint32_t[]){20}, 1, places[0], sizeof places);
    uint32_t peer = aygeshunt_word(places[0], AYGESHUNT_NUMBER);
    size_t taken, written = aygeshunt_batch(image, sizeof image, memory, sizeof memory, peer, bytes, sizeof bytes, places[0], sizeof places, &taken);
    for (size_t i = 0; i < written; i++)
        printf("answer %u, %u bytes taken\n", aygeshunt_word(places[i], AYGESHUNT_ANSWER), aygeshunt_word(places[i], AYGESHUNT_TAKEN));
    return 0;
}
