// What the functions of libaygeshunt.a write into the room that they are lent, and what they leave alone.
//
// Each case is run with rooms of several lengths, with everything lent at each of eight offsets in storage of exactly its length, at the end of pages
// that nothing may be touched behind, and at the beginning of pages that nothing may be touched before. The last line is "N passed, M failed".
#include "cases.h"
#include "check.h"
#include "inputs.h"
#include "states.h"

int main(void) {
    begin();
    make_inputs();
    make_fresh();
    header_cases();
    memory_cases();
    connect_cases();
    name_cases();
    piece_cases();
    stream_cases();
    batch_cases();
    refusal_cases();
    tick_cases();
    expiry_cases();
    damage_cases();
    retire_cases();
    same_image_cases();
    limit_cases();
    list_cases();
    converted_cases();
    cut_cases();
    return finish();
}
