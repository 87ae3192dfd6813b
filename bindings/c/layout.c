/* Prints each field of the three answers, with its offset and its bytes, and the size of each struct: the layout that the test of
 * bindings/rust/src/ffi/layout.rs compares with the wrapper's. */
#include "lakhido.h"

#include <stdio.h>

#define FIELD(type, name) printf(#type "." #name ": offset %zu, bytes %zu\n", offsetof(type, name), sizeof((type){0}.name))
#define SIZE(type) printf(#type ": size %zu\n", sizeof(type))

int main(void) {
    FIELD(lakhido_answer, refusal);
    FIELD(lakhido_answer, side);
    FIELD(lakhido_answer, place);
    FIELD(lakhido_answer, value);
    FIELD(lakhido_answer, searched);
    FIELD(lakhido_answer, arcs);
    FIELD(lakhido_answer, depth);
    SIZE(lakhido_answer);
    FIELD(lakhido_window_answer, refusal);
    FIELD(lakhido_window_answer, side);
    FIELD(lakhido_window_answer, place);
    FIELD(lakhido_window_answer, found);
    FIELD(lakhido_window_answer, start);
    FIELD(lakhido_window_answer, length);
    FIELD(lakhido_window_answer, arcs);
    FIELD(lakhido_window_answer, depth);
    SIZE(lakhido_window_answer);
    FIELD(lakhido_batch_answer, refusal);
    FIELD(lakhido_batch_answer, side);
    FIELD(lakhido_batch_answer, place);
    FIELD(lakhido_batch_answer, read);
    FIELD(lakhido_batch_answer, counts);
    FIELD(lakhido_batch_answer, searched);
    SIZE(lakhido_batch_answer);
    return 0;
}
