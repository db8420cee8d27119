/* Where a call began in the program's own code. The C++ library starts threads for the program, and is not
 * instrumented: the frame of the innermost function that is was noted, and is found by unwinding. */
#include <unwind.h>
#include "recorder.h"

struct search {
    uintptr_t pointer;
    uintptr_t place;
    int is_in;
};

static _Unwind_Reason_Code look(struct _Unwind_Context *context, void *given) {
    struct search *search = given;
    uintptr_t place = _Unwind_GetIP(context);
    if (place == search->place) search->is_in = 1;
    if (!search->is_in) return _URC_NO_REASON;
    if (_Unwind_GetCFA(context) > search->pointer) return _URC_END_OF_STACK;
    search->place = place;
    return _URC_NO_REASON;
}

/* The return address, within the innermost instrumented function, of the call that led to the one that
 * returns to this place. */
uintptr_t place_in_program(uintptr_t place) {
    if (!self || self->depth == 0) return place;
    struct search search = { self->frames[self->depth - 1].pointer, place, 0 };
    _Unwind_Backtrace(look, &search);
    return search.place;
}
