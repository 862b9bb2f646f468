/* Python's cyclic garbage collector, which looks through new containers each time that many are there. Those of a dump's documents are no garbage, and
 * to look through them costs more than to make them. So it is off while they are made, but nobody sees that: it is on again wherever
 * other threads, or code of others, may run. */
#include "native.h"

/* Not where hooks are: what they made may run code of its own when it is freed. */
int collector_hold_of_dump(const struct options *options) {
    struct state *state = options->state;
    if (state->is_held || options->hook != NULL || options->pairs_hook != NULL) return 0;
    collector_resume(state, 1);
    return state->is_held;
}

void collector_end(struct state *state) {
#if PY_VERSION_HEX >= 0x030A0000
    if (state->is_held) PyGC_Enable();
#endif
    state->is_held = 0;
}

int collector_pause(struct state *state) {
    int was_held = state->is_held;
    collector_free(state, was_held);
    return was_held;
}

void collector_resume(struct state *state, int was_held) {
#if PY_VERSION_HEX >= 0x030A0000
    if (was_held) state->is_held = PyGC_Disable();
#else
    (void)state;
    (void)was_held;
#endif
}

PyObject *call_out(struct state *state, PyObject *call, PyObject *first, PyObject *second) {
    int was_held = collector_pause(state);
    PyObject *made = PyObject_CallFunctionObjArgs(call, first, second, NULL);
    collector_resume(state, was_held);
    return made;
}
