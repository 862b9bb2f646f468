/* Times: milliseconds from 1970 on, and aware datetimes. */
#include "native.h"

/* The front of the table that the module datetime gives by its capsule, which isn't in the stable interface. It is the same in each
 * CPython from 3.7 on, and it is tried before it is used: where it isn't there, or isn't this one, the class is called. */
struct datetime_table {
    PyTypeObject *date, *datetime, *time, *delta, *zone;
    PyObject *utc;
    PyObject *(*new_date)(int, int, int, PyTypeObject *);
    new_datetime *new_datetime;
};

/* Whether the table makes a datetime that the class makes, too: 1 or 0, or -1 with an error set. */
static int is_right(const struct state *state, const struct datetime_table *table) {
    PyObject *wanted, *made;
    int is_same;
    if (table->datetime != state->classes.datetime || table->utc != state->classes.utc) return 0;
    wanted = PyObject_CallFunction((PyObject *)table->datetime, "iiiiiiiO", 2001, 2, 3, 4, 5, 6, 789000, state->classes.utc);
    made = wanted == NULL ? NULL : table->new_datetime(2001, 2, 3, 4, 5, 6, 789000, state->classes.utc, table->datetime);
    is_same = made == NULL ? -1 : PyObject_RichCompareBool(wanted, made, Py_EQ);
    Py_XDECREF(wanted);
    Py_XDECREF(made);
    return is_same;
}

/* Looks for the table: 0, or -1 with an error set. */
static int find_table(struct state *state, PyObject *module) {
    static const char name[] = "datetime.datetime_CAPI";
    PyObject *capsule = PyObject_GetAttrString(module, "datetime_CAPI");
    const struct datetime_table *table = NULL;
    int is_it = 0;
    if (capsule != NULL && PyCapsule_IsValid(capsule, name)) table = PyCapsule_GetPointer(capsule, name);
    PyErr_Clear();
    if (table != NULL) is_it = is_right(state, table);
    if (is_it > 0) state->make_datetime = table->new_datetime;
    Py_XDECREF(capsule);
    return is_it < 0 ? -1 : 0;
}

int times_init(struct state *state) {
    PyObject *module = PyImport_ImportModule("datetime"), *zone = NULL;
    int status = -1;
    if (module != NULL) state->classes.datetime = (PyTypeObject *)PyObject_GetAttrString(module, "datetime");
    if (state->classes.datetime != NULL) zone = PyObject_GetAttrString(module, "timezone");
    if (zone != NULL) state->classes.utc = PyObject_GetAttrString(zone, "utc");
    if (state->classes.utc != NULL) status = find_table(state, module);
    Py_XDECREF(zone);
    Py_XDECREF(module);
    return status;
}

#define DAY 86400000
#define FIRST_DAY (-719162) /* of the year 1 */
#define LAST_DAY 2932896    /* of the year 9999 */

/* Dates by the calendar of 400 years, which begin in March: days from 1970 on. */
static void date_of(int64_t days, int *year, int *month, int *day) {
    int64_t from = days + 719468, era = (from >= 0 ? from : from - 146096) / 146097;
    unsigned of_era = (unsigned)(from - era * 146097);
    unsigned year_of_era = (of_era - of_era / 1460 + of_era / 36524 - of_era / 146096) / 365;
    unsigned of_year = of_era - (365 * year_of_era + year_of_era / 4 - year_of_era / 100), march = (5 * of_year + 2) / 153;
    *day = (int)(of_year - (153 * march + 2) / 5 + 1);
    *month = (int)(march < 10 ? march + 3 : march - 9);
    *year = (int)(year_of_era + era * 400) + (*month <= 2);
}

static int64_t days_of(long year, long month, long day) {
    int64_t from = year - (month <= 2), era = (from >= 0 ? from : from - 399) / 400;
    int64_t year_of_era = from - era * 400, of_year = (153 * (month + (month > 2 ? -3 : 9)) + 2) / 5 + day - 1;
    return era * 146097 + year_of_era * 365 + year_of_era / 4 - year_of_era / 100 + of_year - 719468;
}

PyObject *time_of(const struct state *state, int64_t millis, int is_naive) {
    int64_t days = millis / DAY, rest = millis % DAY;
    int year, month, day, seconds, micros;
    PyObject *zone = is_naive ? Py_None : state->classes.utc;
    if (rest < 0) {
        rest += DAY;
        days--;
    }
    if (days < FIRST_DAY || days > LAST_DAY)
        return PyObject_CallFunction((PyObject *)state->classes.datetime_ms, "L", (long long)millis);
    date_of(days, &year, &month, &day);
    seconds = (int)(rest / 1000);
    micros = (int)(rest % 1000) * 1000;
    if (state->make_datetime != NULL)
        return state->make_datetime(year, month, day, seconds / 3600, seconds / 60 % 60, seconds % 60, micros, zone, state->classes.datetime);
    return PyObject_CallFunction((PyObject *)state->classes.datetime, "iiiiiiiO", year, month, day, seconds / 3600, seconds / 60 % 60,
                                 seconds % 60, micros, zone);
}

static int number_of(PyObject *object, PyObject *name, long *number) {
    PyObject *found = PyObject_GetAttr(object, name);
    if (found == NULL) return -1;
    *number = PyLong_AsLong(found);
    Py_DECREF(found);
    return *number == -1 && PyErr_Occurred() ? -1 : 0;
}

/* How many microseconds a datetime's zone is before UTC. */
static int offset_of(const struct state *state, PyObject *datetime, int64_t *micros) {
    static const char *const parts[3] = {"days", "seconds", "microseconds"};
    long number[3];
    int part;
    PyObject *offset = PyObject_CallMethodObjArgs(datetime, state->names.utcoffset, NULL);
    *micros = 0;
    if (offset == NULL) return -1;
    for (part = 0; offset != Py_None && part < 3; part++) {
        PyObject *found = PyObject_GetAttrString(offset, parts[part]);
        number[part] = found == NULL ? -1 : PyLong_AsLong(found);
        Py_XDECREF(found);
        if (number[part] == -1 && PyErr_Occurred()) break;
    }
    if (part == 3) *micros = ((int64_t)number[0] * 86400 + number[1]) * 1000000 + number[2];
    Py_DECREF(offset);
    return PyErr_Occurred() ? -1 : 0;
}

int millis_of(const struct state *state, PyObject *datetime, int64_t *millis) {
    long part[7];
    int number;
    int64_t micros, offset = 0;
    PyObject *zone = PyObject_GetAttr(datetime, state->names.of_time[7]);
    if (zone == NULL) return -1;
    number = zone != Py_None && zone != state->classes.utc ? offset_of(state, datetime, &offset) : 0;
    Py_DECREF(zone);
    if (number < 0) return -1;
    for (number = 0; number < 7; number++)
        if (number_of(datetime, state->names.of_time[number], &part[number]) < 0) return -1;
    micros = (((days_of(part[0], part[1], part[2]) * 24 + part[3]) * 60 + part[4]) * 60 + part[5]) * 1000000 + part[6] - offset;
    *millis = micros / 1000 - (micros % 1000 < 0);
    return 0;
}
