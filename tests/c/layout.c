/* How the header's records lie in memory: `name size alignment`, then `name.field size offset`. */
#include <floelinnet.h>
#include <stdio.h>

#define RECORD(record) printf(#record " %zu %zu\n", sizeof(record), _Alignof(record))
#define FIELD(record, field) \
    printf(#record "." #field " %zu %zu\n", sizeof(((record *)0)->field), offsetof(record, field))

int main(void) {
    RECORD(floe_limit);
    FIELD(floe_limit, kind);
    FIELD(floe_limit, x);
    FIELD(floe_limit, k);
    RECORD(floe_set);
    FIELD(floe_set, count);
    FIELD(floe_set, limits);
    RECORD(floe_guard);
    FIELD(floe_guard, state);
    FIELD(floe_guard, lost);
    FIELD(floe_guard, outcomes);
    FIELD(floe_guard, count);
    RECORD(floe_set_read);
    FIELD(floe_set_read, refused);
    FIELD(floe_set_read, at);
    FIELD(floe_set_read, set);
    RECORD(floe_written);
    FIELD(floe_written, refused);
    FIELD(floe_written, at);
    FIELD(floe_written, length);
    RECORD(floe_verdict);
    FIELD(floe_verdict, refused);
    FIELD(floe_verdict, at);
    FIELD(floe_verdict, kept);
    FIELD(floe_verdict, job);
    FIELD(floe_verdict, limit);
    FIELD(floe_verdict, first);
    RECORD(floe_comparison);
    FIELD(floe_comparison, refused);
    FIELD(floe_comparison, at);
    FIELD(floe_comparison, which);
    FIELD(floe_comparison, covers);
    FIELD(floe_comparison, length);
    FIELD(floe_comparison, pattern);
    RECORD(floe_built);
    FIELD(floe_built, refused);
    FIELD(floe_built, at);
    FIELD(floe_built, length);
    RECORD(floe_checked);
    FIELD(floe_checked, refused);
    FIELD(floe_checked, at);
    FIELD(floe_checked, states);
    RECORD(floe_started);
    FIELD(floe_started, refused);
    FIELD(floe_started, at);
    FIELD(floe_started, guard);
    RECORD(floe_asked);
    FIELD(floe_asked, refused);
    FIELD(floe_asked, at);
    FIELD(floe_asked, answer);
    FIELD(floe_asked, guard);
    RECORD(floe_told);
    FIELD(floe_told, refused);
    FIELD(floe_told, at);
    FIELD(floe_told, guard);
    RECORD(floe_done);
    FIELD(floe_done, refused);
    FIELD(floe_done, at);
    RECORD(floe_row_asked);
    FIELD(floe_row_asked, refused);
    FIELD(floe_row_asked, at);
    FIELD(floe_row_asked, answer);
    RECORD(floe_log_opened);
    FIELD(floe_log_opened, refused);
    FIELD(floe_log_opened, at);
    FIELD(floe_log_opened, place);
    RECORD(floe_log_read);
    FIELD(floe_log_read, refused);
    FIELD(floe_log_read, at);
    FIELD(floe_log_read, answer);
    FIELD(floe_log_read, place);
    return 0;
}
