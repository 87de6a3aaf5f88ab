/*
 * Were stored visits kept? Judges night logs under a set of limits, all of them files:
 *
 *     visit sets/breath.limits logs/calm.log logs/bunched.log
 *
 * It ends with status 0 where every log was judged, kept or lost.
 */
#include <floelinnet.h>
#include <inttypes.h>
#include <stdio.h>

static uint8_t limits[FLOE_LONGEST_SET];
static uint8_t visit[FLOE_LOG_SIZE(24 * 60 * 60 * 4)]; /* four readings a second for a day, at the most */

/* The length of a file that was read whole, else 0: no set and no log has length 0, so nothing is judged then. */
static size_t read_file(const char *name, uint8_t *bytes, size_t room) {
    FILE *file = fopen(name, "rb");
    size_t length = file ? fread(bytes, 1, room, file) : 0;
    bool whole = file && fgetc(file) == EOF && !ferror(file);
    if (file) fclose(file);
    if (!whole) fprintf(stderr, "%s: can't be read, or is too long\n", name);
    return whole ? length : 0;
}

int main(int count, char *names[]) {
    if (count < 3) {
        fprintf(stderr, "which limits and logs? As in: visit sets/breath.limits logs/calm.log\n");
        return 1;
    }
    size_t limits_len = read_file(names[1], limits, sizeof limits);
    int status = 0;
    for (int i = 2; i < count; i++) {
        size_t visit_len = read_file(names[i], visit, sizeof visit);
        floe_verdict verdict = floe_log_judge(limits, limits_len, visit, visit_len);
        if (verdict.refused) {
            const char *faulty = verdict.refused <= FLOE_REFUSED_LIMIT_X ? names[1] : names[i];
            fprintf(stderr, "%s: refused by %" PRIu64 " at %" PRIu64 "\n", faulty, verdict.refused, verdict.at);
            status = 1;
        } else if (verdict.kept) {
            printf("%s: kept\n", names[i]);
        } else {
            printf("%s: lost at job %" PRIu64 " by limit %" PRIu64 ", in the window from job %" PRId64 "\n", names[i],
                   verdict.job, verdict.limit, verdict.first);
        }
    }
    return status;
}
