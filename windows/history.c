/* The log: entries in their order. An answer may be known only when the Win32 call is over, behind the messages that
 * it sent: its entry stands at its place, and the answer is filled in later. */
#include "runner.h"

#include <stdarg.h>
#include <stdlib.h>
#include <string.h>

static Entry **entries;
static size_t count, room;

static char *text_with(const char *format, va_list more) {
    char *text = malloc(CALL_TEXT);
    if (text)
        vsnprintf(text, CALL_TEXT, format, more);
    return text;
}

char *text_of(const char *format, ...) {
    va_list more;
    va_start(more, format);
    char *text = text_with(format, more);
    va_end(more);
    return text;
}

Entry *add_entry(int who, const char *call, const char *answer) {
    if (count == room) {
        room = room ? 2 * room : 1024;
        entries = realloc(entries, room * sizeof *entries);
    }
    Entry *added = calloc(1, sizeof *added);
    added->who = who;
    added->call = _strdup(call);
    added->answer = _strdup(answer);
    entries[count++] = added;
    return added;
}

void change_answer(Entry *entry, const char *format, ...) {
    va_list more;
    va_start(more, format);
    free(entry->answer);
    entry->answer = text_with(format, more);
    va_end(more);
}

size_t entry_count(void) {
    return count;
}

void write_log(const char *end) {
    printf("log 1\n");
    for (size_t k = 0; k < count; k++) {
        printf("%d %s = %s\n", entries[k]->who, entries[k]->call, entries[k]->answer);
        if (entries[k]->rows)
            printf("%s", entries[k]->rows);
    }
    printf("end %s\n", end);
    for (int k = 1; k <= script.thread_count; k++) {
        const Thread *t = &threads[k];
        if (strcmp(end, "stuck") == 0 && t->state != STATE_ENDED)
            printf("waits %d %s\n", k, t->call);
        if (strcmp(end, "spent") == 0 && t->state != STATE_ENDED && !t->idle)
            printf("spent %d\n", k);
    }
    SendCount sends = count_sends();
    printf("sends begun %" PRIu64 " entered %" PRIu64 " proc %" PRIu64 " reply %" PRIu64 " loss %" PRIu64 " timeout %" PRIu64
           " open %" PRIu64 "\n", sends.begun, sends.entered, sends.causes[CAUSE_PROC], sends.causes[CAUSE_REPLY],
           sends.causes[CAUSE_LOSS], sends.causes[CAUSE_TIMEOUT], sends.open);
    fflush(stdout);
}
