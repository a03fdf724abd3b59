/* runner [--limit SECONDS] < SCRIPT > LOG
 *
 * Plays a script on this system's Win32 and writes the history. The status is 0 where the log ends as it has to, 3
 * where the script is refused (`refused LINE REASON` and nothing else), 5 where the limit of real seconds is over: the
 * log then ends in `end cut`. */
#include "runner.h"

#include <fcntl.h>
#include <io.h>
#include <stdlib.h>
#include <string.h>

static char *read_all(void) {
    size_t size = 0, room = 1 << 16, got;
    char *text = malloc(room + 1);
    while (text && (got = fread(text + size, 1, room - size, stdin)) > 0) {
        size += got;
        if (size == room)
            text = realloc(text, (room *= 2) + 1);
    }
    if (text)
        text[size] = 0;
    return text;
}

int main(int count, char **words) {
    double limit = 20;
    if (count == 3 && strcmp(words[1], "--limit") == 0)
        limit = atof(words[2]);
    else if (count != 1)
        return fprintf(stderr, "runner [--limit SECONDS] < SCRIPT > LOG\n"), 2;
    _setmode(_fileno(stdin), _O_BINARY);
    _setmode(_fileno(stdout), _O_BINARY);
    char *text = read_all();
    if (!text)
        return fprintf(stderr, "runner: no memory\n"), 9;
    read_script(text);
    BOOL has_input = script_has(play_mouse) || script_has(play_key);
    if (has_input)
        clear_input();
    start_threads(play_thread);
    int status = schedule(limit);
    if (has_input)
        clear_input();
    ExitProcess((UINT)status);
}
