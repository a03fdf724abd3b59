/* The text of a script: lines, names, operands. docs/SCRIPTS.md is the manual of the language. */
#include "runner.h"

#include <stdlib.h>
#include <string.h>

Script script;

typedef struct {
    const char *name;
    Number value;
} Named;

static const Named messages[] = {
    {"WM_NULL", 0}, {"WM_CREATE", 1}, {"WM_DESTROY", 2}, {"WM_MOVE", 3}, {"WM_SIZE", 5}, {"WM_ACTIVATE", 6},
    {"WM_SETFOCUS", 7}, {"WM_KILLFOCUS", 8}, {"WM_ENABLE", 10}, {"WM_PAINT", 15}, {"WM_CLOSE", 16}, {"WM_QUIT", 18},
    {"WM_ERASEBKGND", 20}, {"WM_SHOWWINDOW", 24}, {"WM_CANCELMODE", 31}, {"WM_NCCREATE", 129}, {"WM_NCDESTROY", 130},
    {"WM_KEYDOWN", 256}, {"WM_KEYUP", 257}, {"WM_CHAR", 258}, {"WM_COMMAND", 273}, {"WM_TIMER", 275},
    {"WM_MOUSEMOVE", 512}, {"WM_LBUTTONDOWN", 513}, {"WM_LBUTTONUP", 514}, {"WM_RBUTTONDOWN", 516},
    {"WM_RBUTTONUP", 517}, {"WM_CAPTURECHANGED", 533}, {"WM_RENDERFORMAT", 773}, {"WM_DESTROYCLIPBOARD", 775},
    {"WM_DDE_INITIATE", 992}, {"WM_DDE_TERMINATE", 993}, {"WM_DDE_ACK", 996}, {"WM_DDE_DATA", 997},
    {"WM_DDE_REQUEST", 998}, {"WM_DDE_POKE", 999}, {"WM_DDE_EXECUTE", 1000}, {"WM_USER", 1024}, {"WM_APP", 32768},
    {NULL, 0},
};

static const Named constants[] = {
    {"WS_CHILD", 1073741824}, {"WS_POPUP", 2147483648u}, {"WS_VISIBLE", 268435456}, {"WS_DISABLED", 134217728},
    {"WS_EX_TOPMOST", 8}, {"HWND_TOP", 0}, {"HWND_BOTTOM", 1}, {"HWND_TOPMOST", UINT64_MAX},
    {"HWND_NOTOPMOST", UINT64_MAX - 1}, {"SWP_NOSIZE", 1}, {"SWP_NOMOVE", 2}, {"SWP_NOZORDER", 4},
    {"SWP_NOACTIVATE", 16}, {"SWP_SHOWWINDOW", 64}, {"SWP_HIDEWINDOW", 128}, {"SWP_NOCOPYBITS", 256},
    {"PM_NOREMOVE", 0}, {"PM_REMOVE", 1}, {"PM_NOYIELD", 2}, {"SMTO_NORMAL", 0}, {"SMTO_BLOCK", 1},
    {"WA_INACTIVE", 0}, {"WA_ACTIVE", 1}, {"WA_CLICKACTIVE", 2}, {"QS_KEY", 1}, {"QS_MOUSEMOVE", 2},
    {"QS_MOUSEBUTTON", 4}, {"QS_POSTMESSAGE", 8}, {"QS_TIMER", 16}, {"QS_PAINT", 32}, {"QS_SENDMESSAGE", 64},
    {NULL, 0},
};

static const char *const variables[] = {"a", "b", "c", "d", "e", "f", "g", "h", "r", "err", "ghwnd", "gmsg", "gwp",
                                        "glp", "gtime", "hwnd", "msg", "wp", "lp", NULL};

const char *message_text(Number message, char room[24]) {
    for (const Named *known = messages; known->name; known++)
        if (known->value == message)
            return known->name;
    snprintf(room, 24, "%" PRIu64, message);
    return room;
}

static void stop(int line, const char *reason, const char *word) {
    printf("refused %d %s\n", line, reason);
    fprintf(stderr, "line %d: '%s'\n", line, word);
    fflush(stdout);
    ExitProcess(3);
}

static const Named *named(const Named *list, const char *word) {
    while (list->name && strcmp(list->name, word) != 0)
        list++;
    return list->name ? list : NULL;
}

static Number number_at(int line, const char *word) {
    char *end = NULL;
    Number value = strtoull(word, &end, 10);
    if (!*word || *end)
        stop(line, "operand", word);
    return value;
}

static Operand operand_at(int line, const char *word) {
    Operand found = {OPERAND_NUMBER, 0};
    const Named *known = named(messages, word);
    if (!known)
        known = named(constants, word);
    if (known) {
        found.value = known->value;
        if (known->value >= 992 && known->value <= 1000 && word[0] == 'W')
            stop(line, "unplayable", "messages of DDE: their lParam is memory that Windows reads");
        return found;
    }
    for (int k = 0; variables[k]; k++)
        if (strcmp(variables[k], word) == 0)
            return (Operand){OPERAND_VARIABLE, (Number)k};
    if (word[0] == '-')
        found.value = 0 - number_at(line, word + 1);
    else
        found.value = number_at(line, word);
    return found;
}

static Operand name_at(int line, const char *word) {
    if (strlen(word) > 32)
        stop(line, "operand", word);
    for (int k = 0; k < script.name_count; k++)
        if (strcmp(script.names[k], word) == 0)
            return (Operand){OPERAND_NAME, (Number)k};
    if (script.name_count == MAX_NAMES)
        stop(line, "limit", word);
    strcpy(script.names[script.name_count], word);
    return (Operand){OPERAND_NAME, (Number)script.name_count++};
}

static Operand procedure_at(int line, const char *word) {
    for (int k = 0; k < script.procedure_count; k++)
        if (strcmp(script.procedures[k].name, word) == 0)
            return (Operand){OPERAND_PROCEDURE, (Number)k};
    stop(line, "name", word);
    return (Operand){OPERAND_PROCEDURE, 0};
}

static Statement *add_statement(StatementKind kind, int line) {
    static size_t room;
    if (script.statement_count == room) {
        room = room ? 2 * room : 256;
        script.statements = realloc(script.statements, room * sizeof *script.statements);
        if (!script.statements)
            stop(line, "limit", "no memory");
    }
    Statement *added = &script.statements[script.statement_count++];
    memset(added, 0, sizeof *added);
    added->kind = kind;
    added->line = line;
    return added;
}

static void read_test(Statement *s, char **words) {
    s->operands[0] = operand_at(s->line, words[1]);
    s->sign = words[2][0];
    s->operands[1] = operand_at(s->line, words[3]);
}

static void read_call(int line, char **words, int count) {
    Statement *s = add_statement(KIND_CALL, line);
    const char *forms = NULL;
    s->play = player_of(words[0], &forms);
    if (!s->play || (int)strlen(forms) != count - 1)
        stop(line, "words", words[0]);
    s->operand_count = count - 1;
    for (int k = 0; forms[k]; k++)
        s->operands[k] = forms[k] == 'n' ? name_at(line, words[k + 1])
            : forms[k] == 'p'            ? procedure_at(line, words[k + 1])
                                         : operand_at(line, words[k + 1]);
}

enum { MAX_BLOCKS = 40 };

static size_t blocks[MAX_BLOCKS];
static int block_count;

static void open_block(int line) {
    if (block_count == MAX_BLOCKS)
        stop(line, "limit", "blocks");
    blocks[block_count++] = script.statement_count - 1;
}

static void read_statement(int line, char **words, int count) {
    const char *word = words[0];
    if (strcmp(word, "let") == 0 && (count == 3 || count == 5)) {
        Statement *s = add_statement(KIND_LET, line);
        s->operands[0] = operand_at(line, words[1]);
        s->operands[1] = operand_at(line, words[2]);
        if (count == 5) {
            s->sign = words[3][0];
            s->operands[2] = operand_at(line, words[4]);
        }
    } else if ((strcmp(word, "if") == 0 || strcmp(word, "while") == 0) && count == 4) {
        read_test(add_statement(word[0] == 'i' ? KIND_IF : KIND_WHILE, line), words);
        open_block(line);
    } else if (strcmp(word, "else") == 0 && count == 1 && block_count) {
        add_statement(KIND_ELSE, line);
        script.statements[blocks[block_count - 1]].else_at = script.statement_count - 1;
    } else if (strcmp(word, "end") == 0 && count == 1) {
        add_statement(KIND_END, line);
        if (block_count) {
            Statement *block = &script.statements[blocks[--block_count]];
            block->end_at = script.statement_count - 1;
            if (block->else_at)
                script.statements[block->else_at].end_at = block->end_at;
        }
    } else if (strcmp(word, "return") == 0 && count == 2) {
        add_statement(KIND_RETURN, line)->operands[0] = operand_at(line, words[1]);
    } else {
        read_call(line, words, count);
    }
}

static void read_order(int line, char **words, int count) {
    script.order = calloc((size_t)count, sizeof *script.order);
    for (int k = 1; k < count; k++)
        script.order[script.order_count++] = (int)number_at(line, words[k]);
}

static void read_head(int line, char **words, int count) {
    if (line == 1 && count == 2 && strcmp(words[0], "user") == 0 && strcmp(words[1], "1") == 0)
        return;
    if (line == 2 && count == 3 && strcmp(words[0], "screen") == 0) {
        script.width = (int)number_at(line, words[1]);
        script.height = (int)number_at(line, words[2]);
        if (script.width < 1 || script.width > 128 || script.height < 1 || script.height > 64)
            stop(line, "limit", words[1]);
    } else if (line == 3 && count == 2 && strcmp(words[0], "budget") == 0) {
        script.budget = number_at(line, words[1]);
    } else if (line == 4 && count >= 1 && strcmp(words[0], "order") == 0) {
        read_order(line, words, count);
    } else {
        stop(line, "words", words[0]);
    }
}

static void read_line(int line, char **words, int count, BOOL *open) {
    if (line <= 4) {
        read_head(line, words, count);
    } else if (!*open && strcmp(words[0], "proc") == 0 && count == 2 && script.procedure_count < MAX_PROCEDURES) {
        Procedure *added = &script.procedures[script.procedure_count++];
        snprintf(added->name, sizeof added->name, "%s", words[1]);
        added->first = script.statement_count;
        *open = TRUE;
    } else if (!*open && strcmp(words[0], "thread") == 0 && count == 1 && script.thread_count < MAX_THREADS) {
        script.threads[script.thread_count++] = script.statement_count;
        *open = TRUE;
    } else if (*open) {
        BOOL closes = block_count == 0 && strcmp(words[0], "end") == 0;
        read_statement(line, words, count);
        *open = !closes;
    } else {
        stop(line, "words", words[0]);
    }
}

void read_script(char *text) {
    BOOL open = FALSE;
    int line = 0;
    static char *words[65540];
    script.names = calloc(MAX_NAMES, sizeof *script.names);
    for (char *at = text; *at;) {
        char *end = strchr(at, '\n');
        line++;
        if (!end)
            stop(line, "bytes", at);
        *end = 0;
        int count = 0;
        for (char *word = strtok(at, " "); word && count < 65540; word = strtok(NULL, " "))
            words[count++] = word;
        if (!count)
            stop(line, "words", "");
        read_line(line, words, count, &open);
        at = end + 1;
    }
    if (open || !script.thread_count)
        stop(line + 1, "end", "");
}
