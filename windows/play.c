/* The bodies of a script: statements, blocks, values, and the default procedure. */
#include "runner.h"

#include <string.h>

typedef struct {
    const char *word;
    const char *operands; /* n a name, p a procedure, o a value */
    Player play;
} Form;

static void play_default(Thread *t, const Statement *s);

static const Form forms[] = {
    {"get", "ooo", play_get},
    {"peek", "oooo", play_peek},
    {"status", "o", play_status},
    {"dispatch", "", play_dispatch},
    {"translate", "", play_translate},
    {"post", "oooo", play_post},
    {"post_thread", "oooo", play_post_thread},
    {"post_quit", "o", play_post_quit},
    {"post_all", "ooo", play_post_all},
    {"pump", "", play_pump},
    {"dialog", "o", play_dialog},
    {"end_dialog", "oo", play_end_dialog},
    {"send", "oooo", play_send},
    {"send_timeout", "oooooo", play_send_timeout},
    {"send_notify", "oooo", play_send_notify},
    {"send_callback", "oooopo", play_send_callback},
    {"notify_all", "ooo", play_notify_all},
    {"reply", "o", play_reply},
    {"in_send", "", play_in_send},
    {"message", "n", play_message},
    {"register", "npo", play_register},
    {"unregister", "n", play_unregister},
    {"create", "nnooooooo", play_create},
    {"destroy", "o", play_destroy},
    {"default", "", play_default},
    {"is_window", "o", play_is_window},
    {"parent", "o", play_parent},
    {"next_top", "o", play_next_top},
    {"find", "n", play_find},
    {"await_title", "n", play_await_title},
    {"window_at", "oo", play_window_at},
    {"show_window", "oo", play_show_window},
    {"enable_window", "oo", play_enable_window},
    {"set_window_pos", "ooooooo", play_set_window_pos},
    {"set_focus", "o", play_set_focus},
    {"set_active", "o", play_set_active},
    {"set_capture", "o", play_set_capture},
    {"release_capture", "", play_release_capture},
    {"get_focus", "", play_get_focus},
    {"get_active", "", play_get_active},
    {"get_capture", "", play_get_capture},
    {"attach", "oo", play_attach},
    {"detach", "oo", play_detach},
    {"mouse", "ooo", play_mouse},
    {"key", "oo", play_key},
    {"key_state", "o", play_key_state},
    {"invalidate", "oooooo", play_invalidate},
    {"validate", "ooooo", play_validate},
    {"update_rect", "o", play_update_rect},
    {"begin_paint", "o", play_begin_paint},
    {"end_paint", "o", play_end_paint},
    {"update_window", "o", play_update_window},
    {"fill", "oooooo", play_fill},
    {"snap", "", play_snap},
    {"set_timer", "ooo", play_set_timer},
    {"kill_timer", "oo", play_kill_timer},
    {"clock", "", play_clock},
    {"sleep", "o", play_sleep},
    {"yield", "", play_yield},
    {NULL, NULL, NULL},
};

Player player_of(const char *word, const char **operands) {
    for (const Form *form = forms; form->word; form++)
        if (strcmp(form->word, word) == 0) {
            *operands = form->operands;
            return form->play;
        }
    return NULL;
}

Number value_of(const Thread *t, const Operand *operand) {
    if (operand->kind != OPERAND_VARIABLE)
        return operand->value;
    if (operand->value < OWN_VARIABLES)
        return t->variables[operand->value];
    const Frame *frame = t->frame;
    if (!frame)
        return 0;
    switch (operand->value) {
    case VAR_HWND: return frame->hwnd;
    case VAR_MSG: return frame->msg;
    case VAR_WP: return frame->wp;
    default: return frame->lp;
    }
}

void set_result(Thread *t, Number r, Number err) {
    t->variables[VAR_R] = r;
    t->variables[VAR_ERR] = err;
}

static BOOL holds(const Thread *t, const Statement *s) {
    Number left = VALUE(0), right = VALUE(1);
    return s->sign == '=' ? left == right : s->sign == '!' ? left != right : left < right;
}

static void let(Thread *t, const Statement *s) {
    Number value = VALUE(1), other = s->sign ? VALUE(2) : 0;
    switch (s->sign) {
    case '+': value += other; break;
    case '-': value -= other; break;
    case '&': value &= other; break;
    case '|': value |= other; break;
    }
    t->variables[s->operands[0].value] = value;
}

static BOOL play_block(Thread *t, size_t at, Number *returned);

static BOOL play_while(Thread *t, size_t at, Number *returned) {
    const Statement *s = &script.statements[at];
    while (holds(t, s)) {
        Number before = t->entries;
        if (play_block(t, at + 1, returned))
            return TRUE;
        if (t->entries == before) {
            begin_call(t, "yield");
            answer(t, "ok");
        }
    }
    return FALSE;
}

/* Plays from a place up to the block's end; TRUE where a `return` was met. */
static BOOL play_block(Thread *t, size_t at, Number *returned) {
    for (;;) {
        const Statement *s = &script.statements[at];
        t->line = s->line;
        switch (s->kind) {
        case KIND_CALL:
            s->play(t, s);
            at++;
            break;
        case KIND_LET:
            let(t, s);
            at++;
            break;
        case KIND_IF:
            if (holds(t, s)) {
                if (play_block(t, at + 1, returned))
                    return TRUE;
            } else if (s->else_at && play_block(t, s->else_at + 1, returned)) {
                return TRUE;
            }
            at = s->end_at + 1;
            break;
        case KIND_WHILE:
            if (play_while(t, at, returned))
                return TRUE;
            at = s->end_at + 1;
            break;
        case KIND_RETURN:
            *returned = VALUE(0);
            return TRUE;
        default:
            return FALSE;
        }
    }
}

BOOL play_procedure(Thread *t, int procedure, Number *value) {
    int line = t->line;
    Doing nothing = {.kind = DOING_NOTHING, .outer = t->doing};
    t->doing = &nothing;
    BOOL returned = play_block(t, script.procedures[procedure].first, value);
    t->doing = nothing.outer;
    t->line = line;
    return returned;
}

void play_thread(Thread *t) {
    Number unused;
    Doing nothing = {.kind = DOING_NOTHING};
    t->doing = &nothing;
    play_block(t, script.threads[t->number - 1], &unused);
    begin_call(t, "end_thread");
    answer(t, "ended");
    drop_windows_of(t);
    forget_callbacks(t);
    end_of_thread(t);
}

/* What the default procedure makes of the innermost message, by the statements that it is made of. */
Number default_procedure(Thread *t, Number *err) {
    Number hwnd = t->frame->hwnd;
    *err = 0;
    switch (t->frame->msg) {
    case WM_NCCREATE:
        return 1;
    case WM_CLOSE:
        destroy(t, hwnd, err);
        return 0;
    case WM_PAINT:
        return validate_all(t, hwnd, err);
    case WM_ERASEBKGND:
        return erase(t, hwnd, err);
    case WM_ACTIVATE:
        if (t->frame->wp)
            set_focus(t, hwnd, err);
        return 0;
    case WM_CANCELMODE:
        release_capture(t);
        return 0;
    default:
        return 0;
    }
}

static void play_default(Thread *t, const Statement *s) {
    (void)s;
    Number err = 0, result = 0;
    if (t->frame) {
        /* What is done stands for DefWindowProc, so the messages that it sends are its parts. */
        Doing nothing = {.kind = DOING_NOTHING, .outer = t->doing};
        t->doing = &nothing;
        result = default_procedure(t, &err);
        t->doing = nothing.outer;
    }
    set_result(t, err ? 0 : result, err);
}
