/* Retrieval, dispatch and posts.
 *
 * GetMessage is a PeekMessage that is made again whenever it is the thread's turn: an entry `wait`, once, stands for
 * those that find nothing. A look serves the sends first, as Windows does, and each of them is an entry of its own. */
#include "runner.h"

#include <stdlib.h>

static Number post_count;

/* ---- posts that haven't been removed ---- */

static int posts_of(const Thread *t) {
    int count = 0;
    for (const Post *post = t->posts; post; post = post->next)
        count++;
    return count;
}

static Number add_post(Thread *to, Number window, Number message, Number wp, Number lp) {
    Post *added = calloc(1, sizeof *added), **last = &to->posts;
    *added = (Post){++post_count, window, message, wp, lp, virtual_clock, cursor_x, cursor_y, NULL};
    while (*last)
        last = &(*last)->next;
    *last = added;
    return post_count;
}

static Post **find_post(Thread *t, Number window, const MSG *m) {
    for (Post **at = &t->posts; *at; at = &(*at)->next) {
        const Post *post = *at;
        if (post->window == window && real_message(post->message) == m->message && (WPARAM)post->wp == m->wParam &&
            (LPARAM)post->lp == m->lParam)
            return at;
    }
    return NULL;
}

static void forget_post(Post **at) {
    Post *post = *at;
    *at = post->next;
    free(post);
}

void drop_posts_to(Number window) {
    for (int k = 1; k <= script.thread_count; k++)
        for (Post **at = &threads[k].posts; *at;) {
            if ((*at)->window == window)
                forget_post(at);
            else
                at = &(*at)->next;
        }
}

/* ---- looks ---- */

typedef struct {
    Number window, least, greatest, flags;
    BOOL waits;
    char call[100];
} Filter;

static BOOL peek(const Filter *filter, MSG *m, UINT flags) {
    HWND handle = !filter->window ? NULL : filter->window == MINUS_ONE ? (HWND)(INT_PTR)-1 : handle_of(filter->window);
    UINT least = real_message(filter->least), greatest = real_message(filter->greatest);
    if (filter->least > UINT32_MAX || (filter->least > filter->greatest))
        least = 2, greatest = 1;
    else if (filter->greatest > UINT32_MAX)
        greatest = UINT32_MAX;
    return PeekMessageA(m, handle, least, greatest, flags);
}

static void got(Thread *t, const MSG *m, Number window, const char *source, Number number, Number wp, Number lp, Number time, int x, int y) {
    char room[24];
    Number message = shown_message(m->message);
    t->got = *m;
    t->variables[VAR_GHWND] = window;
    t->variables[VAR_GMSG] = message;
    t->variables[VAR_GWP] = wp;
    t->variables[VAR_GLP] = lp;
    t->variables[VAR_GTIME] = time;
    answer(t, "got %s %" PRIu64 " %" PRIu64 " %s %" PRIu64 " %" PRIu64 " %" PRIu64 " %d %d", source, number, window,
           message_text(message, room), wp, lp, time, x, y);
}

/* Writes the entry of a message; FALSE where it is one that the machine doesn't know. */
static BOOL tell_message(Thread *t, const MSG *m, BOOL removed) {
    Number window = number_of(m->hwnd), input, time;
    int x = cursor_x, y = cursor_y;
    if (m->hwnd && !window)
        return FALSE;
    Post **post = find_post(t, window, m);
    if (post) {
        const Post p = **post;
        if (removed)
            forget_post(post);
        got(t, m, window, "posted", p.number, p.wp, p.lp, p.time, p.x, p.y);
    } else if (m->message == WM_QUIT) {
        got(t, m, 0, "quit", 0, (Number)(LPARAM)m->wParam, 0, virtual_clock, x, y);
    } else if (m->message == WM_PAINT) {
        got(t, m, window, "paint", 0, 0, 0, virtual_clock, x, y);
    } else if (m->message == WM_TIMER) {
        if (removed)
            timer_taken(t, window, m->wParam);
        got(t, m, window, "timer", 0, m->wParam, (Number)m->lParam, virtual_clock, x, y);
    } else if ((input = input_of(m, removed, &x, &y, &time)) != 0) {
        got(t, m, window, "input", input, m->wParam, (Number)m->lParam, time, x, y);
    } else {
        return FALSE;
    }
    return TRUE;
}

/* Serves the sends that have come; TRUE where the turn is still unused. */
static BOOL serve_sends(Thread *t, const Filter *filter) {
    MSG unused;
    Doing doing = {.kind = DOING_RETRIEVAL, .outer = t->doing, .call = filter->call};
    t->doing = &doing;
    if (t->depth < MAX_DEPTH)
        PeekMessageA(&unused, NULL, 0, 0, PM_NOREMOVE | PM_QS_SENDMESSAGE);
    t->doing = doing.outer;
    return t->fresh;
}

/* Looks once for a message; TRUE where its entry was written. */
static BOOL look(Thread *t, const Filter *filter) {
    UINT flags = (UINT)filter->flags | (PM_QS_POSTMESSAGE | PM_QS_INPUT | PM_QS_PAINT);
    MSG m;
    Doing doing = {.kind = DOING_RETRIEVAL, .outer = t->doing, .call = filter->call};
    t->doing = &doing;
    while (peek(filter, &m, flags)) {
        if (tell_message(t, &m, (flags & PM_REMOVE) != 0)) {
            t->doing = doing.outer;
            return TRUE;
        }
        if (!(flags & PM_REMOVE))
            PeekMessageA(&m, m.hwnd, m.message, m.message, PM_REMOVE);
        if (m.hwnd && !number_of(m.hwnd))
            DispatchMessageA(&m);
    }
    t->doing = doing.outer;
    return FALSE;
}

static int filter_refusal(const Thread *t, const Filter *filter) {
    if (filter->flags > 3)
        return ERROR_INVALID_PARAMETER;
    return filter->window && filter->window != MINUS_ONE && refusal(t, filter->window, TRUE) ? ERROR_INVALID_WINDOW_HANDLE : 0;
}

/* A look past the budget: whether the thread could go on. */
static void look_for_scheduler(Thread *t, const Filter *filter) {
    MSG m;
    Doing doing = {.kind = DOING_SYSTEM, .outer = t->doing};
    t->doing = &doing;
    t->looked_and_found = peek(filter, &m, PM_NOREMOVE | PM_QS_POSTMESSAGE | PM_QS_INPUT | PM_QS_PAINT) || has_sends(t);
    t->doing = doing.outer;
    look_in_vain(t);
}

/* 1 where a message was got, 0 where there is none, minus one where the call was refused. */
static int retrieve(Thread *t, const Filter *filter, int *code) {
    for (;;) {
        begin_call(t, "%s", filter->call);
        if (t->entries >= script.budget) {
            look_for_scheduler(t, filter);
            continue;
        }
        *code = filter_refusal(t, filter);
        if (*code) {
            refuse(t, *code);
            return -1;
        }
        arm_timers(t);
        if (!serve_sends(t, filter))
            continue;
        if (look(t, filter))
            return 1;
        if (!t->fresh)
            continue;
        if (!filter->waits) {
            answer(t, "none");
            return 0;
        }
        if (t->wait == WAIT_GET) {
            look_in_vain(t);
            continue;
        }
        t->wait_window = filter->window;
        t->wait_least = filter->least;
        t->wait_greatest = filter->greatest;
        wait_on(t, WAIT_GET);
    }
}

void play_get(Thread *t, const Statement *s) {
    Filter filter = {VALUE(0), VALUE(1), VALUE(2), PM_REMOVE, TRUE, ""};
    int code;
    snprintf(filter.call, sizeof filter.call, "get %" PRIu64 " %" PRIu64 " %" PRIu64, filter.window, filter.least, filter.greatest);
    int found = retrieve(t, &filter, &code);
    set_result(t, found < 0 ? MINUS_ONE : t->variables[VAR_GMSG] != WM_QUIT, (Number)code);
}

void play_peek(Thread *t, const Statement *s) {
    Filter filter = {VALUE(0), VALUE(1), VALUE(2), VALUE(3), FALSE, ""};
    int code;
    snprintf(filter.call, sizeof filter.call, "peek %" PRIu64 " %" PRIu64 " %" PRIu64 " %" PRIu64, filter.window, filter.least,
             filter.greatest, filter.flags);
    int found = retrieve(t, &filter, &code);
    set_result(t, found == 1 && t->variables[VAR_GMSG] != WM_QUIT, (Number)code);
}

BOOL get_for_loop(Thread *t) {
    const Filter filter = {0, 0, 0, PM_REMOVE, TRUE, "get 0 0 0"};
    int code;
    retrieve(t, &filter, &code);
    return t->variables[VAR_GMSG] != WM_QUIT;
}

void play_status(Thread *t, const Statement *s) {
    Number flags = VALUE(0), found = 0;
    begin_call(t, "status %" PRIu64, flags);
    int code = flags > 127 ? ERROR_INVALID_PARAMETER : 0;
    if (code) {
        refuse(t, code);
    } else {
        arm_timers(t);
        found = GetQueueStatus((UINT)flags) & ((UINT)flags | (UINT)flags << 16);
        if (t->probes > 0 && !has_sends(t))
            found &= ~(Number)(QS_SENDMESSAGE | QS_SENDMESSAGE << 16);
        answer(t, "value %" PRIu64, found);
    }
    set_result(t, found, (Number)code);
}

/* ---- dispatch and translate ---- */

#define GOT_FIELDS "%" PRIu64 " %s %" PRIu64 " %" PRIu64
#define GOT_OF(t) \
    (t)->variables[VAR_GHWND], message_text((t)->variables[VAR_GMSG], room), (t)->variables[VAR_GWP], (t)->variables[VAR_GLP]

static Number dispatch(Thread *t, Number *err) {
    char room[24];
    Number window = t->variables[VAR_GHWND];
    begin_call(t, "dispatch " GOT_FIELDS, GOT_OF(t));
    int code = window ? refusal(t, window, TRUE) : 0;
    if (!code && window && t->depth >= MAX_DEPTH)
        code = ERROR_STACK_OVERFLOW;
    *err = (Number)code;
    if (code) {
        refuse(t, code);
        return 0;
    }
    MSG m = t->got;
    Doing doing = {.kind = DOING_DIRECT, .outer = t->doing, .handle = m.hwnd, .window = window, .message = m.message,
                   .wp = m.wParam, .lp = m.lParam,
                   .shown = {t->variables[VAR_GMSG], t->variables[VAR_GWP], t->variables[VAR_GLP]}};
    t->doing = &doing;
    /* To DispatchMessage the lParam of WM_TIMER is a function. */
    if (m.hwnd && m.message == WM_TIMER && m.lParam)
        SendMessageA(m.hwnd, m.message, m.wParam, m.lParam);
    else
        DispatchMessageA(&m);
    t->doing = doing.outer;
    if (!doing.met)
        answer(t, "ok");
    return doing.result;
}

void play_dispatch(Thread *t, const Statement *s) {
    (void)s;
    Number err, result = dispatch(t, &err);
    set_result(t, result, err);
}

static BOOL has_character(const Thread *t) {
    Number key = t->variables[VAR_GWP];
    return t->variables[VAR_GMSG] == WM_KEYDOWN && ((key >= 'A' && key <= 'Z') || (key >= '0' && key <= '9') || key == ' ');
}

/* The character that TranslateMessage has posted, or 0: the last WM_CHAR of the window that isn't known yet. */
static BOOL find_character(Thread *t, MSG *m) {
    const MSG from = t->got;
    MSG others[64];
    int count = 0;
    BOOL found = FALSE;
    Doing doing = {.kind = DOING_SYSTEM, .outer = t->doing};
    t->doing = &doing;
    HWND of = from.hwnd ? from.hwnd : (HWND)(INT_PTR)-1;
    /* A quit that is set passes each range: it is looked at alone, and left. */
    while (count < 64 && PeekMessageA(&others[count], of, WM_CHAR, WM_CHAR, PM_NOREMOVE | PM_QS_POSTMESSAGE) &&
           others[count].message == WM_CHAR &&
           PeekMessageA(&others[count], of, WM_CHAR, WM_CHAR, PM_REMOVE | PM_QS_POSTMESSAGE))
        count++;
    for (int k = 0; k < count; k++)
        if (from.hwnd)
            PostMessageA(others[k].hwnd, WM_CHAR, others[k].wParam, others[k].lParam);
        else
            PostThreadMessageA(t->id, WM_CHAR, others[k].wParam, others[k].lParam);
    int known = 0;
    for (const Post *post = t->posts; post; post = post->next)
        known += post->message == WM_CHAR && post->window == t->variables[VAR_GHWND];
    if (count > known) {
        *m = others[count - 1];
        found = TRUE;
    }
    t->doing = doing.outer;
    return found;
}

static Number translate(Thread *t, Number *err) {
    char room[24];
    Number window = t->variables[VAR_GHWND];
    MSG m;
    begin_call(t, "translate " GOT_FIELDS, GOT_OF(t));
    int code = has_character(t) && window ? refusal(t, window, FALSE) : 0;
    const Window *w = live_window(window);
    Thread *to = w ? w->thread : t;
    if (!code && has_character(t) && posts_of(to) >= MAX_POSTS)
        code = ERROR_NOT_ENOUGH_QUOTA;
    *err = (Number)code;
    if (code) {
        refuse(t, code);
        return 0;
    }
    BOOL done = TranslateMessage(&t->got);
    if (done && find_character(t, &m)) {
        Number number = add_post(to, window, WM_CHAR, m.wParam, (Number)m.lParam);
        answer(t, "posted %" PRIu64, number);
        return 1;
    }
    answer(t, "value 0");
    return 0;
}

void play_translate(Thread *t, const Statement *s) {
    (void)s;
    Number err, done = translate(t, &err);
    set_result(t, done, err);
}

void dispatch_in_loop(Thread *t) {
    Number err;
    if (t->variables[VAR_GMSG] == WM_KEYDOWN)
        translate(t, &err);
    dispatch(t, &err);
}

/* ---- posts ---- */

static int post_refusal(Number message, const Thread *to) {
    return message > 65535 ? ERROR_INVALID_PARAMETER : to && posts_of(to) >= MAX_POSTS ? ERROR_NOT_ENOUGH_QUOTA : 0;
}

static void tell_post(Thread *t, int code, Thread *to, Number window, Number message, Number wp, Number lp) {
    if (code)
        refuse(t, code);
    else
        answer(t, "posted %" PRIu64, add_post(to, window, message, wp, lp));
}

static int post(Thread *t, Number window, Number message, Number wp, Number lp) {
    char room[24];
    const Window *w = live_window(window);
    Thread *to = !window ? t : w ? w->thread : NULL;
    begin_call(t, "post %" PRIu64 " %s %" PRIu64 " %" PRIu64, window, message_text(message, room), wp, lp);
    if (message >= 992 && message <= 1000)
        cannot_play(t, "a post of a message of DDE, whose lParam is memory that Windows reads");
    int code = message > 65535 ? ERROR_INVALID_PARAMETER : window && !w ? ERROR_INVALID_WINDOW_HANDLE : post_refusal(message, to);
    SetLastError(0);
    if (!code && !PostMessageA(window ? handle_of(window) : NULL, real_message(message), (WPARAM)wp, (LPARAM)lp))
        code = (int)GetLastError();
    tell_post(t, code, to, window, message, wp, lp);
    return code;
}

void play_post(Thread *t, const Statement *s) {
    int code = post(t, VALUE(0), VALUE(1), VALUE(2), VALUE(3));
    set_result(t, !code, (Number)code);
}

void play_post_thread(Thread *t, const Statement *s) {
    Number number = VALUE(0), message = VALUE(1), wp = VALUE(2), lp = VALUE(3);
    char room[24];
    Thread *to = number >= 1 && number <= (Number)script.thread_count ? &threads[number] : NULL;
    begin_call(t, "post_thread %" PRIu64 " %s %" PRIu64 " %" PRIu64, number, message_text(message, room), wp, lp);
    if (message >= 992 && message <= 1000)
        cannot_play(t, "a post of a message of DDE, whose lParam is memory that Windows reads");
    int code = message > 65535 ? ERROR_INVALID_PARAMETER
        : !to || to->state == STATE_ENDED ? ERROR_INVALID_THREAD_ID
                                          : post_refusal(message, to);
    SetLastError(0);
    if (!code && !PostThreadMessageA(to->id, real_message(message), (WPARAM)wp, (LPARAM)lp))
        code = (int)GetLastError();
    tell_post(t, code, to, 0, message, wp, lp);
    set_result(t, !code, (Number)code);
}

void post_quit(Thread *t, Number code) {
    begin_call(t, "post_quit %" PRIu64, code);
    PostQuitMessage((int)code);
    answer(t, "ok");
}

void play_post_quit(Thread *t, const Statement *s) {
    post_quit(t, VALUE(0));
    set_result(t, 1, 0);
}

void play_post_all(Thread *t, const Statement *s) {
    Number message = VALUE(0), wp = VALUE(1), lp = VALUE(2);
    for (Number at = next_top(t, 0); at; at = next_top(t, at))
        post(t, at, message, wp, lp);
    set_result(t, 1, 0);
}
