/* Focus, active window, capture, and threads that are attached to each other. */
#include "runner.h"

static BOOL attached[MAX_THREADS + 1][MAX_THREADS + 1];

/* Whether two threads are attached, directly or by others. */
static BOOL grouped(int one, int other) {
    BOOL reached[MAX_THREADS + 1] = {FALSE};
    reached[one] = TRUE;
    for (int round = 0; round < script.thread_count; round++)
        for (int k = 1; k <= script.thread_count; k++)
            for (int m = 1; m <= script.thread_count; m++)
                if (reached[k] && (attached[k][m] || attached[m][k]))
                    reached[m] = TRUE;
    return reached[other];
}

static int focus_refusal(const Thread *t, Number window) {
    const Window *w = live_window(window);
    if (!window)
        return 0;
    if (!w)
        return ERROR_INVALID_WINDOW_HANDLE;
    return grouped(t->number, w->thread->number) ? 0 : ERROR_ACCESS_DENIED;
}

static BOOL begin_focus(Thread *t, const char *word, Number window, int code, Number *err) {
    begin_call(t, "%s %" PRIu64, word, window);
    *err = (Number)code;
    return !code;
}

typedef HWND(WINAPI *Setter)(HWND);

static HWND WINAPI release_it(HWND unused) {
    HWND before = GetCapture();
    (void)unused;
    ReleaseCapture();
    return before;
}

/* The call of Windows, with the messages that belong to it. */
static Number set_by(Thread *t, Compound compound, Setter setter, Number window, Number before) {
    Doing doing = {.kind = DOING_COMPOUND, .compound = compound, .outer = t->doing, .window = window};
    HWND handle = window ? handle_of(window) : NULL;
    Entry *entry = answer(t, "was %" PRIu64, before);
    t->doing = &doing;
    Number was = number_of(setter(handle));
    finish_foreign(t, &doing);
    t->doing = doing.outer;
    if (was != before)
        change_answer(entry, "was %" PRIu64, was);
    return was;
}

Number set_focus(Thread *t, Number window, Number *err) {
    int code = live_window(window) && (GetWindowLongA(handle_of(window), GWL_STYLE) & WS_DISABLED) ? ERROR_INVALID_PARAMETER
                                                                                                    : focus_refusal(t, window);
    if (!begin_focus(t, "set_focus", window, code, err)) {
        refuse(t, code);
        return 0;
    }
    return set_by(t, COMPOUND_FOCUS, SetFocus, window, number_of(GetFocus()));
}

void play_set_focus(Thread *t, const Statement *s) {
    Number err, was = set_focus(t, VALUE(0), &err);
    set_result(t, was, err);
}

void play_set_active(Thread *t, const Statement *s) {
    Number window = VALUE(0), err;
    const Window *w = live_window(window);
    int code = w && !w->top ? ERROR_INVALID_PARAMETER : focus_refusal(t, window);
    if (!begin_focus(t, "set_active", window, code, &err)) {
        refuse(t, code);
        set_result(t, 0, err);
        return;
    }
    Number was = set_by(t, COMPOUND_ACTIVE, SetActiveWindow, window, number_of(GetActiveWindow()));
    active_was_set(t, window);
    set_result(t, was, 0);
}

void play_set_capture(Thread *t, const Statement *s) {
    Number window = VALUE(0), err;
    int code = refusal(t, window, TRUE);
    if (!begin_focus(t, "set_capture", window, code, &err)) {
        refuse(t, code);
        set_result(t, 0, err);
        return;
    }
    set_result(t, set_by(t, COMPOUND_CAPTURE, SetCapture, window, number_of(GetCapture())), 0);
}

Number release_capture(Thread *t) {
    begin_call(t, "release_capture");
    return set_by(t, COMPOUND_CAPTURE, release_it, 0, number_of(GetCapture()));
}

void play_release_capture(Thread *t, const Statement *s) {
    (void)s;
    set_result(t, release_capture(t), 0);
}

static void tell(Thread *t, const char *word, HWND(WINAPI *getter)(void)) {
    begin_call(t, "%s", word);
    Number found = number_of(getter());
    answer(t, "window %" PRIu64, found);
    set_result(t, found, 0);
}

void play_get_focus(Thread *t, const Statement *s) {
    (void)s;
    tell(t, "get_focus", GetFocus);
}

void play_get_active(Thread *t, const Statement *s) {
    (void)s;
    tell(t, "get_active", GetActiveWindow);
}

void play_get_capture(Thread *t, const Statement *s) {
    (void)s;
    tell(t, "get_capture", GetCapture);
}

static BOOL is_thread(Number number) {
    return number >= 1 && number <= (Number)script.thread_count && threads[number].state != STATE_ENDED;
}

void play_attach(Thread *t, const Statement *s) {
    Number one = VALUE(0), other = VALUE(1);
    begin_call(t, "attach %" PRIu64 " %" PRIu64, one, other);
    int code = one == other || !is_thread(one) || !is_thread(other) || attached[one][other] || attached[other][one]
                   ? ERROR_INVALID_PARAMETER
                   : 0;
    if (!code && !AttachThreadInput(threads[one].id, threads[other].id, TRUE))
        code = (int)GetLastError();
    if (code) {
        refuse(t, code);
    } else {
        attached[one][other] = TRUE;
        answer(t, "ok");
    }
    set_result(t, !code, (Number)code);
}

void play_detach(Thread *t, const Statement *s) {
    Number one = VALUE(0), other = VALUE(1);
    begin_call(t, "detach %" PRIu64 " %" PRIu64, one, other);
    BOOL are = is_thread(one) && is_thread(other) && (attached[one][other] || attached[other][one]);
    int code = are ? 0 : ERROR_INVALID_PARAMETER;
    if (are && attached[one][other])
        AttachThreadInput(threads[one].id, threads[other].id, FALSE);
    else if (are)
        AttachThreadInput(threads[other].id, threads[one].id, FALSE);
    if (code) {
        refuse(t, code);
    } else {
        attached[one][other] = attached[other][one] = FALSE;
        answer(t, "ok");
    }
    set_result(t, !code, (Number)code);
}

void detach_all(const Thread *t) {
    for (int k = 0; k <= MAX_THREADS; k++)
        attached[t->number][k] = attached[k][t->number] = FALSE;
}
