/* Showing, enabling and moving windows.
 *
 * A window of another thread is changed by its own thread, at the caller's step; the messages that tell of it are then
 * sends of the caller. What Windows itself would send across threads isn't looked at. */
#include "runner.h"

typedef struct {
    HWND handle, after;
    int x, y, width, height;
    UINT flags;
    int on, result;
} Change;

static void show_it(void *data) {
    Change *change = data;
    change->result = ShowWindow(change->handle, change->on ? SW_SHOWNOACTIVATE : SW_HIDE) != 0;
}

static void enable_it(void *data) {
    Change *change = data;
    change->result = EnableWindow(change->handle, change->on) != 0;
}

static void place_it(void *data) {
    Change *change = data;
    change->result = SetWindowPos(change->handle, change->after, change->x, change->y, change->width, change->height, change->flags);
}

static BOOL has_style(Number window, DWORD bit) {
    return (GetWindowLongA(handle_of(window), GWL_STYLE) & (LONG)bit) != 0;
}

static void change_own(Thread *t, Number window, Compound compound, void (*change)(void *), Change *data) {
    Doing doing = {.kind = DOING_COMPOUND, .compound = compound, .outer = t->doing, .handle = handle_of(window), .window = window};
    t->doing = &doing;
    change(data);
    t->doing = doing.outer;
}

static void change_foreign(Thread *t, Number window, void (*change)(void *), Change *data) {
    if (!do_in(t, live_window(window)->thread, change, data))
        cannot_play(t, "a window of a thread that serves nobody is to be changed");
}

static int switch_refusal(const Thread *t, Number window, Number on) {
    return on > 1 ? ERROR_INVALID_PARAMETER : refusal(t, window, FALSE);
}

void play_show_window(Thread *t, const Statement *s) {
    Number window = VALUE(0), on = VALUE(1);
    begin_call(t, "show %" PRIu64 " %" PRIu64, window, on);
    int code = switch_refusal(t, window, on);
    if (code) {
        refuse(t, code);
        set_result(t, 0, (Number)code);
        return;
    }
    Change change = {.handle = handle_of(window), .on = (int)on};
    BOOL was = has_style(window, WS_VISIBLE);
    if (live_window(window)->thread == t) {
        Entry *entry = answer(t, "value %d", was);
        change_own(t, window, COMPOUND_SHOW, show_it, &change);
        change_answer(entry, "value %d", change.result);
    } else {
        Number unused;
        change_foreign(t, window, show_it, &change);
        change.result = was;
        answer(t, "value %d", was);
        if (was != (BOOL)on)
            send_part(t, window, WM_SHOWWINDOW, on, 0, &unused);
    }
    set_result(t, (Number)change.result, 0);
}

Number enable(Thread *t, Number window, Number on, Number *err) {
    begin_call(t, "enable %" PRIu64 " %" PRIu64, window, on);
    int code = switch_refusal(t, window, on);
    *err = (Number)code;
    if (code) {
        refuse(t, code);
        return 0;
    }
    Change change = {.handle = handle_of(window), .on = (int)on};
    BOOL was = has_style(window, WS_DISABLED);
    if (live_window(window)->thread == t) {
        Entry *entry = answer(t, "value %d", was);
        change_own(t, window, COMPOUND_ENABLE, enable_it, &change);
        change_answer(entry, "value %d", change.result);
    } else {
        Number unused;
        change_foreign(t, window, enable_it, &change);
        answer(t, "value %d", was);
        if (was == (BOOL)on && !on)
            send_part(t, window, WM_CANCELMODE, 0, 0, &unused);
        if (was == (BOOL)on)
            send_part(t, window, WM_ENABLE, on, 0, &unused);
    }
    return (Number)was;
}

void play_enable_window(Thread *t, const Statement *s) {
    Number err, r = enable(t, VALUE(0), VALUE(1), &err);
    set_result(t, r, err);
}

enum {
    KNOWN_FLAGS =
        SWP_NOSIZE | SWP_NOMOVE | SWP_NOZORDER | SWP_NOACTIVATE | SWP_SHOWWINDOW | SWP_HIDEWINDOW | SWP_NOCOPYBITS
};

static int place_refusal(const Thread *t, Number window, Signed after, const Signed edges[4], Number flags) {
    const Window *w = live_window(window), *sibling = live_window((Number)after);
    if (bad_rectangle(edges) || (flags & ~(Number)KNOWN_FLAGS) || ((flags & SWP_SHOWWINDOW) && (flags & SWP_HIDEWINDOW)))
        return ERROR_INVALID_PARAMETER;
    if (w && !(flags & SWP_NOZORDER)) {
        BOOL of_top = w->top && (after == -1 || after == -2);
        BOOL of_sibling = sibling && sibling != w && sibling->top == w->top && sibling->parent == w->parent;
        if (after != 0 && after != 1 && !of_top && !of_sibling)
            return ERROR_INVALID_PARAMETER;
    }
    return refusal(t, window, FALSE);
}

static int changed_bits(const RECT *before, const RECT *after, BOOL shown_before, BOOL shown_after) {
    return (before->left != after->left || before->top != after->top) +
           2 * (before->right - before->left != after->right - after->left || before->bottom - before->top != after->bottom - after->top) +
           4 * (shown_before != shown_after);
}

static Number packed(Signed x, Signed y) {
    return (Number)(x & 0xffff) + 65536 * (Number)(y & 0xffff);
}

void play_set_window_pos(Thread *t, const Statement *s) {
    Number window = VALUE(0), flags = VALUE(6);
    Signed after = SIGNED(1);
    const Signed e[4] = {SIGNED(2), SIGNED(3), SIGNED(4), SIGNED(5)};
    begin_call(t, "place %" PRIu64 " %" PRId64 " %" PRId64 " %" PRId64 " %" PRId64 " %" PRId64 " %" PRIu64, window, after, e[0], e[1],
               e[2], e[3], flags);
    int code = place_refusal(t, window, after, e, flags);
    if (code) {
        refuse(t, code);
        set_result(t, 0, (Number)code);
        return;
    }
    HWND behind = after >= FIRST_WINDOW ? handle_of((Number)after) : (HWND)(INT_PTR)after;
    Change change = {handle_of(window), behind, (int)e[0], (int)e[1], (int)(e[2] - e[0]), (int)(e[3] - e[1]),
                     (UINT)flags | SWP_NOACTIVATE, 0, 0};
    RECT before = {0}, then = {0};
    BOOL shown = has_style(window, WS_VISIBLE);
    GetWindowRect(change.handle, &before);
    if (live_window(window)->thread == t) {
        Entry *entry = answer(t, "value 0");
        change_own(t, window, COMPOUND_PLACE, place_it, &change);
        GetWindowRect(change.handle, &then);
        if (live_window(window))
            change_answer(entry, "value %d", changed_bits(&before, &then, shown, has_style(window, WS_VISIBLE)));
    } else {
        Number unused;
        change_foreign(t, window, place_it, &change);
        GetWindowRect(change.handle, &then);
        int bits = changed_bits(&before, &then, shown, has_style(window, WS_VISIBLE));
        answer(t, "value %d", bits);
        if (bits & 1)
            send_part(t, window, WM_MOVE, 0, packed(e[0], e[1]), &unused);
        if (bits & 2)
            send_part(t, window, WM_SIZE, 0, packed(e[2] - e[0], e[3] - e[1]), &unused);
        if (bits & 4)
            send_part(t, window, WM_SHOWWINDOW, (flags & SWP_SHOWWINDOW) != 0, 0, &unused);
    }
    set_result(t, 1, 0);
}
