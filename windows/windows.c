/* Classes and windows: creation, destruction, and what is asked about windows. The window procedure of all classes is
 * here: it tells what a message is by what its thread does just now. */
#include "runner.h"

#include <stdlib.h>

typedef struct {
    int name, procedure;
    BOOL live;
    char real_name[64];
    HBRUSH brush;
} Class;

Window windows[MAX_WINDOWS];
int window_count;
static Class classes[1024]; /* of all registrations, since numbers are given once */
static int class_count;

#define STYLE_BITS (WS_CHILD | WS_POPUP | WS_VISIBLE | WS_DISABLED)

/* ---- numbers and handles ---- */

Window *live_window(Number number) {
    if (number < FIRST_WINDOW || number - FIRST_WINDOW >= (Number)window_count)
        return NULL;
    Window *w = &windows[number - FIRST_WINDOW];
    return w->live ? w : NULL;
}

HWND handle_of(Number number) {
    const Window *w = live_window(number);
    return w ? w->handle : (HWND)(ULONG_PTR)0x7ffffff0;
}

Number number_of(HWND handle) {
    for (int k = window_count - 1; handle && k >= 0; k--)
        if (windows[k].live && windows[k].handle == handle)
            return FIRST_WINDOW + (Number)k;
    return 0;
}

int procedure_of(Number window) {
    return classes[windows[window - FIRST_WINDOW].class_place].procedure;
}

int refusal(const Thread *t, Number window, BOOL own) {
    const Window *w = live_window(window);
    return !w ? ERROR_INVALID_WINDOW_HANDLE : own && w->thread != t ? ERROR_ACCESS_DENIED : 0;
}

BOOL bad_rectangle(const Signed e[4]) {
    return e[0] < -4096 || e[0] > 4096 || e[1] < -4096 || e[1] > 4096 || e[2] < e[0] || e[3] < e[1] || e[2] - e[0] > 4096 ||
           e[3] - e[1] > 4096;
}

/* ---- classes ---- */

static Class *live_class(int name) {
    for (int k = class_count - 1; k >= 0; k--)
        if (classes[k].live && classes[k].name == name)
            return &classes[k];
    return NULL;
}

void play_register(Thread *t, const Statement *s) {
    Number colour = VALUE(2);
    int live = 0;
    begin_call(t, "register %s %s %" PRIu64, NAME(0), script.procedures[s->operands[1].value].name, colour);
    for (int k = 0; k < class_count; k++)
        live += classes[k].live;
    int code = colour > 15 ? ERROR_INVALID_PARAMETER : 0;
    Class *added = &classes[class_count];
    if (!code) {
        snprintf(added->real_name, sizeof added->real_name, "script %s", NAME(0));
        added->brush = CreateSolidBrush(palette[colour]);
        WNDCLASSA real = {.lpfnWndProc = window_procedure, .hInstance = GetModuleHandleA(NULL),
                          .hbrBackground = added->brush, .lpszClassName = added->real_name};
        code = RegisterClassA(&real) ? 0 : (int)GetLastError();
        if (!code && live >= MAX_CLASSES) {
            UnregisterClassA(added->real_name, real.hInstance);
            code = REFUSED_FULL;
        }
    }
    if (code) {
        refuse(t, code);
        set_result(t, 0, (Number)code);
        return;
    }
    added->name = (int)s->operands[0].value;
    added->procedure = (int)s->operands[1].value;
    added->live = TRUE;
    class_count++;
    answer(t, "value %d", class_count);
    set_result(t, (Number)class_count, 0);
}

void play_unregister(Thread *t, const Statement *s) {
    char real_name[64];
    begin_call(t, "unregister %s", NAME(0));
    snprintf(real_name, sizeof real_name, "script %s", NAME(0));
    int code = UnregisterClassA(real_name, GetModuleHandleA(NULL)) ? 0 : (int)GetLastError();
    if (code) {
        refuse(t, code);
    } else {
        live_class((int)s->operands[0].value)->live = FALSE;
        answer(t, "ok");
    }
    set_result(t, !code, (Number)code);
}

/* ---- the window procedure ---- */

static LRESULT part_of_creation(Thread *t, Doing *doing, HWND handle, UINT message, WPARAM wp, LPARAM lp, BOOL *known) {
    if (message == WM_NCCREATE && !doing->met) {
        doing->met = TRUE;
        doing->handle = handle;
        windows[doing->window - FIRST_WINDOW].handle = handle;
        windows[doing->window - FIRST_WINDOW].live = TRUE;
        window_count++;
        DefWindowProcA(handle, message, wp, lp);
        t->hold++;
        answer(t, "window %" PRIu64, doing->window);
        LRESULT made = send_made(t, doing->window, WM_NCCREATE, 0, 0);
        t->hold--;
        doing->refused = !made;
        return made;
    }
    if (handle == doing->handle && message == WM_CREATE && !doing->created) {
        doing->created = TRUE;
        if (doing->wp & WS_VISIBLE) {
            Doing quiet = {.kind = DOING_SYSTEM, .outer = t->doing};
            t->doing = &quiet;
            SetWindowPos(handle, NULL, 0, 0, 0, 0, SWP_SHOWWINDOW | SWP_NOACTIVATE | SWP_NOMOVE | SWP_NOSIZE | SWP_NOZORDER | SWP_DEFERERASE);
            t->doing = quiet.outer;
        }
        LRESULT made = send_made(t, doing->window, WM_CREATE, 0, 0);
        doing->refused = made == -1;
        return made;
    }
    if (message == WM_NCDESTROY && handle == doing->handle && !doing->gone) {
        /* The creation was refused: a destruction begins, with the messages that this system sends. */
        begin_call(t, "doom %" PRIu64, doing->window);
        answer(t, "ok");
        begin_call(t, "unmake %" PRIu64, doing->window);
        t->hold++;
        answer(t, "last %" PRIu64, doing->window);
        send_made(t, doing->window, WM_NCDESTROY, 0, 0);
        t->hold--;
        doing->gone = TRUE;
        doing->last = doing->window;
        return DefWindowProcA(handle, message, wp, lp);
    }
    *known = FALSE;
    return 0;
}

void drop_where_gone(Thread *t, Doing *doing) {
    Window *w = doing->gone ? live_window(doing->last) : NULL;
    if (!w || IsWindow(w->handle))
        return;
    doing->gone = FALSE;
    begin_call(t, "drop %" PRIu64, doing->last);
    w->live = FALSE;
    drop_posts_to(doing->last);
    drop_timers_of(doing->last);
    lose_sends_to(doing->last);
    answer(t, "ok");
}

static LRESULT part_of_destruction(Thread *t, Doing *doing, HWND handle, UINT message, WPARAM wp, LPARAM lp) {
    Number told = number_of(handle);
    drop_where_gone(t, doing);
    t->hold = 0;
    begin_call(t, "unmake %" PRIu64, doing->window);
    if (message == WM_DESTROY) {
        answer(t, "tell %" PRIu64, told);
        return send_made(t, told, WM_DESTROY, 0, 0);
    }
    t->hold = 1; /* until it is dropped: Windows shows it to nobody any more */
    answer(t, "last %" PRIu64, told);
    send_made(t, told, WM_NCDESTROY, 0, 0);
    doing->gone = TRUE;
    doing->last = told;
    return DefWindowProcA(handle, message, wp, lp);
}

/* The messages that belong to a compound; all others are Windows' own and aren't written. */
static LRESULT part_of_compound(Thread *t, Doing *doing, HWND handle, UINT message, WPARAM wp, LPARAM lp, BOOL *known) {
    Number window = number_of(handle);
    BOOL its = handle == doing->handle;
    *known = TRUE;
    switch (doing->compound) {
    case COMPOUND_CREATE:
        return part_of_creation(t, doing, handle, message, wp, lp, known);
    case COMPOUND_DESTROY:
        if (window && (message == WM_DESTROY || message == WM_NCDESTROY))
            return part_of_destruction(t, doing, handle, message, wp, lp);
        break;
    case COMPOUND_SHOW:
        if (its && message == WM_SHOWWINDOW)
            return send_made(t, window, message, wp, (Number)lp);
        break;
    case COMPOUND_ENABLE:
        if (its && (message == WM_CANCELMODE || message == WM_ENABLE))
            return send_made(t, window, message, wp, (Number)lp);
        break;
    case COMPOUND_PLACE:
        if (its && (message == WM_MOVE || message == WM_SIZE || message == WM_SHOWWINDOW))
            return send_made(t, window, message, wp, (Number)lp);
        break;
    case COMPOUND_FOCUS:
        if (window && (message == WM_SETFOCUS || message == WM_KILLFOCUS))
            return finish_foreign(t, doing), send_made(t, window, message, number_of((HWND)wp), 0);
        break;
    case COMPOUND_ACTIVE:
        if (window && message == WM_ACTIVATE)
            return finish_foreign(t, doing), send_made(t, window, message, wp, number_of((HWND)lp));
        break;
    case COMPOUND_CAPTURE:
        if (window && message == WM_CAPTURECHANGED)
            return finish_foreign(t, doing), send_made(t, window, message, wp, number_of((HWND)lp));
        break;
    case COMPOUND_PAINT:
        if (its && message == WM_ERASEBKGND && !doing->erased) {
            doing->erased = TRUE;
            live_window(window)->erasing = (HDC)wp;
            LRESULT made = send_made(t, window, message, 0, 0);
            if (live_window(window))
                live_window(window)->erasing = NULL;
            return made;
        }
        break;
    case COMPOUND_UPDATE:
        if (its && message == WM_PAINT && !doing->met) {
            doing->met = TRUE;
            return send_made(t, window, message, 0, 0);
        }
        break;
    }
    *known = FALSE;
    return 0;
}

/* What Windows sends and the machine doesn't know. Erasing is put off, so that BeginPaint finds it to do; activation
 * doesn't move the focus, and a click activates nothing. */
static LRESULT system_message(HWND handle, UINT message, WPARAM wp, LPARAM lp) {
    switch (message) {
    case WM_ERASEBKGND:
    case WM_ACTIVATE:
    case WM_PAINT:
    case WM_CLOSE:
        return 0;
    case WM_NCACTIVATE:
        return TRUE;
    case WM_MOUSEACTIVATE:
        return MA_NOACTIVATE;
    default:
        return DefWindowProcA(handle, message, wp, lp);
    }
}

LRESULT CALLBACK window_procedure(HWND handle, UINT message, WPARAM wp, LPARAM lp) {
    Thread *t = current_thread();
    Doing *doing = t ? t->doing : NULL;
    BOOL known = FALSE;
    LRESULT result;
    if (!doing)
        return DefWindowProcA(handle, message, wp, lp);
    switch (doing->kind) {
    case DOING_DIRECT:
        if (!doing->met && handle == doing->handle && message == doing->message && wp == doing->wp && lp == doing->lp) {
            doing->met = TRUE;
            return run_direct(t, doing);
        }
        break;
    case DOING_RETRIEVAL:
    case DOING_SEND: {
        Number window = number_of(handle);
        Send *send = window ? find_send(t, window, message, wp, lp) : NULL;
        if (window && !send)
            send = find_foreign(t, window, message, wp, lp);
        if (send)
            return enter_send(t, send);
        break;
    }
    case DOING_COMPOUND:
        result = part_of_compound(t, doing, handle, message, wp, lp, &known);
        if (known)
            return result;
        break;
    default:
        break;
    }
    return system_message(handle, message, wp, lp);
}

/* ---- creation ---- */

static int create_refusal(const Thread *t, const Statement *s, Number parent, Number style, Number ex, const Signed edges[4]) {
    const Window *above = live_window(parent);
    int live = 0;
    if (bad_rectangle(edges) || (style & ~(Number)STYLE_BITS) || ((style & WS_CHILD) && (style & WS_POPUP)) ||
        (ex && (ex != WS_EX_TOPMOST || (style & WS_CHILD))))
        return ERROR_INVALID_PARAMETER;
    if (parent && (!above || above->marked))
        return ERROR_INVALID_WINDOW_HANDLE;
    if (parent && above->thread != t)
        return ERROR_ACCESS_DENIED;
    if ((style & WS_CHILD) && !parent)
        return ERROR_TLW_WITH_WSCHILD;
    if (!live_class((int)s->operands[0].value))
        return ERROR_CANNOT_FIND_WND_CLASS;
    for (int k = 0; k < window_count; k++)
        live += windows[k].live;
    if (window_count >= MAX_WINDOWS && live < MAX_WINDOWS)
        cannot_play((Thread *)t, "more windows than the runner counts");
    return live >= MAX_WINDOWS ? REFUSED_FULL : 0;
}

void play_create(Thread *t, const Statement *s) {
    Number parent = VALUE(2), style = VALUE(3), ex = VALUE(4);
    const Signed e[4] = {SIGNED(5), SIGNED(6), SIGNED(7), SIGNED(8)};
    begin_call(t, "new_window %s %s %" PRIu64 " %" PRIu64 " %" PRIu64 " %" PRId64 " %" PRId64 " %" PRId64 " %" PRId64, NAME(0),
               NAME(1), parent, style, ex, e[0], e[1], e[2], e[3]);
    int code = create_refusal(t, s, parent, style, ex, e);
    if (code) {
        refuse(t, code);
        set_result(t, 0, (Number)code);
        return;
    }
    const Class *class = live_class((int)s->operands[0].value);
    Number number = FIRST_WINDOW + (Number)window_count;
    Window *w = &windows[window_count];
    *w = (Window){.thread = t, .class_place = (int)(class - classes), .title = (int)s->operands[1].value,
                  .top = !(style & WS_CHILD)};
    if (w->top) {
        w->owner = parent;
        while (w->owner && !windows[w->owner - FIRST_WINDOW].top)
            w->owner = windows[w->owner - FIRST_WINDOW].parent;
    } else {
        w->parent = parent;
    }
    DWORD real_style = (DWORD)(style & ~(Number)WS_VISIBLE) | (w->top ? WS_POPUP : 0) | WS_CLIPSIBLINGS | WS_CLIPCHILDREN;
    Doing doing = {.kind = DOING_COMPOUND, .compound = COMPOUND_CREATE, .outer = t->doing, .window = number, .wp = (WPARAM)style};
    t->doing = &doing;
    SetLastError(0);
    HWND made = CreateWindowExA((DWORD)ex, class->real_name, NAME(1), real_style, (int)e[0], (int)e[1], (int)(e[2] - e[0]),
                                (int)(e[3] - e[1]), parent ? handle_of(parent) : NULL, NULL, GetModuleHandleA(NULL), NULL);
    DWORD error = GetLastError();
    t->doing = doing.outer;
    if (!doing.met) {
        refuse(t, (int)error);
        set_result(t, 0, error);
        return;
    }
    BOOL dropped = doing.gone;
    if (dropped) {
        drop_where_gone(t, &doing);
        begin_call(t, "unmake %" PRIu64, number);
        answer(t, "gone");
    }
    Number unused;
    if (!live_window(number) && !dropped && !doing.created && !doing.refused)
        doing.refused = !send_part(t, number, WM_CREATE, 0, 0, &unused); /* destroyed in WM_NCCREATE */
    if (!live_window(number) && !dropped && doing.refused)
        destroy(t, number, &unused);
    (void)made; /* NULL also where the window was destroyed meanwhile */
    set_result(t, doing.refused ? 0 : number, 0);
}

/* ---- destruction ---- */

static void mark_family(Number window) {
    windows[window - FIRST_WINDOW].marked = TRUE;
    for (int k = 0; k < window_count; k++)
        if (windows[k].live && !windows[k].marked && (windows[k].parent == window || windows[k].owner == window))
            mark_family(FIRST_WINDOW + (Number)k);
}

Number destroy(Thread *t, Number window, Number *err) {
    begin_call(t, "doom %" PRIu64, window);
    const Window *w = live_window(window);
    int code = w && w->marked ? ERROR_INVALID_WINDOW_HANDLE : refusal(t, window, TRUE);
    *err = (Number)code;
    if (code) {
        refuse(t, code);
        return 0;
    }
    mark_family(window);
    Doing doing = {.kind = DOING_COMPOUND, .compound = COMPOUND_DESTROY, .outer = t->doing, .window = window,
                   .handle = handle_of(window)};
    int held = t->hold;
    t->doing = &doing;
    answer(t, "ok");
    DestroyWindow(doing.handle);
    t->doing = doing.outer;
    drop_where_gone(t, &doing);
    t->hold = held;
    begin_call(t, "unmake %" PRIu64, window);
    answer(t, live_window(window) ? "running" : "gone");
    return 1;
}

void play_destroy(Thread *t, const Statement *s) {
    Number err, r = destroy(t, VALUE(0), &err);
    set_result(t, r, err);
}

void drop_windows_of(Thread *t) {
    for (int k = 0; k < window_count; k++) {
        Number number = FIRST_WINDOW + (Number)k;
        if (!windows[k].live || windows[k].thread != t)
            continue;
        windows[k].live = FALSE;
        drop_timers_of(number);
        lose_sends_to(number);
    }
    forget_active(t);
    detach_all(t);
}

/* ---- questions ---- */

void play_is_window(Thread *t, const Statement *s) {
    Number window = VALUE(0);
    begin_call(t, "is_window %" PRIu64, window);
    BOOL is = IsWindow(handle_of(window));
    answer(t, "value %d", is ? 1 : 0);
    set_result(t, is ? 1 : 0, 0);
}

void play_parent(Thread *t, const Statement *s) {
    Number window = VALUE(0);
    begin_call(t, "parent %" PRIu64, window);
    int code = refusal(t, window, FALSE);
    Number found = code ? 0 : number_of(GetParent(handle_of(window)));
    if (code)
        refuse(t, code);
    else
        answer(t, "window %" PRIu64, found);
    set_result(t, found, (Number)code);
}

/* A look through the top-level windows, from the highest on. */
typedef struct {
    Number above, least; /* of next_top */
    int title;           /* of find, or -1 */
    Number highest;
} Look;

static BOOL CALLBACK look_at(HWND handle, LPARAM data) {
    Look *look = (Look *)data;
    Number number = number_of(handle);
    if (!number)
        return TRUE;
    if (number > look->above && (!look->least || number < look->least))
        look->least = number;
    if (windows[number - FIRST_WINDOW].title == look->title && !look->highest)
        look->highest = number;
    return TRUE;
}

Number next_top(Thread *t, Number above) {
    Look look = {.above = above, .title = -1};
    begin_call(t, "next_top %" PRIu64, above);
    EnumWindows(look_at, (LPARAM)&look);
    answer(t, "window %" PRIu64, look.least);
    return look.least;
}

void play_next_top(Thread *t, const Statement *s) {
    set_result(t, next_top(t, VALUE(0)), 0);
}

void play_find(Thread *t, const Statement *s) {
    Look look = {.title = (int)s->operands[0].value};
    begin_call(t, "find %s", NAME(0));
    EnumWindows(look_at, (LPARAM)&look);
    answer(t, "window %" PRIu64, look.highest);
    set_result(t, look.highest, 0);
}

void play_await_title(Thread *t, const Statement *s) {
    BOOL waited = FALSE;
    for (;;) {
        Look look = {.title = (int)s->operands[0].value};
        begin_call(t, "await_title %s", NAME(0));
        EnumWindows(look_at, (LPARAM)&look);
        if (look.highest && t->entries < script.budget) {
            answer(t, "window %" PRIu64, look.highest);
            set_result(t, look.highest, 0);
            return;
        }
        if (waited) {
            t->looked_and_found = look.highest != 0;
            look_in_vain(t);
        } else {
            wait_on(t, WAIT_TITLE);
        }
        waited = TRUE;
    }
}

void play_window_at(Thread *t, const Statement *s) {
    Signed x = SIGNED(0), y = SIGNED(1);
    begin_call(t, "window_at %" PRId64 " %" PRId64, x, y);
    BOOL on = x >= 0 && y >= 0 && x < script.width && y < script.height;
    Number found = on ? number_of(WindowFromPoint((POINT){(LONG)x, (LONG)y})) : 0;
    answer(t, "window %" PRIu64, found);
    set_result(t, found, 0);
}
