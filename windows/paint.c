/* Update regions, painting, and frames of the screen. */
#include "runner.h"

#include <stdlib.h>
#include <string.h>

const COLORREF palette[16] = {
    RGB(0, 0, 0),     RGB(255, 0, 0),   RGB(0, 255, 0),   RGB(0, 0, 255),   RGB(255, 255, 0), RGB(255, 0, 255),
    RGB(0, 255, 255), RGB(255, 255, 255), RGB(128, 0, 0), RGB(0, 128, 0),   RGB(0, 0, 128),   RGB(128, 128, 0),
    RGB(128, 0, 128), RGB(0, 128, 128), RGB(64, 64, 64),  RGB(192, 192, 192),
};

typedef struct {
    HWND handle;
    RECT box;
    BOOL erase;
    int kind;
} Region;

static void invalidate_it(void *data) {
    Region *region = data;
    InvalidateRect(region->handle, &region->box, region->erase);
}

static void validate_it(void *data) {
    Region *region = data;
    ValidateRect(region->handle, &region->box);
}

static void look_at_it(void *data) {
    Region *region = data;
    HRGN found = CreateRectRgn(0, 0, 0, 0);
    region->kind = GetUpdateRgn(region->handle, found, FALSE);
    if (region->kind == NULLREGION)
        SetRectEmpty(&region->box);
    else
        GetRgnBox(found, &region->box);
    DeleteObject(found);
}

static void in_thread_of(Thread *t, Number window, void (*job)(void *), Region *region) {
    if (!do_in(t, live_window(window)->thread, job, region))
        cannot_play(t, "a window of a thread that serves nobody is to be painted");
}

#define EDGES "%" PRId64 " %" PRId64 " %" PRId64 " %" PRId64
#define RECT_OF(e) {(LONG)(e)[0], (LONG)(e)[1], (LONG)(e)[2], (LONG)(e)[3]}

void play_invalidate(Thread *t, const Statement *s) {
    Number window = VALUE(0), erase_too = VALUE(5);
    const Signed e[4] = {SIGNED(1), SIGNED(2), SIGNED(3), SIGNED(4)};
    begin_call(t, "invalidate %" PRIu64 " " EDGES " %" PRIu64, window, e[0], e[1], e[2], e[3], erase_too);
    int code = bad_rectangle(e) || erase_too > 1 ? ERROR_INVALID_PARAMETER : refusal(t, window, FALSE);
    if (code) {
        refuse(t, code);
    } else {
        Region region = {handle_of(window), RECT_OF(e), (BOOL)erase_too, 0};
        in_thread_of(t, window, invalidate_it, &region);
        answer(t, "ok");
    }
    set_result(t, !code, (Number)code);
}

static int validate(Thread *t, Number window, const Signed e[4]) {
    begin_call(t, "validate %" PRIu64 " " EDGES, window, e[0], e[1], e[2], e[3]);
    int code = bad_rectangle(e) ? ERROR_INVALID_PARAMETER : refusal(t, window, FALSE);
    if (code) {
        refuse(t, code);
        return code;
    }
    Region region = {handle_of(window), RECT_OF(e), FALSE, 0};
    in_thread_of(t, window, validate_it, &region);
    answer(t, "ok");
    return 0;
}

void play_validate(Thread *t, const Statement *s) {
    const Signed e[4] = {SIGNED(1), SIGNED(2), SIGNED(3), SIGNED(4)};
    int code = validate(t, VALUE(0), e);
    set_result(t, !code, (Number)code);
}

Number validate_all(Thread *t, Number window, Number *err) {
    const Signed e[4] = {0, 0, 4096, 4096};
    *err = (Number)validate(t, window, e);
    return 0;
}

/* The call `update_rect`; gives the kind, or 0 where it was refused. */
static int update_rect(Thread *t, Number window, Number *err) {
    begin_call(t, "update_rect %" PRIu64, window);
    int code = refusal(t, window, FALSE);
    *err = (Number)code;
    if (code) {
        refuse(t, code);
        return 0;
    }
    Region region = {.handle = handle_of(window)};
    in_thread_of(t, window, look_at_it, &region);
    answer(t, "update %d %ld %ld %ld %ld", region.kind, region.box.left, region.box.top, region.box.right, region.box.bottom);
    return region.kind;
}

void play_update_rect(Thread *t, const Statement *s) {
    Number err;
    int kind = update_rect(t, VALUE(0), &err);
    set_result(t, (Number)kind, err);
}

void play_update_window(Thread *t, const Statement *s) {
    Number window = VALUE(0), err, unused;
    int kind = update_rect(t, window, &err);
    if (!err && kind != NULLREGION && live_window(window)->thread == t) {
        Doing doing = {.kind = DOING_COMPOUND, .compound = COMPOUND_UPDATE, .outer = t->doing, .handle = handle_of(window), .window = window};
        t->doing = &doing;
        RedrawWindow(doing.handle, NULL, NULL, RDW_UPDATENOW | RDW_NOCHILDREN);
        t->doing = doing.outer;
    } else if (!err && kind != NULLREGION) {
        send_part(t, window, WM_PAINT, 0, 0, &unused);
    }
    set_result(t, !err, err);
}

static int session_refusal(const Thread *t, Number window, BOOL wanted) {
    const Window *w = live_window(window);
    return w && w->painting != wanted ? ERROR_INVALID_PARAMETER : refusal(t, window, TRUE);
}

void play_begin_paint(Thread *t, const Statement *s) {
    Number window = VALUE(0);
    begin_call(t, "begin_paint %" PRIu64, window);
    int code = session_refusal(t, window, FALSE);
    if (code) {
        refuse(t, code);
        set_result(t, 0, (Number)code);
        return;
    }
    /* What was to be painted is known only from the call itself, which erases first: the entry is filled in then. */
    Doing doing = {.kind = DOING_COMPOUND, .compound = COMPOUND_PAINT, .outer = t->doing, .handle = handle_of(window), .window = window};
    PAINTSTRUCT paint = {0};
    Region region = {.handle = doing.handle};
    in_thread_of(t, window, look_at_it, &region);
    live_window(window)->painting = TRUE;
    Entry *entry = answer(t, "painting 1 %ld %ld %ld %ld", region.box.left, region.box.top, region.box.right, region.box.bottom);
    t->doing = &doing;
    BeginPaint(doing.handle, &paint);
    /* Windows tried to erase before, and was put off until now. */
    if (paint.fErase && !doing.erased)
        SendMessageA(doing.handle, WM_ERASEBKGND, (WPARAM)paint.hdc, 0);
    t->doing = doing.outer;
    change_answer(entry, "painting %d %ld %ld %ld %ld", doing.erased, paint.rcPaint.left, paint.rcPaint.top, paint.rcPaint.right,
                  paint.rcPaint.bottom);
    if (live_window(window))
        live_window(window)->paint = paint;
    set_result(t, 1, 0);
}

void play_end_paint(Thread *t, const Statement *s) {
    Number window = VALUE(0);
    begin_call(t, "end_paint %" PRIu64, window);
    int code = session_refusal(t, window, TRUE);
    if (code) {
        refuse(t, code);
    } else {
        Window *w = live_window(window);
        if (w->paint.hdc)
            EndPaint(w->handle, &w->paint);
        w->painting = FALSE;
        memset(&w->paint, 0, sizeof w->paint);
        answer(t, "ok");
    }
    set_result(t, !code, (Number)code);
}

static void paint_box(const Window *w, const RECT *box, HBRUSH brush) {
    HDC own = w->erasing ? w->erasing : w->paint.hdc;
    HDC dc = own ? own : GetDC(w->handle);
    FillRect(dc, box, brush);
    GdiFlush();
    if (!own)
        ReleaseDC(w->handle, dc);
}

void play_fill(Thread *t, const Statement *s) {
    Number window = VALUE(0), colour = VALUE(5);
    const Signed e[4] = {SIGNED(1), SIGNED(2), SIGNED(3), SIGNED(4)};
    begin_call(t, "fill %" PRIu64 " " EDGES " %" PRIu64, window, e[0], e[1], e[2], e[3], colour);
    int code = bad_rectangle(e) || colour > 15 ? ERROR_INVALID_PARAMETER : refusal(t, window, TRUE);
    if (code) {
        refuse(t, code);
    } else {
        RECT box = RECT_OF(e);
        HBRUSH brush = CreateSolidBrush(palette[colour]);
        paint_box(live_window(window), &box, brush);
        DeleteObject(brush);
        answer(t, "ok");
    }
    set_result(t, !code, (Number)code);
}

Number erase(Thread *t, Number window, Number *err) {
    begin_call(t, "erase %" PRIu64, window);
    int code = refusal(t, window, TRUE);
    *err = (Number)code;
    if (code) {
        refuse(t, code);
        return 1;
    }
    RECT box;
    GetClientRect(handle_of(window), &box);
    paint_box(live_window(window), &box, (HBRUSH)GetClassLongPtrA(handle_of(window), GCLP_HBRBACKGROUND));
    answer(t, "ok");
    return 1;
}

/* ---- frames ---- */

static void flush(void *unused) {
    (void)unused;
    GdiFlush();
}

static char digit_of(uint32_t pixel) {
    for (int k = 0; k < 16; k++)
        if (RGB(pixel >> 16 & 255, pixel >> 8 & 255, pixel & 255) == palette[k])
            return "0123456789abcdef"[k];
    return '0'; /* of the desktop, which isn't the script's */
}

static HWND shown[MAX_WINDOWS];
static int shown_count;

static BOOL CALLBACK note_shown(HWND handle, LPARAM unused) {
    (void)unused;
    if (number_of(handle) && IsWindowVisible(handle) && shown_count < MAX_WINDOWS)
        shown[shown_count++] = handle;
    return TRUE;
}

/* Copies each top-level window of the script, from the lowest to the highest: what a window shows stands in its own
 * surface, and the screen may lag behind. */
static void copy_windows(HDC to) {
    shown_count = 0;
    EnumWindows(note_shown, 0);
    while (shown_count--) {
        RECT box;
        HDC from = GetWindowDC(shown[shown_count]);
        GetWindowRect(shown[shown_count], &box);
        BitBlt(to, box.left, box.top, box.right - box.left, box.bottom - box.top, from, 0, 0, SRCCOPY);
        ReleaseDC(shown[shown_count], from);
    }
}

static char *read_rows(void) {
    int width = script.width, height = script.height;
    BITMAPINFO form = {.bmiHeader = {sizeof form.bmiHeader, width, -height, 1, 32, BI_RGB, 0, 0, 0, 0, 0}};
    void *pixels = NULL;
    HDC screen = GetDC(NULL), memory = CreateCompatibleDC(screen);
    HBITMAP bitmap = CreateDIBSection(memory, &form, DIB_RGB_COLORS, &pixels, NULL, 0);
    HGDIOBJ before = SelectObject(memory, bitmap);
    copy_windows(memory);
    GdiFlush();
    char *rows = malloc((size_t)(width + 1) * (size_t)height + 1), *at = rows;
    for (int y = 0; y < height; y++) {
        for (int x = 0; x < width; x++)
            *at++ = digit_of(((const uint32_t *)pixels)[y * width + x]);
        *at++ = '\n';
    }
    *at = 0;
    SelectObject(memory, before);
    DeleteObject(bitmap);
    DeleteDC(memory);
    ReleaseDC(NULL, screen);
    return rows;
}

void play_snap(Thread *t, const Statement *s) {
    static int frames;
    (void)s;
    begin_call(t, "snap");
    if (frames == 256) {
        refuse(t, REFUSED_FULL);
        set_result(t, 0, REFUSED_FULL);
        return;
    }
    for (int k = 1; k <= script.thread_count; k++)
        if (threads[k].state != STATE_ENDED)
            do_in(t, &threads[k], flush, NULL);
    char *rows = read_rows();
    answer(t, "snap %d", ++frames)->rows = rows;
    set_result(t, 1, 0);
}
