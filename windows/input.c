/* Mouse and keys, by SendInput. Where a message of input comes from is told by its number, point and key, in the
 * order of the injections. */
#include "runner.h"

int cursor_x, cursor_y;

typedef struct {
    Number message, key, time;
    int x, y;
    BOOL taken;
} Input;

static Input inputs[65536];
static int input_count;
static int foreground; /* the thread that made a window active last */

static const Number mouse_messages[] = {WM_MOUSEMOVE, WM_LBUTTONDOWN, WM_LBUTTONUP, WM_RBUTTONDOWN, WM_RBUTTONUP};

static BOOL is_mouse(Number message) {
    for (int k = 0; k < 5; k++)
        if (mouse_messages[k] == message)
            return TRUE;
    return FALSE;
}

static Number add_input(Number message, Number key) {
    inputs[input_count] = (Input){message, key, virtual_clock, cursor_x, cursor_y, FALSE};
    return (Number)++input_count;
}

static BOOL is_it(const Input *input, const MSG *m) {
    BOOL system = m->message == WM_SYSKEYDOWN || m->message == WM_SYSKEYUP;
    if (is_mouse(input->message))
        return input->message == m->message && m->pt.x == input->x && m->pt.y == input->y;
    return (input->message == m->message || (system && input->message == m->message - (WM_SYSKEYDOWN - WM_KEYDOWN))) &&
           input->key == m->wParam;
}

Number input_of(const MSG *m, BOOL removed, int *x, int *y, Number *time) {
    if (!is_mouse(m->message) && (m->message < WM_KEYFIRST || m->message > WM_KEYLAST))
        return 0;
    for (int k = 0; k < input_count; k++) {
        Input *input = &inputs[k];
        if (input->taken || !is_it(input, m))
            continue;
        /* Of moves that merged, the last one stands for all. */
        while (m->message == WM_MOUSEMOVE && k + 1 < input_count && inputs[k + 1].message == WM_MOUSEMOVE && !inputs[k + 1].taken &&
               is_it(&inputs[k + 1], m))
            inputs[k].taken = TRUE, input = &inputs[++k];
        input->taken = removed;
        *x = input->x;
        *y = input->y;
        *time = input->time;
        return (Number)k + 1;
    }
    return 0;
}

void forget_active(const Thread *t) {
    if (foreground == t->number)
        foreground = 0;
}

BOOL script_has(Player player) {
    for (size_t k = 0; k < script.statement_count; k++)
        if (script.statements[k].play == player)
            return TRUE;
    return FALSE;
}

void active_was_set(Thread *t, Number window) {
    if (!window)
        return;
    foreground = t->number;
    if (script_has(play_key)) {
        Doing quiet = {.kind = DOING_SYSTEM, .outer = t->doing};
        t->doing = &quiet;
        SetForegroundWindow(handle_of(window));
        t->doing = quiet.outer;
    }
}

/* Whether the mouse at this point is meant for a thread of the script. */
static BOOL has_target(int x, int y) {
    GUITHREADINFO info = {.cbSize = sizeof info};
    HWND at = WindowFromPoint((POINT){x, y});
    if (number_of(at))
        return TRUE;
    return foreground && GetGUIThreadInfo(threads[foreground].id, &info) && number_of(info.hwndCapture);
}

static void inject(DWORD flags, int x, int y) {
    INPUT input = {.type = INPUT_MOUSE};
    input.mi.dx = (LONG)(((int64_t)x * 65536 + 32768) / GetSystemMetrics(SM_CXSCREEN));
    input.mi.dy = (LONG)(((int64_t)y * 65536 + 32768) / GetSystemMetrics(SM_CYSCREEN));
    input.mi.dwFlags = flags;
    SendInput(1, &input, sizeof input);
}

static void eat_moves(void *unused) {
    MSG m;
    (void)unused;
    PeekMessageA(&m, NULL, WM_MOUSEMOVE, WM_MOUSEMOVE, PM_REMOVE | PM_QS_INPUT);
}

static BOOL move_is_last(void) {
    return input_count && inputs[input_count - 1].message == WM_MOUSEMOVE && !inputs[input_count - 1].taken;
}

/* A button is injected where the cursor is, so the cursor goes there first; the move that Windows makes of this is
 * taken away again. */
static void bring_cursor(Thread *t, int x, int y) {
    if (move_is_last())
        cannot_play(t, "a button away from a move of the mouse that nobody has taken: Windows would merge the moves");
    inject(MOUSEEVENTF_MOVE | MOUSEEVENTF_ABSOLUTE, x, y);
    for (int k = 1; k <= script.thread_count; k++)
        if (threads[k].state != STATE_ENDED)
            do_in(t, &threads[k], eat_moves, NULL);
}

/* Lets go of all that an earlier program has left down, and puts the cursor away. */
void clear_input(void) {
    for (int key = 1; key < 255; key++) {
        INPUT input = {.type = INPUT_KEYBOARD};
        if (!(GetAsyncKeyState(key) & 0x8000))
            continue;
        if (key == VK_LBUTTON || key == VK_RBUTTON) {
            inject(key == VK_LBUTTON ? MOUSEEVENTF_LEFTUP : MOUSEEVENTF_RIGHTUP, 0, 0);
            continue;
        }
        input.ki.wVk = (WORD)key;
        input.ki.dwFlags = KEYEVENTF_KEYUP;
        SendInput(1, &input, sizeof input);
    }
    SetCursorPos(600, 400);
}

static DWORD flag_of(Number message) {
    switch (message) {
    case WM_LBUTTONDOWN: return MOUSEEVENTF_LEFTDOWN;
    case WM_LBUTTONUP: return MOUSEEVENTF_LEFTUP;
    case WM_RBUTTONDOWN: return MOUSEEVENTF_RIGHTDOWN;
    case WM_RBUTTONUP: return MOUSEEVENTF_RIGHTUP;
    default: return MOUSEEVENTF_MOVE;
    }
}

void play_mouse(Thread *t, const Statement *s) {
    Number message = VALUE(0);
    Signed x = SIGNED(1), y = SIGNED(2);
    char room[24];
    begin_call(t, "mouse %s %" PRId64 " %" PRId64, message_text(message, room), x, y);
    BOOL on = is_mouse(message) && x >= 0 && y >= 0 && x < script.width && y < script.height;
    int code = !on ? ERROR_INVALID_PARAMETER : !has_target((int)x, (int)y) ? REFUSED_NO_TARGET : 0;
    if (!code && input_count >= 65536)
        cannot_play(t, "more input than the runner counts");
    if (code) {
        refuse(t, code);
    } else {
        BOOL away = cursor_x != (int)x || cursor_y != (int)y || !input_count;
        cursor_x = (int)x;
        cursor_y = (int)y;
        if (message == WM_MOUSEMOVE) {
            inject(MOUSEEVENTF_MOVE | MOUSEEVENTF_ABSOLUTE, (int)x, (int)y);
        } else {
            if (away)
                bring_cursor(t, (int)x, (int)y);
            inject(flag_of(message), (int)x, (int)y);
        }
        answer(t, "input %" PRIu64, add_input(message, 0));
    }
    set_result(t, !code, (Number)code);
}

void play_key(Thread *t, const Statement *s) {
    Number down = VALUE(0), key = VALUE(1);
    begin_call(t, "key %" PRIu64 " %" PRIu64, down, key);
    int code = down > 1 || key < 1 || key > 254 ? ERROR_INVALID_PARAMETER
        : !foreground || threads[foreground].state == STATE_ENDED ? REFUSED_NO_TARGET
                                                                   : 0;
    if (!code && input_count >= 65536)
        cannot_play(t, "more input than the runner counts");
    if (code) {
        refuse(t, code);
    } else {
        INPUT input = {.type = INPUT_KEYBOARD};
        input.ki.wVk = (WORD)key;
        input.ki.dwFlags = down ? 0 : KEYEVENTF_KEYUP;
        SendInput(1, &input, sizeof input);
        answer(t, "input %" PRIu64, add_input(down ? WM_KEYDOWN : WM_KEYUP, key));
    }
    set_result(t, !code, (Number)code);
}

void play_key_state(Thread *t, const Statement *s) {
    Number key = VALUE(0);
    begin_call(t, "key_state %" PRIu64, key);
    int code = key < 1 || key > 254 ? ERROR_INVALID_PARAMETER : 0;
    Number down = code || !(GetKeyState((int)key) & 0x8000) ? 0 : 32768;
    if (code)
        refuse(t, code);
    else
        answer(t, "value %" PRIu64, down);
    set_result(t, down, (Number)code);
}
