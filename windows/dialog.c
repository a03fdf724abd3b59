/* Loops of messages. A dialog is played by its parts: the loop and its result are the runner's, what it disables,
 * retrieves and dispatches is Windows'. DialogBox itself makes a window of its own, which a script has no word for. */
#include "runner.h"

void play_pump(Thread *t, const Statement *s) {
    (void)s;
    while (get_for_loop(t))
        dispatch_in_loop(t);
    set_result(t, t->variables[VAR_GWP], 0);
}

/* 87 where the dialog on a live window runs, or doesn't; then the refusals of an own window. */
static int dialog_refusal(const Thread *t, Number window, BOOL wanted) {
    const Window *w = live_window(window);
    return w && (w->dialog != 0) != wanted ? ERROR_INVALID_PARAMETER : refusal(t, window, TRUE);
}

static int end_dialog(Thread *t, Number window, Number result) {
    begin_call(t, "end_dialog %" PRIu64 " %" PRIu64, window, result);
    int code = dialog_refusal(t, window, TRUE);
    if (code) {
        refuse(t, code);
        return code;
    }
    live_window(window)->dialog = 2;
    live_window(window)->dialog_result = result;
    answer(t, "ok");
    return 0;
}

void play_end_dialog(Thread *t, const Statement *s) {
    int code = end_dialog(t, VALUE(0), VALUE(1));
    set_result(t, !code, (Number)code);
}

/* The loop; gives the result. */
static Number run_dialog(Thread *t, Number window) {
    for (;;) {
        begin_call(t, "dialog_state %" PRIu64, window);
        Window *w = live_window(window);
        if (!w) {
            answer(t, "gone");
            return 0;
        }
        if (w->dialog == 2) {
            w->dialog = 0;
            answer(t, "result %" PRIu64, w->dialog_result);
            return w->dialog_result;
        }
        answer(t, "running");
        if (get_for_loop(t)) {
            dispatch_in_loop(t);
        } else {
            post_quit(t, t->variables[VAR_GWP]);
            end_dialog(t, window, 0);
        }
    }
}

void play_dialog(Thread *t, const Statement *s) {
    Number window = VALUE(0), err;
    begin_call(t, "begin_dialog %" PRIu64, window);
    int code = dialog_refusal(t, window, FALSE);
    if (code) {
        refuse(t, code);
        set_result(t, 0, (Number)code);
        return;
    }
    Number owner = number_of(GetWindow(handle_of(window), GW_OWNER));
    live_window(window)->dialog = 1;
    answer(t, "window %" PRIu64, owner);
    BOOL disabled = owner && !enable(t, owner, 0, &err);
    Number result = run_dialog(t, window);
    if (disabled)
        enable(t, owner, 1, &err);
    set_result(t, result, 0);
}
