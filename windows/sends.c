/* Sends of all kinds, replies, and the procedures that run for them.
 *
 * Windows doesn't tell which send a window procedure is called for. It is told here by the window, the number and
 * the parameters, in the order in which the sends were begun. */
#include "runner.h"

#include <stdlib.h>

static Send **sends;       /* all of the run; number k stands at k - 1 */
static size_t send_count, send_room;
static Send *waiting[MAX_SENDS_OPEN * 2]; /* to other threads, not entered, by their beginning */
static int waiting_count;
static UINT registered[MAX_NAMES];
static Number registered_by_name[MAX_NAMES];
static int registered_count;
static char pointed_at[4096]; /* what the lParam of WM_CREATE points at, where a script sends it to another thread */

/* ---- messages ---- */

UINT real_message(Number message) {
    if (message >= FIRST_REGISTERED && message - FIRST_REGISTERED < (Number)registered_count)
        return registered[message - FIRST_REGISTERED];
    return (UINT)message;
}

Number shown_message(UINT message) {
    for (int k = 0; k < registered_count; k++)
        if (registered[k] == message)
            return FIRST_REGISTERED + (Number)k;
    return message;
}

void play_message(Thread *t, const Statement *s) {
    char name[64];
    begin_call(t, "message %s", NAME(0));
    snprintf(name, sizeof name, "script message %s", NAME(0));
    UINT real = RegisterWindowMessageA(name);
    if (!registered_by_name[s->operands[0].value]) {
        registered[registered_count] = real;
        registered_by_name[s->operands[0].value] = FIRST_REGISTERED + (Number)registered_count++;
    }
    Number shown = shown_message(real);
    answer(t, "value %" PRIu64, shown);
    set_result(t, shown, 0);
}

/* ---- the list ---- */

static Send *add_send(Thread *t, SendKind kind, const Number fields[4]) {
    if (send_count == send_room) {
        send_room = send_room ? 2 * send_room : 256;
        sends = realloc(sends, send_room * sizeof *sends);
    }
    Send *added = calloc(1, sizeof *added);
    added->number = send_count + 1;
    added->from = t;
    added->kind = kind;
    added->window = fields[0];
    added->message = fields[1];
    added->wp = fields[2];
    added->lp = fields[3];
    sends[send_count++] = added;
    return added;
}

static Send *add_inside(Thread *t, SendKind kind, const Number fields[4]) {
    Send *added = add_send(t, kind, fields);
    added->to = t;
    added->inside = added->entered = TRUE;
    return added;
}

static Send *add_across(Thread *t, SendKind kind, const Number fields[4]) {
    Send *added = add_send(t, kind, fields);
    added->to = live_window(fields[0])->thread;
    added->callback_waits = kind == SEND_CALLBACK;
    if (waiting_count < MAX_SENDS_OPEN * 2)
        waiting[waiting_count++] = added;
    return added;
}

static void wait_no_more(const Send *send) {
    int kept = 0;
    for (int k = 0; k < waiting_count; k++)
        if (waiting[k] != send)
            waiting[kept++] = waiting[k];
    waiting_count = kept;
}

static void give_answer(Send *send, Cause cause) {
    if (send->cause)
        return;
    send->cause = cause;
    if (!send->entered)
        wait_no_more(send);
    if (send->callback_waits)
        send->from->callbacks++;
}

static BOOL is_open(const Send *send) {
    return !send->cause || send->frames || send->callback_waits;
}

SendCount count_sends(void) {
    SendCount count = {0};
    for (size_t k = 0; k < send_count; k++) {
        count.begun++;
        count.entered += sends[k]->entered;
        count.causes[sends[k]->cause]++;
        count.open += is_open(sends[k]);
    }
    return count;
}

void lose_sends_to(Number window) {
    for (int k = 0; k < waiting_count;) {
        if (waiting[k]->window == window)
            give_answer(waiting[k], CAUSE_LOSS);
        else
            k++;
    }
}

void forget_callbacks(Thread *t) {
    for (size_t k = 0; k < send_count; k++)
        if (sends[k]->from == t)
            sends[k]->callback_waits = FALSE;
}

BOOL has_sends(const Thread *t) {
    for (int k = 0; k < waiting_count; k++)
        if (waiting[k]->to == t)
            return TRUE;
    return t->callbacks > 0;
}

BOOL has_reason_to_return(const Thread *t) {
    if (!t->awaited)
        return FALSE;
    if (t->awaited->cause)
        return TRUE;
    if (t->awaited->blocks || t->depth >= MAX_DEPTH)
        return FALSE;
    return has_sends(t);
}

BOOL waits_for_time(const Thread *t, Number *deadline) {
    if (!t->awaited || t->awaited->kind != SEND_TIMED || t->awaited->endless)
        return FALSE;
    *deadline = t->awaited->deadline;
    return TRUE;
}

double real_end_of_timeouts(void) {
    double end = 0;
    for (int k = 1; k <= script.thread_count; k++) {
        const Send *awaited = threads[k].awaited;
        if (awaited && awaited->kind == SEND_TIMED && awaited->deadline <= virtual_clock && awaited->real_deadline > end)
            end = awaited->real_deadline;
    }
    return end;
}

/* ---- procedures ---- */

/* Runs a procedure as a frame, and leaves it. */
static Number run_frame(Thread *t, int procedure, Frame frame, Send *send) {
    Number value = 0, err;
    frame.outer = t->frame;
    t->frame = &frame;
    t->depth++;
    if (send)
        send->frames++;
    if (!play_procedure(t, procedure, &value) && !frame.callback) {
        Doing nothing = {.kind = DOING_NOTHING, .outer = t->doing};
        t->doing = &nothing;
        value = default_procedure(t, &err);
        t->doing = nothing.outer;
    }
    t->frame = frame.outer;
    begin_call(t, "leave %" PRIu64, value);
    t->depth--;
    if (send) {
        send->frames--;
        give_answer(send, CAUSE_PROC);
    }
    char room[24];
    if (send && send->inside && send->kind == SEND_CALLBACK)
        answer(t, "callback %" PRIu64 " %s %" PRIu64 " %s %" PRIu64 " %" PRIu64, send->number,
               script.procedures[send->procedure].name, send->window, message_text(send->message, room), send->extra, value);
    else
        answer(t, "left %" PRIu64, send ? send->number : 0);
    return value;
}

static LRESULT run_send(Thread *t, Send *send) {
    Frame frame = {send->window, send->message, send->wp, send->lp, FALSE, NULL};
    send->result = run_frame(t, procedure_of(send->window), frame, send);
    return (LRESULT)send->result;
}

static void answer_inside(Thread *t, const Send *send) {
    answer(t, "inside %" PRIu64 " %s", send->number, script.procedures[procedure_of(send->window)].name);
}

LRESULT run_direct(Thread *t, Doing *doing) {
    const Number fields[4] = {doing->window, doing->shown[0], doing->shown[1], doing->shown[2]};
    if (!doing->send) {
        Frame frame = {fields[0], fields[1], fields[2], fields[3], FALSE, NULL};
        answer(t, "called %s", script.procedures[procedure_of(doing->window)].name);
        doing->result = run_frame(t, procedure_of(doing->window), frame, NULL);
        return (LRESULT)doing->result;
    }
    answer_inside(t, doing->send);
    doing->result = (Number)run_send(t, doing->send);
    return (LRESULT)doing->result;
}

LRESULT send_made(Thread *t, Number window, Number message, Number wp, Number lp) {
    const Number fields[4] = {window, message, wp, lp};
    char room[24];
    begin_call(t, "send %" PRIu64 " %s %" PRIu64 " %" PRIu64, window, message_text(message, room), wp, lp);
    Send *send = add_inside(t, SEND_PLAIN, fields);
    answer_inside(t, send);
    return run_send(t, send);
}

static BOOL carries_pointer(Number message) {
    return message == WM_CREATE || message == WM_NCCREATE;
}

Send *find_send(const Thread *t, Number window, UINT message, WPARAM wp, LPARAM lp) {
    for (int k = 0; k < waiting_count; k++) {
        Send *send = waiting[k];
        if (send->to == t && send->window == window && real_message(send->message) == message &&
            (carries_pointer(send->message) || ((WPARAM)send->wp == wp && (LPARAM)send->lp == lp)))
            return send;
    }
    return NULL;
}

LRESULT enter_send(Thread *t, Send *send) {
    Doing *doing = t->doing;
    char room[24];
    begin_call(t, "%s", doing->call);
    send->entered = TRUE;
    wait_no_more(send);
    answer(t, "enter %" PRIu64 " %s %" PRIu64 " %s %" PRIu64 " %" PRIu64, send->number,
           script.procedures[procedure_of(send->window)].name, send->window, message_text(send->message, room), send->wp, send->lp);
    Send *before = t->serving;
    t->serving = send;
    LRESULT result = run_send(t, send);
    t->serving = before;
    if (doing->kind == DOING_SEND)
        wait_again(t);
    return result;
}

static void CALLBACK told(HWND handle, UINT message, ULONG_PTR data, LRESULT result) {
    Thread *t = current_thread();
    Send *send = (Send *)data;
    Doing *doing = t->doing;
    char room[24];
    (void)handle, (void)message;
    if (!send->inside) {
        begin_call(t, "%s", doing->call);
        t->callbacks--;
        send->callback_waits = FALSE;
        answer(t, "callback %" PRIu64 " %s %" PRIu64 " %s %" PRIu64 " %" PRIu64, send->number,
               script.procedures[send->procedure].name, send->window, message_text(send->message, room), send->extra,
               (Number)result);
    }
    Frame frame = {send->window, send->message, send->extra, (Number)result, TRUE, NULL};
    run_frame(t, send->procedure, frame, NULL);
    if (doing->kind == DOING_SEND)
        wait_again(t);
}

/* ---- compounds that reach another thread's window ---- */

static BOOL belongs_to(const Doing *doing, UINT message) {
    switch (doing->compound) {
    case COMPOUND_FOCUS: return message == WM_SETFOCUS || message == WM_KILLFOCUS;
    case COMPOUND_ACTIVE: return message == WM_ACTIVATE;
    case COMPOUND_CAPTURE: return message == WM_CAPTURECHANGED;
    default: return FALSE;
    }
}

Send *find_foreign(Thread *t, Number window, UINT message, WPARAM wp, LPARAM lp) {
    for (int k = 1; k <= script.thread_count; k++) {
        Thread *from = &threads[k];
        Doing *doing = from->doing;
        if (from == t || from->state != STATE_SENDS || doing->kind != DOING_COMPOUND || !doing->blocked || doing->send ||
            !belongs_to(doing, message) || from->entries >= script.budget)
            continue;
        BOOL of_focus = doing->compound == COMPOUND_FOCUS;
        const Number fields[4] = {window, message, of_focus ? number_of((HWND)wp) : wp, of_focus ? 0 : number_of((HWND)lp)};
        char room[24];
        take_turn(t);
        snprintf(from->call, sizeof from->call, "send %" PRIu64 " %s %" PRIu64 " %" PRIu64, window, message_text(message, room),
                 fields[2], fields[3]);
        Send *send = add_across(from, SEND_PLAIN, fields);
        char *begun = text_of("begun %" PRIu64, send->number);
        add_entry(from->number, from->call, begun);
        free(begun);
        from->entries++;
        from->depth++;
        from->wait = WAIT_NONE;
        from->awaited = doing->send = send;
        send->frames++;
        return send;
    }
    return NULL;
}

void finish_foreign(Thread *t, Doing *doing) {
    if (!doing->blocked)
        return;
    Send *send = doing->send;
    doing->send = NULL;
    doing->blocked = FALSE;
    if (send) {
        begin_call(t, "await %" PRIu64, send->number);
        t->depth--;
        send->frames--;
        answer(t, "done %" PRIu64 " proc", send->result);
    }
    t->awaited = doing->before;
}

/* ---- making a send ---- */

typedef struct {
    SendKind kind;
    Number fields[4];
    Number flags, milliseconds;
    int procedure;
    Number extra;
} Order;

static int send_refusal(const Thread *t, const Order *order) {
    const Window *w = live_window(order->fields[0]);
    Number open = 0;
    if (order->fields[1] > 65535 || order->flags > 1 || order->milliseconds > UINT32_MAX)
        return ERROR_INVALID_PARAMETER;
    if (!w)
        return ERROR_INVALID_WINDOW_HANDLE;
    if (t->depth >= MAX_DEPTH && (w->thread == t || order->kind == SEND_PLAIN || order->kind == SEND_TIMED))
        return ERROR_STACK_OVERFLOW;
    for (size_t k = send_count > 4096 ? send_count - 4096 : 0; k < send_count; k++)
        open += is_open(sends[k]);
    return open >= MAX_SENDS_OPEN ? REFUSED_FULL : 0;
}

/* A time-out of Windows for one of the virtual clock: later ones end later. */
static void set_deadlines(Send *send, Number milliseconds) {
    double wanted = real_now() + 0.2 + 0.02 * (double)(milliseconds < 1000 ? milliseconds : 1000) +
                    (milliseconds > 1000 ? (double)(milliseconds - 1000) / 1000 : 0);
    send->deadline = virtual_clock + milliseconds;
    for (int k = 1; k <= script.thread_count; k++) {
        const Send *other = threads[k].awaited;
        if (other && other->kind == SEND_TIMED && other->deadline <= send->deadline && wanted < other->real_deadline + 0.04)
            wanted = other->real_deadline + 0.04;
    }
    send->real_deadline = wanted;
}

static LRESULT make_call(const Order *order, Send *send, LPARAM lp) {
    HWND handle = handle_of(order->fields[0]);
    UINT message = real_message(order->fields[1]);
    WPARAM wp = (WPARAM)order->fields[2];
    DWORD_PTR result = 0;
    SetLastError(0);
    switch (order->kind) {
    case SEND_PLAIN:
        return SendMessageA(handle, message, wp, lp);
    case SEND_TIMED: {
        double left = (send->real_deadline - real_now()) * 1000;
        UINT real = !order->milliseconds ? 0 : send->inside || left < 1 ? 1 : left > INT32_MAX ? INT32_MAX : (UINT)left;
        /* Windows gives 0 where the time is over, or the send was lost. */
        LRESULT done = SendMessageTimeoutA(handle, message, wp, lp, (UINT)order->flags, real, &result);
        if (!done && GetLastError() == ERROR_TIMEOUT)
            send->timed_out = TRUE;
        return (LRESULT)result;
    }
    case SEND_NOTIFY:
        return SendNotifyMessageA(handle, message, wp, lp);
    default:
        return SendMessageCallbackA(handle, message, wp, lp, told, (ULONG_PTR)send);
    }
}

static void send_inside(Thread *t, const Order *order, Number *result, Number *err) {
    Send *send = add_inside(t, order->kind, order->fields);
    Doing doing = {.kind = DOING_DIRECT, .outer = t->doing, .handle = handle_of(order->fields[0]), .window = order->fields[0],
                   .message = real_message(order->fields[1]), .wp = (WPARAM)order->fields[2], .lp = (LPARAM)order->fields[3],
                   .shown = {order->fields[1], order->fields[2], order->fields[3]}, .send = send};
    send->procedure = order->procedure;
    send->extra = order->extra;
    t->doing = &doing;
    make_call(order, send, (LPARAM)order->fields[3]);
    DWORD error = GetLastError();
    t->doing = doing.outer;
    if (!doing.met) {
        send_count--;
        refuse(t, (int)error);
        *result = 0, *err = error;
        return;
    }
    *result = order->kind == SEND_CALLBACK ? 1 : doing.result;
    *err = 0;
}

static const char *const cause_names[] = {"loss", "proc", "reply", "loss", "timeout"};

static void send_and_wait(Thread *t, const Order *order, Number *result, Number *err) {
    char call[40];
    Send *before = t->awaited, *send = add_across(t, order->kind, order->fields);
    snprintf(call, sizeof call, "await %" PRIu64, send->number);
    Doing doing = {.kind = DOING_SEND, .outer = t->doing, .send = send, .call = call};
    send->blocks = order->kind == SEND_TIMED && order->flags;
    send->frames++;
    t->depth++;
    if (order->kind == SEND_TIMED)
        set_deadlines(send, order->milliseconds);
    t->awaited = send;
    answer(t, "begun %" PRIu64, send->number);
    t->doing = &doing;
    leave_for_send(t);
    Number value = (Number)make_call(order, send, carries_pointer(order->fields[1]) ? (LPARAM)pointed_at : (LPARAM)order->fields[3]);
    t->doing = doing.outer;
    begin_call(t, "%s", call);
    if (!send->cause)
        give_answer(send, send->timed_out ? CAUSE_TIMEOUT : CAUSE_LOSS);
    Cause cause = send->timed_out ? CAUSE_TIMEOUT : send->cause;
    t->awaited = before;
    t->depth--;
    send->frames--;
    answer(t, "done %" PRIu64 " %s", value, cause_names[cause]);
    *result = value;
    *err = cause == CAUSE_TIMEOUT ? ERROR_TIMEOUT : cause == CAUSE_LOSS ? ERROR_INVALID_WINDOW_HANDLE : 0;
}

static void send_and_go_on(Thread *t, const Order *order, Number *result, Number *err) {
    Send *send = add_across(t, order->kind, order->fields);
    send->procedure = order->procedure;
    send->extra = order->extra;
    BOOL done = (BOOL)make_call(order, send, (LPARAM)order->fields[3]);
    *result = done;
    *err = done ? 0 : GetLastError();
    if (done) {
        answer(t, "begun %" PRIu64, send->number);
    } else {
        wait_no_more(send);
        send_count--;
        refuse(t, (int)*err);
    }
}

/* Makes the send whose call has been begun; FALSE where it was refused. */
static BOOL perform(Thread *t, const Order *order, Number *result, Number *err) {
    int code = send_refusal(t, order);
    if (code) {
        refuse(t, code);
        *result = 0, *err = (Number)code;
        return FALSE;
    }
    if (live_window(order->fields[0])->thread == t)
        send_inside(t, order, result, err);
    else if (order->kind == SEND_PLAIN || order->kind == SEND_TIMED)
        send_and_wait(t, order, result, err);
    else
        send_and_go_on(t, order, result, err);
    return TRUE;
}

#define FIELDS "%" PRIu64 " %s %" PRIu64 " %" PRIu64
#define FIELDS_OF(order) (order).fields[0], message_text((order).fields[1], room), (order).fields[2], (order).fields[3]

BOOL send_part(Thread *t, Number window, Number message, Number wp, Number lp, Number *result) {
    Order order = {.kind = SEND_PLAIN, .fields = {window, message, wp, lp}};
    char room[24];
    Number err;
    begin_call(t, "send " FIELDS, FIELDS_OF(order));
    return perform(t, &order, result, &err);
}

void play_send(Thread *t, const Statement *s) {
    Order order = {.kind = SEND_PLAIN, .fields = {VALUE(0), VALUE(1), VALUE(2), VALUE(3)}};
    char room[24];
    Number result, err;
    begin_call(t, "send " FIELDS, FIELDS_OF(order));
    perform(t, &order, &result, &err);
    set_result(t, result, err);
}

void play_send_timeout(Thread *t, const Statement *s) {
    Order order = {.kind = SEND_TIMED, .fields = {VALUE(0), VALUE(1), VALUE(2), VALUE(3)}, .flags = VALUE(4), .milliseconds = VALUE(5)};
    char room[24];
    Number result, err;
    begin_call(t, "send_timeout " FIELDS " %" PRIu64 " %" PRIu64, FIELDS_OF(order), order.flags, order.milliseconds);
    perform(t, &order, &result, &err);
    set_result(t, result, err);
}

void play_send_notify(Thread *t, const Statement *s) {
    Order order = {.kind = SEND_NOTIFY, .fields = {VALUE(0), VALUE(1), VALUE(2), VALUE(3)}};
    char room[24];
    Number result, err;
    begin_call(t, "send_notify " FIELDS, FIELDS_OF(order));
    perform(t, &order, &result, &err);
    set_result(t, result, err);
}

void play_send_callback(Thread *t, const Statement *s) {
    Order order = {.kind = SEND_CALLBACK, .fields = {VALUE(0), VALUE(1), VALUE(2), VALUE(3)},
                   .procedure = (int)s->operands[4].value, .extra = VALUE(5)};
    char room[24];
    Number result, err;
    begin_call(t, "send_callback " FIELDS " %s %" PRIu64, FIELDS_OF(order), script.procedures[order.procedure].name, order.extra);
    perform(t, &order, &result, &err);
    set_result(t, result, err);
}

void play_notify_all(Thread *t, const Statement *s) {
    Number message = VALUE(0), wp = VALUE(1), lp = VALUE(2);
    for (Number at = next_top(t, 0); at; at = next_top(t, at)) {
        Order order = {.kind = SEND_NOTIFY, .fields = {at, message, wp, lp}};
        char room[24];
        Number result, err;
        begin_call(t, "send_notify " FIELDS, FIELDS_OF(order));
        perform(t, &order, &result, &err);
    }
    set_result(t, 1, 0);
}

void play_reply(Thread *t, const Statement *s) {
    Number value = VALUE(0);
    begin_call(t, "reply %" PRIu64, value);
    BOOL done = ReplyMessage((LRESULT)value);
    if (done && t->serving)
        give_answer(t->serving, CAUSE_REPLY);
    answer(t, "value %d", done ? 1 : 0);
    set_result(t, done ? 1 : 0, 0);
}

void play_in_send(Thread *t, const Statement *s) {
    (void)s;
    begin_call(t, "in_send");
    DWORD kind = InSendMessageEx(NULL);
    answer(t, "value %lu", kind);
    set_result(t, kind, 0);
}
