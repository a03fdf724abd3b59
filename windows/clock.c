/* The virtual clock and timers.
 *
 * The clock goes on where nobody can move. A timer of Windows is set with the longest period until its time has come
 * on the virtual clock, and then with the shortest; its WM_TIMER is Windows' own, in its place among the messages. */
#include "runner.h"

typedef struct {
    Thread *thread;
    Number window, id, base, period, place;
    BOOL armed, live;
} Timer;

static Timer timers[4096];
static int timer_slots;

double real_now(void) {
    static double per_second;
    LARGE_INTEGER at;
    if (per_second == 0) {
        QueryPerformanceFrequency(&at);
        per_second = (double)at.QuadPart;
    }
    QueryPerformanceCounter(&at);
    return (double)at.QuadPart / per_second;
}

static Timer *find_timer(Number window, Number id) {
    for (int k = 0; k < timer_slots; k++)
        if (timers[k].live && timers[k].window == window && timers[k].id == id)
            return &timers[k];
    return NULL;
}

static Timer *next_due(const Thread *t) {
    Timer *first = NULL;
    for (int k = 0; k < timer_slots; k++) {
        Timer *timer = &timers[k];
        if (!timer->live || timer->armed || timer->thread != t || timer->base + timer->period > virtual_clock)
            continue;
        if (!first || timer->base + timer->period < first->base + first->period ||
            (timer->base + timer->period == first->base + first->period && timer->place < first->place))
            first = timer;
    }
    return first;
}

/* Lets the timers that are due go off: the one that was due first before the others. */
void arm_timers(Thread *t) {
    BOOL any = FALSE;
    for (Timer *timer = next_due(t); timer; timer = next_due(t)) {
        SetTimer(handle_of(timer->window), (UINT_PTR)timer->id, USER_TIMER_MINIMUM, NULL);
        timer->armed = any = TRUE;
        Sleep(3);
    }
    if (any)
        Sleep(25);
}

void timer_taken(Thread *t, Number window, Number id) {
    Timer *timer = find_timer(window, id);
    (void)t;
    if (!timer)
        return;
    SetTimer(handle_of(window), (UINT_PTR)id, USER_TIMER_MAXIMUM, NULL);
    timer->armed = FALSE;
    timer->base = virtual_clock;
    timer->place = entry_count();
}

void drop_timers_of(Number window) {
    for (int k = 0; k < timer_slots; k++)
        if (timers[k].live && timers[k].window == window) {
            timers[k].live = FALSE;
            timers[k].thread->timer_count--;
        }
}

Number soonest_timer(const Thread *t) {
    Number soonest = MINUS_ONE;
    BOOL all = !t->wait_least && !t->wait_greatest;
    if ((!all && (t->wait_least > WM_TIMER || t->wait_greatest < WM_TIMER)) || t->wait_window == MINUS_ONE)
        return soonest;
    for (int k = 0; k < timer_slots; k++) {
        const Timer *timer = &timers[k];
        if (!timer->live || timer->thread != t)
            continue;
        if (t->wait_window && t->wait_window != timer->window && !IsChild(handle_of(t->wait_window), handle_of(timer->window)))
            continue;
        if (timer->base + timer->period < soonest)
            soonest = timer->base + timer->period;
    }
    return soonest;
}

static Timer *new_timer(void) {
    for (int k = 0; k < timer_slots; k++)
        if (!timers[k].live)
            return &timers[k];
    return timer_slots < 4096 ? &timers[timer_slots++] : NULL;
}

void play_set_timer(Thread *t, const Statement *s) {
    Number window = VALUE(0), id = VALUE(1), period = VALUE(2);
    begin_call(t, "set_timer %" PRIu64 " %" PRIu64 " %" PRIu64, window, id, period);
    int code = refusal(t, window, TRUE);
    Timer *timer = find_timer(window, id);
    if (!code && !timer && t->timer_count >= MAX_TIMERS)
        code = REFUSED_FULL;
    if (!code && !SetTimer(handle_of(window), (UINT_PTR)id, USER_TIMER_MAXIMUM, NULL))
        code = (int)GetLastError();
    if (!code && !timer) {
        timer = new_timer();
        if (!timer)
            cannot_play(t, "more timers than the runner counts");
        t->timer_count++;
    }
    if (code) {
        refuse(t, code);
    } else {
        Number bounded = period < USER_TIMER_MINIMUM ? USER_TIMER_MINIMUM : period > USER_TIMER_MAXIMUM ? USER_TIMER_MAXIMUM : period;
        *timer = (Timer){t, window, id, virtual_clock, bounded, entry_count(), FALSE, TRUE};
        answer(t, "ok");
    }
    set_result(t, !code, (Number)code);
}

void play_kill_timer(Thread *t, const Statement *s) {
    Number window = VALUE(0), id = VALUE(1);
    begin_call(t, "kill_timer %" PRIu64 " %" PRIu64, window, id);
    int code = refusal(t, window, FALSE);
    /* Without a timer 87 comes before 5. */
    if (!code && !find_timer(window, id) && live_window(window)->thread != t)
        code = ERROR_INVALID_PARAMETER;
    else if (!code)
        code = refusal(t, window, TRUE);
    SetLastError(0);
    if (!code && !KillTimer(handle_of(window), (UINT_PTR)id))
        code = ERROR_INVALID_PARAMETER;
    if (code) {
        refuse(t, code);
    } else {
        Timer *timer = find_timer(window, id);
        if (timer) {
            timer->live = FALSE;
            t->timer_count--;
        }
        answer(t, "ok");
    }
    set_result(t, !code, (Number)code);
}

void play_clock(Thread *t, const Statement *s) {
    (void)s;
    begin_call(t, "clock");
    Number now = virtual_clock;
    answer(t, "value %" PRIu64, now);
    set_result(t, now, 0);
}

/* Sleep: the thread serves nobody until the clock has the time. */
void play_sleep(Thread *t, const Statement *s) {
    Number milliseconds = VALUE(0);
    begin_call(t, "clock");
    Number now = virtual_clock, end = now > MINUS_ONE - milliseconds ? MINUS_ONE : now + milliseconds;
    answer(t, "value %" PRIu64, now);
    for (;;) {
        begin_call(t, "sleep_until %" PRIu64, end);
        if (end - virtual_clock > UINT32_MAX && end > virtual_clock) {
            refuse(t, ERROR_INVALID_PARAMETER);
            set_result(t, 0, ERROR_INVALID_PARAMETER);
            return;
        }
        if (end <= virtual_clock) {
            answer(t, "ok");
            set_result(t, 1, 0);
            return;
        }
        if (t->wait == WAIT_SLEEP) {
            look_in_vain(t);
        } else {
            t->wait_time = end;
            wait_on(t, WAIT_SLEEP);
        }
    }
}

void play_yield(Thread *t, const Statement *s) {
    (void)s;
    begin_call(t, "yield");
    answer(t, "ok");
    set_result(t, 1, 0);
}
