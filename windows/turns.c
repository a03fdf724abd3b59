/* Who moves: one thread at a time has the turn. It is given by the order list of the script and then in turn, as
 * `./user run` does, so most logs are those of `run`.
 *
 * A thread that waits in SendMessage can't be asked; Windows comes back to it when it has a reason: a send to one of
 * its windows, a result of SendMessageCallback, or its answer. The scheduler knows these reasons and waits for the
 * thread (0.4 seconds at most) before anybody else moves, so what Windows does at once is at once in the log too. */
#include "runner.h"

#include <stdarg.h>
#include <stdlib.h>

enum { MESSAGE_PROBE = WM_APP + 1, MESSAGE_JOB };
#define PATIENCE 0.4

Thread threads[MAX_THREADS + 1];
Number virtual_clock;

static SRWLOCK lock = SRWLOCK_INIT;
static CONDITION_VARIABLE turn_back = CONDITION_VARIABLE_INIT;
static Thread *mover;
static DWORD place_of_thread;
static void (*body_of_threads)(Thread *);
static int arrived;
static double end_of_patience;

Thread *current_thread(void) {
    return TlsGetValue(place_of_thread);
}

/* ---- in the threads ---- */

static void wait_for_turn(Thread *t) {
    while (mover != t) {
        if (t->job) {
            void (*job)(void *) = t->job;
            ReleaseSRWLockExclusive(&lock);
            job(t->job_data);
            AcquireSRWLockExclusive(&lock);
            t->job = NULL;
            WakeAllConditionVariable(&t->change);
        } else {
            SleepConditionVariableSRW(&t->change, &lock, INFINITE, 0);
        }
    }
    t->state = STATE_MOVES;
    t->fresh = TRUE;
}

void take_turn(Thread *t) {
    if (t->fresh)
        return;
    AcquireSRWLockExclusive(&lock);
    if (mover == t && t->hold && t->state == STATE_MOVES && !t->idle && t->entries < script.budget) {
        t->fresh = TRUE;
        ReleaseSRWLockExclusive(&lock);
        return;
    }
    if (mover == t && t->state != STATE_WANTS)
        mover = NULL; /* else it was given the turn before it asked */
    t->in_transit = FALSE;
    t->state = STATE_WANTS;
    WakeConditionVariable(&turn_back);
    wait_for_turn(t);
    ReleaseSRWLockExclusive(&lock);
}

static void give_back(Thread *t, State state) {
    AcquireSRWLockExclusive(&lock);
    t->fresh = FALSE;
    t->in_transit = FALSE;
    t->state = state;
    if (mover == t)
        mover = NULL;
    WakeConditionVariable(&turn_back);
    ReleaseSRWLockExclusive(&lock);
}

void look_in_vain(Thread *t) {
    t->idle = TRUE;
    give_back(t, STATE_WANTS);
}

void wait_again(Thread *t) {
    give_back(t, STATE_SENDS);
}

void leave_for_send(Thread *t) {
    AcquireSRWLockExclusive(&lock);
    t->state = STATE_SENDS;
    t->in_transit = TRUE;
    WakeConditionVariable(&turn_back);
    ReleaseSRWLockExclusive(&lock);
}

void end_of_thread(Thread *t) {
    AcquireSRWLockExclusive(&lock);
    t->fresh = FALSE;
    t->state = STATE_ENDED;
    WakeConditionVariable(&turn_back);
    ReleaseSRWLockExclusive(&lock);
}

void begin_call(Thread *t, const char *format, ...) {
    va_list more;
    take_turn(t);
    va_start(more, format);
    vsnprintf(t->call, sizeof t->call, format, more);
    va_end(more);
}

static void everybody_may_look(void) {
    for (int k = 1; k <= script.thread_count; k++)
        threads[k].idle = threads[k].given_up = FALSE;
}

static Entry *enter(Thread *t, const char *text, WaitKind wait) {
    AcquireSRWLockExclusive(&lock);
    Entry *added = add_entry(t->number, t->call, text);
    t->entries++;
    t->fresh = FALSE;
    if (wait == WAIT_NONE)
        everybody_may_look();
    t->wait = wait;
    t->idle = wait != WAIT_NONE;
    ReleaseSRWLockExclusive(&lock);
    return added;
}

Entry *answer(Thread *t, const char *format, ...) {
    char text[CALL_TEXT];
    va_list more;
    va_start(more, format);
    vsnprintf(text, sizeof text, format, more);
    va_end(more);
    return enter(t, text, WAIT_NONE);
}

void refuse(Thread *t, int code) {
    if (code == REFUSED_FULL)
        answer(t, "refused full");
    else if (code == REFUSED_NO_TARGET)
        answer(t, "refused no_target");
    else
        answer(t, "refused %d", code);
}

void wait_on(Thread *t, WaitKind kind) {
    enter(t, "wait", kind);
}

void cannot_play(Thread *t, const char *reason) {
    AcquireSRWLockExclusive(&lock);
    printf("refused %d unplayable\n", t->line);
    fprintf(stderr, "line %d: %s\n", t->line, reason);
    fflush(stdout);
    ExitProcess(3);
}

/* ---- jobs and probes: a message-only window of each thread ---- */

typedef struct {
    void (*job)(void *);
    void *data;
} Job;

static void run_quietly(void *data) {
    Job *wanted = data;
    Thread *t = current_thread();
    Doing quiet = {.kind = DOING_SYSTEM, .outer = t->doing};
    t->doing = &quiet;
    wanted->job(wanted->data);
    t->doing = quiet.outer;
}

static LRESULT CALLBACK helper_procedure(HWND handle, UINT message, WPARAM wp, LPARAM lp) {
    Thread *t = current_thread();
    if (message == MESSAGE_PROBE) {
        t->probes--;
        if (t->in_transit && t->state == STATE_SENDS) {
            give_back(t, STATE_SENDS);
        } else if (t->state == STATE_MOVES && !t->fresh && t->doing->kind == DOING_COMPOUND && !t->doing->blocked) {
            /* SetFocus and its like wait for another thread. */
            t->doing->blocked = TRUE;
            t->doing->before = t->awaited;
            t->awaited = NULL;
            everybody_may_look();
            give_back(t, STATE_SENDS);
        }
        return 0;
    }
    if (message == MESSAGE_JOB) {
        run_quietly((void *)lp);
        return 1;
    }
    return DefWindowProcA(handle, message, wp, lp);
}

BOOL do_in(Thread *t, Thread *owner, void (*job)(void *), void *data) {
    Job wanted = {job, data};
    if (owner == t) {
        run_quietly(&wanted);
        return TRUE;
    }
    if (owner->state == STATE_SENDS) {
        DWORD_PTR done = 0;
        return SendMessageTimeoutA(owner->helper, MESSAGE_JOB, 0, (LPARAM)&wanted, SMTO_NORMAL, 1000, &done) && done;
    }
    AcquireSRWLockExclusive(&lock);
    owner->job = run_quietly;
    owner->job_data = &wanted;
    WakeAllConditionVariable(&owner->change);
    while (owner->job)
        SleepConditionVariableSRW(&owner->change, &lock, INFINITE, 0);
    ReleaseSRWLockExclusive(&lock);
    return TRUE;
}

static DWORD WINAPI thread_main(void *data) {
    Thread *t = data;
    MSG message;
    TlsSetValue(place_of_thread, t);
    PeekMessageA(&message, NULL, 0, 0, PM_NOREMOVE);
    t->helper = CreateWindowExA(0, "script helper", "", 0, 0, 0, 0, 0, HWND_MESSAGE, NULL, GetModuleHandleA(NULL), NULL);
    AcquireSRWLockExclusive(&lock);
    arrived++;
    t->state = STATE_WANTS;
    WakeConditionVariable(&turn_back);
    ReleaseSRWLockExclusive(&lock);
    body_of_threads(t);
    return 0;
}

void start_threads(void (*body)(Thread *)) {
    WNDCLASSA helper = {.lpfnWndProc = helper_procedure, .hInstance = GetModuleHandleA(NULL), .lpszClassName = "script helper"};
    RegisterClassA(&helper);
    place_of_thread = TlsAlloc();
    body_of_threads = body;
    for (int k = 1; k <= script.thread_count; k++) {
        threads[k].number = k;
        InitializeConditionVariable(&threads[k].change);
        threads[k].handle = CreateThread(NULL, 0, thread_main, &threads[k], 0, &threads[k].id);
    }
    AcquireSRWLockExclusive(&lock);
    while (arrived < script.thread_count)
        SleepConditionVariableSRW(&turn_back, &lock, INFINITE, 0);
    ReleaseSRWLockExclusive(&lock);
}

/* ---- the scheduler, on the first thread of the process, with the lock held ---- */

static BOOL out_of_patience(void) {
    return real_now() > end_of_patience;
}

static void wait_a_little(DWORD milliseconds) {
    SleepConditionVariableSRW(&turn_back, &lock, milliseconds, 0);
}

/* The mover has begun a send: the turn is free once it waits in SendMessage. It serves a probe only there. With
 * SMTO_BLOCK it serves none, and 8 milliseconds stand for it. */
static void probe(Thread *t) {
    if (t->awaited && t->awaited->blocks) {
        ReleaseSRWLockExclusive(&lock);
        Sleep(8);
        AcquireSRWLockExclusive(&lock);
        if (mover == t && t->in_transit) {
            t->in_transit = FALSE;
            mover = NULL;
        }
        return;
    }
    t->probes++;
    ReleaseSRWLockExclusive(&lock);
    SendNotifyMessageA(t->helper, MESSAGE_PROBE, 0, 0);
    AcquireSRWLockExclusive(&lock);
    double end = real_now() + 2 * PATIENCE;
    while (mover == t && t->in_transit && real_now() < end)
        wait_a_little(50);
    if (mover == t && t->in_transit) {
        t->in_transit = FALSE;
        mover = NULL;
    }
}

static BOOL wait_for_turn_back(void) {
    while (mover) {
        if (out_of_patience())
            return FALSE;
        if (mover->state == STATE_ENDED) {
            ReleaseSRWLockExclusive(&lock);
            WaitForSingleObject(mover->handle, 2000);
            AcquireSRWLockExclusive(&lock);
            mover = NULL;
        } else if (mover->in_transit) {
            probe(mover);
        } else {
            Thread *t = mover;
            wait_a_little(100);
            if (mover == t && t->state == STATE_MOVES && !t->fresh && !t->in_transit && t->doing->kind == DOING_COMPOUND) {
                t->probes++;
                ReleaseSRWLockExclusive(&lock);
                SendNotifyMessageA(t->helper, MESSAGE_PROBE, 0, 0);
                AcquireSRWLockExclusive(&lock);
            }
        }
    }
    return TRUE;
}

/* Waits for those that Windows must come back to. */
static void wait_for_returns(void) {
    for (int k = 1; k <= script.thread_count; k++) {
        Thread *t = &threads[k];
        double end = real_now() + PATIENCE;
        while (t->state == STATE_SENDS && !t->given_up && has_reason_to_return(t)) {
            wait_a_little(20);
            if (real_now() > end)
                t->given_up = TRUE;
        }
    }
}

/* Waits for the sends whose time is over on the virtual clock: Windows has another clock. */
static void wait_for_timeouts(void) {
    for (int k = 1; k <= script.thread_count; k++) {
        Number deadline;
        double end = real_end_of_timeouts() + 2;
        while (threads[k].state == STATE_SENDS && waits_for_time(&threads[k], &deadline) && deadline <= virtual_clock &&
               real_now() < end && !out_of_patience())
            wait_a_little(20);
        if (threads[k].state == STATE_SENDS && waits_for_time(&threads[k], &deadline) && deadline <= virtual_clock)
            threads[k].awaited->endless = TRUE;
    }
}

/* One entry of a thread, if it can make one now. */
static BOOL move(Thread *t) {
    if (t->state == STATE_ENDED || t->entries >= script.budget || (t->idle && t->wait))
        return FALSE;
    size_t before = entry_count();
    if (t->state == STATE_SENDS) {
        if (t->wait == WAIT_SEND || !t->awaited)
            return FALSE;
        snprintf(t->call, sizeof t->call, "await %" PRIu64, t->awaited->number);
        add_entry(t->number, t->call, "wait");
        t->entries++;
        t->wait = WAIT_SEND;
        t->idle = TRUE;
        return TRUE;
    }
    mover = t;
    WakeAllConditionVariable(&t->change);
    return wait_for_turn_back() && entry_count() > before;
}

static size_t listed;
static int last_mover;

static BOOL step(void) {
    for (size_t k = listed; k < script.order_count; k++) {
        int who = script.order[k];
        wait_for_returns();
        if (who >= 1 && who <= script.thread_count && move(&threads[who])) {
            listed = k + 1;
            last_mover = who;
            return TRUE;
        }
    }
    for (int k = 1; k <= script.thread_count; k++) {
        int who = (last_mover + k - 1) % script.thread_count + 1;
        wait_for_returns();
        if (move(&threads[who])) {
            listed = script.order_count;
            last_mover = who;
            return TRUE;
        }
    }
    return FALSE;
}

/* Whether a thread that has used its budget could go on. */
static BOOL is_busy(Thread *t) {
    if (t->state == STATE_ENDED)
        return FALSE;
    if (t->wait == WAIT_NONE)
        return TRUE;
    if (t->wait == WAIT_SLEEP)
        return t->wait_time <= virtual_clock;
    if (t->state == STATE_SENDS || t->wait == WAIT_SEND)
        return t->state != STATE_SENDS || has_reason_to_return(t);
    if (t->state == STATE_WANTS && !t->idle) {
        mover = t;
        WakeAllConditionVariable(&t->change);
        wait_for_turn_back();
        return t->looked_and_found;
    }
    return !t->idle;
}

static BOOL advance(void) {
    Number soonest = MINUS_ONE, deadline;
    BOOL found = FALSE;
    for (int k = 1; k <= script.thread_count; k++) {
        Thread *t = &threads[k];
        Number due = MINUS_ONE;
        BOOL has = TRUE;
        if (t->state == STATE_ENDED)
            continue;
        if (t->wait == WAIT_SLEEP)
            due = t->wait_time;
        else if (t->wait == WAIT_SEND && waits_for_time(t, &deadline))
            due = deadline;
        else if (t->wait == WAIT_GET)
            has = (due = soonest_timer(t)) != MINUS_ONE;
        else
            has = FALSE;
        if (has && due <= soonest)
            soonest = due, found = TRUE;
    }
    if (!found)
        return FALSE;
    virtual_clock = soonest;
    char *told = text_of("advanced %" PRIu64, virtual_clock);
    add_entry(0, "advance", told);
    free(told);
    everybody_may_look();
    wait_for_timeouts();
    return TRUE;
}

/* Whether a thread waits inside of SetFocus or its like for messages that another one has to take: some aren't written,
 * so that nobody seems to move. */
static BOOL is_blocked(void) {
    for (int k = 1; k <= script.thread_count; k++)
        if (threads[k].state == STATE_SENDS && threads[k].doing->blocked && !threads[k].doing->send)
            return TRUE;
    return FALSE;
}

int schedule(double seconds) {
    double moved = real_now();
    end_of_patience = real_now() + seconds;
    AcquireSRWLockExclusive(&lock);
    for (;;) {
        int live = 0, busy = 0;
        if (wait_for_turn_back() && step()) {
            moved = real_now();
            continue;
        }
        if (is_blocked() && real_now() < moved + 4 * PATIENCE && !out_of_patience()) {
            wait_a_little(10);
            everybody_may_look();
            continue;
        }
        if (out_of_patience()) {
            write_log("cut");
            fprintf(stderr, "the limit of %g seconds is over\n", seconds);
            return 5;
        }
        for (int k = 1; k <= script.thread_count; k++) {
            live += threads[k].state != STATE_ENDED;
            BOOL is = is_busy(&threads[k]);
            busy += is;
            threads[k].idle = !is;
        }
        if (live && !busy && advance())
            continue;
        if (live && !busy)
            add_entry(0, "advance", "stuck");
        write_log(!live ? "done" : busy ? "spent" : "stuck");
        return 0;
    }
}
