/* Plays a script of this repository on a real Win32 and writes its history as a log.
 *
 * Each script thread is a real thread with real windows and a real queue. One of them moves at a time: who has
 * the turn makes one call of the script's language by real calls of user32, and the entry of the log is what
 * these answered. windows/README.md tells what is translated and mapped on the way.
 */
#ifndef RUNNER_H
#define RUNNER_H

#define __USE_MINGW_ANSI_STDIO 1
#define WIN32_LEAN_AND_MEAN
#ifndef _WIN32_WINNT
#define _WIN32_WINNT 0x0601
#endif
#include <windows.h>
#include <inttypes.h>
#include <stdint.h>
#include <stdio.h>

typedef uint64_t Number;
typedef int64_t Signed;

#define MINUS_ONE UINT64_MAX

enum {
    MAX_THREADS = 15,
    MAX_PROCEDURES = 64,
    MAX_NAMES = 1024,
    MAX_WINDOWS = 1024,
    MAX_CLASSES = 64,
    MAX_DEPTH = 64,
    MAX_POSTS = 10000,
    MAX_TIMERS = 256,
    MAX_SENDS_OPEN = 1024,
    MAX_OPERANDS = 9,
    FIRST_WINDOW = 16,
    FIRST_REGISTERED = 49152,
    CALL_TEXT = 400,
};

/* Refusals of the machine that are no number of Windows: what `err` is after them. */
enum { REFUSED_FULL = 60000, REFUSED_NO_TARGET = 60002 };

/* ---- script.c: the text and its tree ---- */

typedef enum { OPERAND_NUMBER, OPERAND_VARIABLE, OPERAND_NAME, OPERAND_PROCEDURE } OperandKind;

typedef struct {
    OperandKind kind;
    Number value; /* the number, or which variable, name or procedure */
} Operand;

/* Variables in the order of their places; those from VAR_HWND on belong to the innermost procedure. */
enum { VAR_R = 8, VAR_ERR, VAR_GHWND, VAR_GMSG, VAR_GWP, VAR_GLP, VAR_GTIME, VAR_HWND, VAR_MSG, VAR_WP, VAR_LP };
enum { OWN_VARIABLES = VAR_HWND };

struct Thread;
struct Statement;
typedef void (*Player)(struct Thread *, const struct Statement *);

typedef enum { KIND_CALL, KIND_LET, KIND_IF, KIND_ELSE, KIND_WHILE, KIND_RETURN, KIND_END } StatementKind;

typedef struct Statement {
    StatementKind kind;
    Player play; /* of KIND_CALL */
    const char *word;
    Operand operands[MAX_OPERANDS];
    int operand_count;
    char sign;                /* of `let` and of tests: + - & | = ! <, or 0 */
    int line;
    size_t else_at, end_at;   /* of blocks: places in the list of statements */
} Statement;

typedef struct {
    char name[33];
    size_t first; /* the place of its first statement */
} Procedure;

typedef struct {
    int width, height;
    Number budget;
    int *order;
    size_t order_count;
    Procedure procedures[MAX_PROCEDURES];
    int procedure_count;
    size_t threads[MAX_THREADS]; /* the place of each thread's first statement */
    int thread_count;
    Statement *statements;
    size_t statement_count;
    char (*names)[33];
    int name_count;
} Script;

extern Script script;

/* Reads the script; ends the process with `refused LINE REASON` where it is none, or can't be played here. */
void read_script(char *text);
/* The name of a message, or its number in decimal; the text stands in `room`. */
const char *message_text(Number message, char room[24]);

/* ---- history.c: the log ---- */

typedef struct {
    int who;
    char *call, *answer;
    char *rows; /* of a frame, or NULL */
} Entry;

char *text_of(const char *format, ...) __attribute__((format(gnu_printf, 1, 2)));
Entry *add_entry(int who, const char *call, const char *answer);
void change_answer(Entry *entry, const char *format, ...) __attribute__((format(gnu_printf, 2, 3)));
size_t entry_count(void);
void write_log(const char *end);

/* ---- threads and turns: turns.c ---- */

typedef enum { STATE_WANTS, STATE_MOVES, STATE_SENDS, STATE_ENDED } State;

/* What a thread does in Win32 just now: it decides what a message at the window procedure is. */
typedef enum {
    DOING_NOTHING,   /* a body of the script runs: nothing comes but by a call */
    DOING_DIRECT,    /* a send to an own window, or a dispatch: one message, called at once */
    DOING_RETRIEVAL, /* PeekMessage: sends of others */
    DOING_SEND,      /* waits in SendMessage: sends of others */
    DOING_COMPOUND,  /* a call like DestroyWindow: the messages that belong to it */
    DOING_SYSTEM,    /* what comes isn't written */
} DoingKind;

typedef enum {
    COMPOUND_CREATE, COMPOUND_DESTROY, COMPOUND_SHOW, COMPOUND_ENABLE, COMPOUND_PLACE, COMPOUND_FOCUS,
    COMPOUND_ACTIVE, COMPOUND_CAPTURE, COMPOUND_PAINT, COMPOUND_UPDATE,
} Compound;

typedef struct Doing {
    DoingKind kind;
    Compound compound;
    struct Doing *outer;
    HWND handle;              /* of the window that it is about */
    Number window;
    UINT message;             /* of DOING_DIRECT */
    WPARAM wp;
    LPARAM lp;
    Number shown[3];          /* message, wParam and lParam as the script has them */
    BOOL met;                 /* whether the direct message has come */
    Number result;            /* of its procedure */
    struct Send *send;        /* of DOING_DIRECT and DOING_SEND; NULL for a dispatch */
    BOOL gone;                /* of a destruction: a window was told WM_NCDESTROY and isn't dropped yet */
    Number last;              /* that window */
    BOOL erased;              /* of BeginPaint: WM_ERASEBKGND came */
    BOOL blocked;             /* of a compound: it waits for another thread inside of Windows */
    struct Send *before;      /* what the thread awaited before */
    BOOL created, refused;    /* of a creation: WM_CREATE came; a procedure has refused the window */
    const char *call;         /* of DOING_RETRIEVAL and DOING_SEND: the call that waits */
} Doing;

typedef struct Frame {
    Number hwnd, msg, wp, lp;
    BOOL callback;
    struct Frame *outer;
} Frame;

typedef struct Post {
    Number number, window, message, wp, lp, time;
    int x, y;
    struct Post *next;
} Post;

typedef enum { WAIT_NONE, WAIT_GET, WAIT_SEND, WAIT_SLEEP, WAIT_TITLE } WaitKind;

typedef struct Thread {
    int number;
    DWORD id;
    HANDLE handle;
    HWND helper;              /* a message-only window: probes and jobs */
    State state;
    CONDITION_VARIABLE change;
    BOOL fresh;               /* has the turn, and has made no entry in it */
    BOOL idle;                /* looked in vain since the last entry of anybody */
    BOOL looked_and_found;    /* a look past the budget: something is there */
    BOOL given_up;            /* was waited for in vain in SendMessage */
    BOOL in_transit;          /* has begun a send, and the probe hasn't told yet that it waits */
    WaitKind wait;            /* the last entry answered `wait` */
    Number wait_window, wait_least, wait_greatest, wait_time;
    Number entries;
    int depth;
    int line;
    char call[CALL_TEXT];     /* the call that it makes or made last */
    Number variables[OWN_VARIABLES];
    Frame *frame;
    Doing *doing;
    MSG got;                  /* the last message got, as Windows gave it */
    Post *posts;
    BOOL quit;
    void (*job)(void *);
    void *job_data;
    struct Send *awaited;     /* the send whose answer it waits for, innermost */
    struct Send *serving;     /* the send of another thread that it serves, innermost */
    int hold;                 /* keeps the turn, since Windows shows the steps between to nobody */
    int probes;               /* of the scheduler, that it hasn't served: they don't count as sends */
    int callbacks;            /* results of SendMessageCallback that it hasn't been told */
    int timer_count;
} Thread;

extern Thread threads[MAX_THREADS + 1];
extern Number virtual_clock;
extern int cursor_x, cursor_y;

Thread *current_thread(void);
void start_threads(void (*body)(Thread *));
int schedule(double seconds);
/* Waits until the thread has a turn in which it has made no entry. */
void take_turn(Thread *t);
/* Gives the turn back without an entry: the look was in vain. */
void look_in_vain(Thread *t);
/* take_turn, and the text of the call that is made in it. */
void begin_call(Thread *t, const char *format, ...) __attribute__((format(gnu_printf, 2, 3)));
/* The entry of the call. */
Entry *answer(Thread *t, const char *format, ...) __attribute__((format(gnu_printf, 2, 3)));
void refuse(Thread *t, int code);
void wait_on(Thread *t, WaitKind kind);
/* Before and after SendMessage to another thread. */
void leave_for_send(Thread *t);
void back_from_send(Thread *t);
/* A procedure was left inside of SendMessage: the thread waits there again. */
void wait_again(Thread *t);
void end_of_thread(Thread *t);
/* Does something in the thread of a window, without a turn of its own. */
BOOL do_in(Thread *t, Thread *owner, void (*job)(void *), void *data);
/* Ends the process: the script does what can't be played. */
void cannot_play(Thread *t, const char *reason) __attribute__((noreturn));
Number soonest_timer(const Thread *t);

/* ---- play.c: bodies and values ---- */

Number value_of(const Thread *t, const Operand *operand);
#define VALUE(k) value_of(t, &s->operands[k])
#define SIGNED(k) ((Signed)value_of(t, &s->operands[k]))
#define NAME(k) (script.names[s->operands[k].value])
void set_result(Thread *t, Number r, Number err);
void play_thread(Thread *t);
/* Runs a procedure; gives the value of its `return`, or FALSE where it came to its end. */
BOOL play_procedure(Thread *t, int procedure, Number *value);
Player player_of(const char *word, const char **operands);
Number default_procedure(Thread *t, Number *err);

/* ---- sends.c ---- */

typedef enum { SEND_PLAIN, SEND_TIMED, SEND_NOTIFY, SEND_CALLBACK } SendKind;
typedef enum { CAUSE_NONE, CAUSE_PROC, CAUSE_REPLY, CAUSE_LOSS, CAUSE_TIMEOUT } Cause;

typedef struct Send {
    Number number;
    Thread *from, *to;
    Number window, message, wp, lp;
    SendKind kind;
    BOOL blocks;
    Number deadline;          /* of SEND_TIMED, on the virtual clock */
    double real_deadline;
    BOOL inside, entered, callback_waits, timed_out;
    BOOL endless;             /* its time is over, and Windows doesn't come back */
    Cause cause;
    int frames;
    int procedure;
    Number extra, result;
} Send;

typedef struct { Number begun, entered, causes[5], open; } SendCount;

SendCount count_sends(void);
/* Whether Windows has a reason to come back to a thread that waits in SendMessage. */
BOOL has_reason_to_return(const Thread *t);
BOOL waits_for_time(const Thread *t, Number *deadline);
double real_end_of_timeouts(void);
/* The oldest send to this window, of these fields, that wasn't entered. */
Send *find_send(const Thread *t, Number window, UINT message, WPARAM wp, LPARAM lp);
LRESULT enter_send(Thread *t, Send *send);
/* A message called at once: sends to own windows and dispatches. */
LRESULT run_direct(Thread *t, Doing *doing);
/* `send W M P Q` as a part of a compound; FALSE where it was refused. */
BOOL send_part(Thread *t, Number window, Number message, Number wp, Number lp, Number *result);
/* A message of a compound that Windows has sent to an own window. */
LRESULT send_made(Thread *t, Number window, Number message, Number wp, Number lp);
void lose_sends_to(Number window);
/* Whether sends of others or results of callbacks are there for a thread. */
BOOL has_sends(const Thread *t);
/* A compound's send to another thread's window is over: its `await` is written. */
void finish_foreign(Thread *t, Doing *doing);
/* A message that another thread's compound has sent: its beginning is written, and it is entered. */
Send *find_foreign(Thread *t, Number window, UINT message, WPARAM wp, LPARAM lp);
void forget_callbacks(Thread *t);
UINT real_message(Number message);
Number shown_message(UINT message);
void play_send(Thread *t, const Statement *s);
void play_send_timeout(Thread *t, const Statement *s);
void play_send_notify(Thread *t, const Statement *s);
void play_send_callback(Thread *t, const Statement *s);
void play_reply(Thread *t, const Statement *s);
void play_in_send(Thread *t, const Statement *s);
void play_message(Thread *t, const Statement *s);
void play_notify_all(Thread *t, const Statement *s);

/* ---- windows.c ---- */

typedef struct {
    HWND handle;
    Thread *thread;
    int class_place;
    int title;
    Number parent, owner;
    BOOL live, marked, top;
    BOOL painting;            /* BeginPaint without EndPaint */
    HDC erasing;              /* what WM_ERASEBKGND of BeginPaint brought */
    PAINTSTRUCT paint;
    int dialog;               /* 0 none, 1 runs, 2 has a result */
    Number dialog_result;
} Window;

extern Window windows[MAX_WINDOWS];
extern int window_count;

/* The window of this number where it is live, else NULL. */
Window *live_window(Number number);
/* The handle for Windows: of a window that isn't live one that never is. */
HWND handle_of(Number number);
Number number_of(HWND handle);
int procedure_of(Number window);
LRESULT CALLBACK window_procedure(HWND handle, UINT message, WPARAM wp, LPARAM lp);
/* 0, 1400 or 5: the refusals 'window' and 'own window'. */
int refusal(const Thread *t, Number window, BOOL own);
BOOL bad_rectangle(const Signed edges[4]);
/* Writes `drop` for a window that Windows has taken away. */
void drop_where_gone(Thread *t, Doing *doing);
void drop_windows_of(Thread *t);
Number destroy(Thread *t, Number window, Number *err);
void play_register(Thread *t, const Statement *s);
void play_unregister(Thread *t, const Statement *s);
void play_create(Thread *t, const Statement *s);
void play_destroy(Thread *t, const Statement *s);
void play_is_window(Thread *t, const Statement *s);
void play_parent(Thread *t, const Statement *s);
void play_next_top(Thread *t, const Statement *s);
void play_find(Thread *t, const Statement *s);
void play_await_title(Thread *t, const Statement *s);
void play_window_at(Thread *t, const Statement *s);
Number next_top(Thread *t, Number above);

/* ---- places.c: showing, enabling, moving ---- */

Number enable(Thread *t, Number window, Number on, Number *err);
void play_show_window(Thread *t, const Statement *s);
void play_enable_window(Thread *t, const Statement *s);
void play_set_window_pos(Thread *t, const Statement *s);

/* ---- focus.c ---- */

Number set_focus(Thread *t, Number window, Number *err);
Number release_capture(Thread *t);
void play_set_focus(Thread *t, const Statement *s);
void play_set_active(Thread *t, const Statement *s);
void play_set_capture(Thread *t, const Statement *s);
void play_release_capture(Thread *t, const Statement *s);
void play_get_focus(Thread *t, const Statement *s);
void play_get_active(Thread *t, const Statement *s);
void play_get_capture(Thread *t, const Statement *s);
void detach_all(const Thread *t);
void play_attach(Thread *t, const Statement *s);
void play_detach(Thread *t, const Statement *s);

/* ---- retrieval.c ---- */

void drop_posts_to(Number window);
void play_get(Thread *t, const Statement *s);
void play_peek(Thread *t, const Statement *s);
void play_status(Thread *t, const Statement *s);
void play_dispatch(Thread *t, const Statement *s);
void play_translate(Thread *t, const Statement *s);
void play_post(Thread *t, const Statement *s);
void play_post_thread(Thread *t, const Statement *s);
void play_post_quit(Thread *t, const Statement *s);
void play_post_all(Thread *t, const Statement *s);
/* The call `get 0 0 0` of a loop; FALSE where it was WM_QUIT. */
BOOL get_for_loop(Thread *t);
void dispatch_in_loop(Thread *t);
void post_quit(Thread *t, Number code);

/* ---- dialog.c ---- */

void play_pump(Thread *t, const Statement *s);
void play_dialog(Thread *t, const Statement *s);
void play_end_dialog(Thread *t, const Statement *s);

/* ---- paint.c ---- */

extern const COLORREF palette[16];
Number validate_all(Thread *t, Number window, Number *err);
Number erase(Thread *t, Number window, Number *err);
void play_invalidate(Thread *t, const Statement *s);
void play_validate(Thread *t, const Statement *s);
void play_update_rect(Thread *t, const Statement *s);
void play_begin_paint(Thread *t, const Statement *s);
void play_end_paint(Thread *t, const Statement *s);
void play_update_window(Thread *t, const Statement *s);
void play_fill(Thread *t, const Statement *s);
void play_snap(Thread *t, const Statement *s);

/* ---- clock.c ---- */

void arm_timers(Thread *t);
void drop_timers_of(Number window);
/* A WM_TIMER was removed: its next period begins. */
void timer_taken(Thread *t, Number window, Number id);
void play_set_timer(Thread *t, const Statement *s);
void play_kill_timer(Thread *t, const Statement *s);
void play_clock(Thread *t, const Statement *s);
void play_sleep(Thread *t, const Statement *s);
void play_yield(Thread *t, const Statement *s);
double real_now(void);

/* ---- input.c ---- */

/* The number of the input that this message is, or 0; it is forgotten where it is removed. */
Number input_of(const MSG *message, BOOL removed, int *x, int *y, Number *time);
void forget_active(const Thread *t);
void clear_input(void);
BOOL script_has(Player player);
void active_was_set(Thread *t, Number window);
void play_mouse(Thread *t, const Statement *s);
void play_key(Thread *t, const Statement *s);
void play_key_state(Thread *t, const Statement *s);

#endif
