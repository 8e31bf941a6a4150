/* Task requests, and buffers added, withdrawn and granted. */
#include "decode.h"
#include "events.h"
#include "outside.h"
#include "port.h"
#include "random.h"
#include "tally.h"

/* The commands that a function aborts end. */
static void end_managed(struct channel *c, uint64_t lun, uint8_t function, uint64_t managed)
{
    int whole = function == SRP_TSK_ABORT_TASK_SET || function == SRP_TSK_CLEAR_TASK_SET ||
                function == SRP_TSK_LUN_RESET;
    unsigned i = 0;
    while (i < c->held) {
        struct request *r = &c->commands[i];
        int one = function == SRP_TSK_ABORT_TASK && r->tag == managed;
        if (r->lun != lun || !(whole || one)) {
            i++;
            continue;
        }
        if (is_between(c, r))
            count(ABORTED_BETWEEN);
        if (r->waiting)
            count(ABORTED_WAITING);
        if (has_moves(c, r->tag))
            count(ABORTED_IN_LINE);
        drop(c, r);
    }
}

static uint8_t code_of(uint8_t function)
{
    switch (function) {
    case SRP_TSK_ABORT_TASK:
    case SRP_TSK_ABORT_TASK_SET:
    case SRP_TSK_CLEAR_TASK_SET:
    case SRP_TSK_LUN_RESET:
        return COMPLETE;
    case SRP_TSK_CLEAR_ACA:
        return NOT_SUPPORTED;
    default:
        return FIELDS_INVALID;
    }
}

void manage(struct channel *c)
{
    static const uint8_t functions[8] = {SRP_TSK_ABORT_TASK, SRP_TSK_ABORT_TASK, SRP_TSK_ABORT_TASK,
                                         SRP_TSK_ABORT_TASK_SET, SRP_TSK_CLEAR_TASK_SET, SRP_TSK_LUN_RESET,
                                         SRP_TSK_CLEAR_ACA, 0};
    uint8_t function = one_in(8) ? (uint8_t)any_number() : functions[from_to(0, 7)];
    uint64_t managed = c->held ? c->commands[from_to(0, c->held - 1)].tag : any_number();
    struct response a = {.flags = SRP_RSP_FLAG_RSPVALID, .has_code = 1, .code = code_of(function)};
    struct request r;
    if (c->announced <= 0)
        return;
    any_request(&r, c);
    port.msg_len = build_task(port.msg, &r, function, managed);
    same("SRP_TSK_MGMT", "returned", take_message(), 0);
    answered("SRP_TSK_MGMT", (const uint64_t[SRP_ANSWER_WORDS]){40, SRP_KIND_TASK, r.tag, r.lun});
    kept_from("SRP_TSK_MGMT", 40);
    begin_request(c);
    end_managed(c, r.lun, function, managed);
    a.tag = r.tag;
    a.delta = delta_after(c);
    a.solnt = r.notification & (a.code ? UCSOLNT : SCSOLNT);
    is_rsp("SRP_RSP to a task request", port.buf, port.answer[0], &a);
    count(TASKS);
    count(TASK_ANSWERS);
}

void change_buffers(struct channel *c)
{
    uint32_t k = from_to(1, one_in(4) ? 16 : 3), returned;
    int adding = one_in(2), fits = adding ? c->wanted + k <= 16 : c->wanted > k;
    returned = adding ? srp_target_add(port.words, k) : srp_target_withdraw(port.words, k);
    same(adding ? "add" : "withdraw", "returned", returned, fits ? 0 : SRP_REFUSED_WANTED);
    if (fits)
        c->wanted += adding ? (int64_t)k : -(int64_t)k;
}

void grant_credit(struct channel *c)
{
    uint32_t returned;
    lend();
    returned = srp_target_grant(port.words, port.buf, SRP_MESSAGE_BYTES, port.answer);
    if (c->unanswered || owed(c) <= 0) {
        same("grant", "returned", returned, c->unanswered ? SRP_REFUSED_UNANSWERED : SRP_REFUSED_NOT_OWED);
        kept_from("grant", 0);
        return;
    }
    same("grant", "returned", returned, 0);
    answered("grant", (const uint64_t[SRP_ANSWER_WORDS]){16});
    kept_from("grant", 16);
    is_cred_req(port.buf, port.answer[0], c->crsolnt, delta_after(c));
    c->unanswered = 1;
}

void answer_grant(struct channel *c)
{
    if (!c->unanswered)
        return;
    port.msg_len = build_cred_rsp(port.msg, 1);
    same("SRP_CRED_RSP", "returned", take_message(), 0);
    answered("SRP_CRED_RSP", (const uint64_t[SRP_ANSWER_WORDS]){0, SRP_KIND_CREDIT_RESPONSE});
    kept_from("SRP_CRED_RSP", 0);
    c->unanswered = 0;
    count(CRED_RSPS);
}
