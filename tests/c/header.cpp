// The header in C++: it compiles, and each of its functions links and answers.
#include "srp_target.h"

#include <cstdio>
#include <cstring>

static unsigned calls, failed;

static void check(const char *name, bool right) {
    calls++;
    if (!right) {
        failed++;
        std::printf("FAILED %s in C++\n", name);
    }
}

// An SRP_CMD without data, and one segment 1000h/100 with handle 7.
static void stateless() {
    const uint8_t msg[48] = {0x02};
    const uint8_t list[16] = {0, 0, 0, 0, 0, 0, 0x10, 0, 0, 0, 0, 7, 0, 0, 0, 100};
    const char line[] = "> CMD          0000000000000000 0000000000000000                                \n";
    uint8_t buf[SRP_ANSWER_BYTES] = {1}, page[SRP_TRACE_BYTES];
    uint64_t counts[SRP_ANSWER_WORDS];
    check("srp_look", srp_look(msg, sizeof msg, 64, 0, buf, sizeof buf) == 0 && buf[0] == 0);
    check("srp_cut",
          srp_cut(list, sizeof list, 512, 4096, 60, 10, buf, sizeof buf) == 0 && buf[7] == 10 && buf[15] == 50);
    check("srp_trace",
          srp_trace(msg, sizeof msg, 0, page, sizeof page) == 0 && std::memcmp(page, line, sizeof page) == 0);
    check("srp_format_counts", srp_format_counts(SRP_FORMAT_BIT_DIRECT, counts) == 0 && counts[0] == 4 &&
                                   counts[1] == 224 && counts[2] == 28);
}

static uint64_t port[SRP_PORT_WORDS], answer[SRP_ANSWER_WORDS], records[SRP_LIST_WORDS];
static uint8_t store[SRP_STORE_BYTES], buf[SRP_MESSAGE_BYTES];

// A login of 64 bytes that requests 68 and format 2, for the target identifier 0; N 2.
static void login() {
    const uint32_t settings[SRP_SETTINGS] = {2, 512, 68, 1, 0};
    const uint8_t own[16] = {};
    uint8_t msg[64] = {};
    msg[19] = 68;
    msg[25] = SRP_FORMAT_BIT_INDIRECT;
    check("srp_target_words", srp_target_words() == SRP_PORT_WORDS);
    check("srp_target_login",
          srp_target_login(port, settings, SRP_GREATEST_BOUNDARY, own, msg, sizeof msg, buf, sizeof buf, answer) == 0 &&
              answer[0] == 52 && answer[1] == 0 && buf[0] == 0xc0 && buf[7] == 2);
}

// Data-in of 100 bytes at 1000h, handle 7, by a table of one entry at 9000h; tag 9.
static void command() {
    const uint8_t table[16] = {0, 0, 0, 0, 0, 0, 0x10, 0, 0, 0, 0, 7, 0, 0, 0, 100};
    uint8_t msg[68] = {0x02, 0, 0, 0, 0, 0x02};
    msg[15] = 9;
    msg[54] = 0x90;
    msg[63] = 16;
    msg[67] = 100;
    check("srp_target_take", srp_target_take(port, store, msg, sizeof msg, buf, sizeof buf, answer) == 0 &&
                                 answer[1] == SRP_KIND_COMMAND && answer[2] == 9 && answer[6] == 1);
    check("srp_target_tables", srp_target_tables(port, store, 9, nullptr, 0, table, sizeof table, buf, sizeof buf,
                                                 answer) == 0 && answer[0] == 0);
    check("srp_target_plan", srp_target_plan(port, 9, 0, 60) == 0);
    check("srp_target_move", srp_target_move(port, 9, SRP_DIRECTION_IN, 16, 33) == 0);
    check("srp_target_step", srp_target_step(port, store, 9, SRP_DIRECTION_IN, answer) == 0 &&
                                 answer[1] == SRP_RDMA_WRITE && answer[3] == 0x1010 && answer[4] == 33 &&
                                 answer[6] == 1);
    check("srp_target_turn", srp_target_turn(port, store, answer) == 0 && answer[0] == 0 &&
                                 srp_target_move(port, 9, SRP_DIRECTION_IN, 5, 2) == 0 &&
                                 srp_target_turn(port, store, answer) == 0 && answer[1] == SRP_RDMA_WRITE &&
                                 answer[3] == 0x1005 && answer[4] == 2 && answer[6] == 1 && answer[7] == 9);
    check("srp_target_list",
          srp_target_list(port, records, SRP_LIST_WORDS, answer) == 0 && answer[0] == 1 && records[3] == 49);
    check("srp_target_finish",
          srp_target_finish(port, 9, 0, nullptr, 0, buf, sizeof buf, answer) == 0 && answer[0] == 36 && buf[27] == 51);
}

static void credit() {
    check("srp_target_add", srp_target_add(port, 3) == 0);
    check("srp_target_withdraw", srp_target_withdraw(port, 1) == 0);
    check("srp_target_counters", srp_target_counters(port, answer) == 0 && answer[0] == 4 && answer[3] == 2);
    check("srp_target_grant", srp_target_grant(port, buf, sizeof buf, answer) == 0 && answer[0] == 16 && buf[7] == 2);
    check("srp_target_close",
          srp_target_close(port, 1, buf, sizeof buf, answer) == 0 && buf[0] == 0x80 && buf[7] == 1);
}

int main() {
    stateless();
    login();
    command();
    credit();
    std::printf("C++: %u calls, %u failed\n", calls, failed);
    return failed ? 1 : 0;
}
