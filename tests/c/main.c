/* Drives every call of the header and compares every byte of all that was lent. */
#include "cases.h"
#include "lent.h"

int main(void)
{
    look_cases();
    cut_cases();
    trace_cases();
    trace_length_cases();
    format_cases();
    login_cases();
    take_cases();
    table_cases();
    waiting_cases();
    task_cases();
    transfer_cases();
    move_cases();
    turn_cases();
    search_cases();
    highest_cases();
    fewest_cases();
    boundary_cases();
    finish_cases();
    credit_cases();
    list_cases();
    any_words_cases();
    words_cases();
    no_memory_cases();
    readme_lines();
    points();
    exchange();
    return tell();
}
