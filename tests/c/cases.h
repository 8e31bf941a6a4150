/*
 * The cases, by topic. Each compares every byte of all that was lent. A comment at a case says which exchange of
 * arguments, between declaration and library, it would show.
 */
#ifndef CASES_H
#define CASES_H

void look_cases(void);
void cut_cases(void);
void trace_cases(void);
void trace_length_cases(void);
void format_cases(void);
void login_cases(void);
void take_cases(void);
void table_cases(void);
void waiting_cases(void);
void task_cases(void);
void transfer_cases(void);
void move_cases(void);
void turn_cases(void);
void search_cases(void);
void highest_cases(void);
void fewest_cases(void);
void boundary_cases(void);
void finish_cases(void);
void credit_cases(void);
void list_cases(void);
void any_words_cases(void);
void words_cases(void);
void no_memory_cases(void);
void readme_lines(void); /* README.md's lines for C */
void points(void);       /* P1 to P10 of document 01 */
void exchange(void);     /* from login to logout */

#endif
