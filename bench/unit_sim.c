/* A plain unit simulation of a task table under the two-phase ordering: what dpverdict's time is compared with.
 *
 * It reads a table text (a header, then C,D,T,P1,P2,S of one task to a line) on standard input, plays the schedule
 * unit by unit for one hyperperiod or up to the first miss, and prints the two lines that dpverdict prints for a
 * table that holds or misses. It trusts its input beyond the simplest checks: it is a yardstick, not a second
 * program for the same use.
 */
#include <stdint.h>
#include <stdio.h>
#include <stdlib.h>

enum { MAX_TASKS = 32 };

struct task {
    uint32_t c, d, t, p1, p2, s;
    uint32_t age, left;
};

static uint64_t gcd(uint64_t a, uint64_t b)
{
    while (b != 0) {
        uint64_t r = a % b;
        a = b;
        b = r;
    }
    return a;
}

/* The next number of the text, with one byte behind it; quotes around it are passed over. */
static int number(uint32_t *value)
{
    int byte = getchar();
    if (byte == '"')
        byte = getchar();
    if (byte < '0' || byte > '9')
        return 0;
    uint32_t v = 0;
    while (byte >= '0' && byte <= '9') {
        v = v * 10 + (uint32_t)(byte - '0');
        byte = getchar();
    }
    if (byte == '"')
        byte = getchar();
    if (byte == '\r')
        getchar();
    *value = v;
    return 1;
}

static int read_table(struct task *tasks)
{
    int byte, n = 0;
    while ((byte = getchar()) != '\n')
        if (byte == EOF)
            return 0;
    while (n < MAX_TASKS) {
        struct task x = {0};
        if (!number(&x.c))
            break;
        if (!number(&x.d) || !number(&x.t) || !number(&x.p1) || !number(&x.p2) || !number(&x.s)) {
            fprintf(stderr, "unit_sim: a line is not six numbers\n");
            exit(2);
        }
        x.left = x.c;
        tasks[n++] = x;
    }
    return n;
}

/* Plays the schedule from instant 0 on. Answers the instant of the first miss, with its task, or 0. */
static uint64_t first_miss(struct task *tasks, int n, uint64_t hyperperiod, int *missed)
{
    for (uint64_t instant = 1; instant <= hyperperiod; instant++) {
        int best = -1;
        uint32_t best_number = UINT32_MAX;
        for (int i = 0; i < n; i++) {
            const struct task *x = &tasks[i];
            uint32_t number = x->age < x->s ? x->p1 : x->p2;
            if (x->left > 0 && number < best_number) {
                best = i;
                best_number = number;
            }
        }
        if (best >= 0)
            tasks[best].left--;

        for (int i = 0; i < n; i++) {
            struct task *x = &tasks[i];
            x->age++;
            if (x->age == x->d && x->left > 0) {
                *missed = i;
                return instant;
            }
            if (x->age == x->t) {
                x->age = 0;
                x->left = x->c;
            }
        }
    }
    return 0;
}

int main(void)
{
    struct task tasks[MAX_TASKS];
    int n = read_table(tasks);

    uint64_t hyperperiod = 1;
    for (int i = 0; i < n; i++) {
        if (tasks[i].t == 0) {
            fprintf(stderr, "unit_sim: a period is 0\n");
            return 2;
        }
        hyperperiod = hyperperiod / gcd(hyperperiod, tasks[i].t) * tasks[i].t;
    }

    int missed = 0;
    uint64_t instant = first_miss(tasks, n, hyperperiod, &missed);

    printf("answer,task,instant,hyperperiod,refusal,record,field\r\n");
    if (instant == 0)
        printf("holds,,,%llu,,,\r\n", (unsigned long long)hyperperiod);
    else
        printf("miss,%d,%llu,%llu,,,\r\n", missed, (unsigned long long)instant, (unsigned long long)hyperperiod);
    return 0;
}
