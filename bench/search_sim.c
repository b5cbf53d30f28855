/* A plain search for promotion times over fixed priorities, by unit simulation: what the time of search_bench is compared
 * with.
 *
 * It reads a table text (a header, then C,D,T,P1,P2,S of one task to a line) on standard input. It sets every S to D, plays
 * the schedule for one hyperperiod or up to the first miss, lowers the S of the task that missed by one, and so on until no
 * task misses or the S is 0. A job from age S on goes by P2 and before all others, which go by P1. All this is done 300
 * times. It trusts its input beyond the simplest checks: it is a yardstick, not a second program for the same use.
 */
#include <stdint.h>
#include <stdio.h>
#include <stdlib.h>

enum { MAX_TASKS = 32 };

struct task {
    uint32_t c, d, t, p1, p2, s;
    uint32_t age, left;
};

static uint64_t gcd(uint64_t a, uint64_t b)
{
    while (b != 0) {
        uint64_t r = a % b;
        a = b;
        b = r;
    }
    return a;
}

/* The next number of the text, with one byte behind it; quotes around it are passed over. */
static int number(uint32_t *value)
{
    int byte = getchar();
    if (byte == '"')
        byte = getchar();
    if (byte < '0' || byte > '9')
        return 0;
    uint32_t v = 0;
    while (byte >= '0' && byte <= '9') {
        v = v * 10 + (uint32_t)(byte - '0');
        byte = getchar();
    }
    if (byte == '"')
        byte = getchar();
    if (byte == '\r')
        getchar();
    *value = v;
    return 1;
}

static int read_table(struct task *tasks)
{
    int byte, n = 0;
    while ((byte = getchar()) != '\n')
        if (byte == EOF)
            return 0;
    while (n < MAX_TASKS) {
        struct task x = {0};
        if (!number(&x.c))
            break;
        if (!number(&x.d) || !number(&x.t) || !number(&x.p1) || !number(&x.p2) || !number(&x.s)) {
            fprintf(stderr, "search_sim: a line is not six numbers\n");
            exit(2);
        }
        tasks[n++] = x;
    }
    return n;
}

enum { TIMES = 300 };

/* Plays the schedule from instant 0 on. Answers the instant of the first miss, with its task, or 0. */
static uint64_t first_miss(struct task *tasks, int n, uint64_t hyperperiod, int *missed)
{
    for (int i = 0; i < n; i++) {
        tasks[i].age = 0;
        tasks[i].left = tasks[i].c;
    }
    for (uint64_t instant = 1; instant <= hyperperiod; instant++) {
        int best = -1;
        uint32_t best_number = UINT32_MAX;
        for (int i = 0; i < n; i++) {
            const struct task *x = &tasks[i];
            uint32_t number = x->age < x->s ? 64 + x->p1 : x->p2;
            if (x->left > 0 && number < best_number) {
                best = i;
                best_number = number;
            }
        }
        if (best >= 0)
            tasks[best].left--;

        for (int i = 0; i < n; i++) {
            struct task *x = &tasks[i];
            x->age++;
            if (x->age == x->d && x->left > 0) {
                *missed = i;
                return instant;
            }
            if (x->age == x->t) {
                x->age = 0;
                x->left = x->c;
            }
        }
    }
    return 0;
}

/* Lowers until the table holds or a task can go no lower. Answers the number of rounds. */
static uint64_t search(struct task *tasks, int n, uint64_t hyperperiod)
{
    for (int i = 0; i < n; i++)
        tasks[i].s = tasks[i].d;
    for (uint64_t round = 1;; round++) {
        int missed = 0;
        if (first_miss(tasks, n, hyperperiod, &missed) == 0 || tasks[missed].s == 0)
            return round;
        tasks[missed].s--;
    }
}

int main(void)
{
    struct task tasks[MAX_TASKS];
    int n = read_table(tasks);

    uint64_t hyperperiod = 1;
    for (int i = 0; i < n; i++) {
        if (tasks[i].t == 0) {
            fprintf(stderr, "search_sim: a period is 0\n");
            return 2;
        }
        hyperperiod = hyperperiod / gcd(hyperperiod, tasks[i].t) * tasks[i].t;
    }

    uint64_t rounds = 0;
    for (int k = 0; k < TIMES; k++)
        rounds += search(tasks, n, hyperperiod);

    printf("%llu rounds in %d searches, S", (unsigned long long)rounds, TIMES);
    for (int i = 0; i < n; i++)
        printf(" %u", tasks[i].s);
    printf("\n");
    return 0;
}
