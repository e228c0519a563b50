/* The twin's side of rewriting, contradictions and lists handed in: 18, 10, 9. */
#include "calls.h"
#include "twin.h"

/* Where each part of the tree ends in its bytes. */
static int end_of(const Node *node, const Node *part, int at, int *end)
{
    if (node->a) at = end_of(node->a, part, at, end);
    if (node->b) at = end_of(node->b, part, at, end);
    if (node->c) at = end_of(node->c, part, at, end);
    if (node == part) *end = at + 1;
    return at + 1;
}

static void list_alternatives(const Alternatives *all, const Node *node, Bytes *lists)
{
    long step = 0, test = 0;
    for (int i = 0; i < all->count; i++) {
        const Alternative *a = all->list[i];
        lists[0].at[i] = (byte)a->steps;
        for (int j = 0; j < a->steps; j++) lists[1].at[step++] = (byte)a->tests[j];
        for (int j = 0; j < a->total; j++, test++) {
            int end = 0;
            end_of(node, a->test[j].operand, 0, &end);
            lists[2].at[test] = (byte)a->test[j].edge;
            ((uint16_t *)lists[3].at)[test] = (uint16_t)end;
        }
    }
}

/* 9 for the first short one of the four lists. */
static Refusal check_lists(const Alternatives *all, const Bytes *lists)
{
    long needed[4] = {all->count, 0, 0, 0};
    for (int i = 0; i < all->count; i++) {
        needed[1] += all->list[i]->steps;
        needed[2] += all->list[i]->total;
    }
    needed[3] = needed[2];
    for (int k = 0; k < 4; k++)
        if (lists[k].length / (k == 3 ? 2 : 1) < needed[k]) return (Refusal){9, needed[k]};
    return (Refusal){0, 0};
}

/* 18, 10 */
static Refusal check(Pattern *p, long names)
{
    Refusal r = check_rows(names, 1, names);
    return r.number ? r : check_pattern(p, names, VECTOR);
}

void do_rewrite(void)
{
    long names = take_number();
    Pattern p = take_pattern(0);
    Bytes lists[4];
    for (int k = 0; k < 4; k++) lists[k] = lend((k == 3 ? 2 : 1) * take_number());
    Refusal r = check(&p, names);
    if (!r.number) r = check_lists(p.all, lists);
    if (!refused(r)) {
        list_alternatives(p.all, p.node, lists);
        printf("alternatives %d", p.all->count);
    }
    uint64_t sum = 0;
    for (int k = 0; k < 4; k++) sum = sum_of(sum, lists[k].at, lists[k].length);
    end_line(sum);
}

void do_contradictions(void)
{
    long names = take_number();
    Pattern p = take_pattern(0);
    Bytes flags = lend(take_number());
    Refusal r = check(&p, names);
    if (!r.number && p.all->count > flags.length) r = (Refusal){9, p.all->count};
    if (!refused(r)) {
        for (int i = 0; i < p.all->count; i++) flags.at[i] = (byte)contradictory(p.all->list[i]);
        printf("flags %d", p.all->count);
    }
    end_line(sum_of(0, flags.at, flags.length));
}

void do_listed_fits(void)
{
    long names = take_number();
    Pattern p = take_pattern(1);
    if (!refused(check(&p, names))) printf("fits %ld", p.lists[0].length);
    end_line(0);
}
