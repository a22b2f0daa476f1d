struct task { unsigned long id; struct task *next; };
struct queue { unsigned long slots[4]; struct task *head; };

static struct task second = { 2, 0 };
static struct task first = { 1, &second };
struct queue queue = { { 0 }, &first };

__attribute__((noinline)) void clear(struct queue *q)
{
    for (int i = 0; i <= 4; i++)
        q->slots[i] = 0x10 * i + 1;
}

__attribute__((noinline)) unsigned long total(struct queue *q)
{
    unsigned long sum = 0;
    for (struct task *t = q->head; t; t = t->next)
        sum += t->id;
    return sum;
}

int main(void)
{
    clear(&queue);
    return total(&queue);
}
