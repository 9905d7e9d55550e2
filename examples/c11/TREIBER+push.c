/* C11=forbidden */
/* exists n0=0 /\ n1=0 */
#include <stdatomic.h>

struct node { struct node *next; } n0, n1;
struct node *_Atomic head;

static inline void push(struct node *n)
{
  struct node *e = atomic_load_explicit(&head, memory_order_relaxed);
  do n->next = e;
  while (!atomic_compare_exchange_weak_explicit(&head, &e, n, memory_order_release, memory_order_relaxed));
}

void P0(void) { push(&n0); }

void P1(void) { push(&n1); }
