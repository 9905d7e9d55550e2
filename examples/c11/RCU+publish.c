/* C11=forbidden */
/* exists o1_0=0 /\ o1_1=2 */
#include <stdatomic.h>

struct s { int a, b; } n; struct s *_Atomic p;
int o1_0, o1_1;

void P0(void)
{
  n.a = 1;
  n.b = 2;
  atomic_store_explicit(&p, &n, memory_order_release);
}

void P1(void)
{
  struct s *q = atomic_load_explicit(&p, memory_order_consume);
  if (q) { o1_0 = q->a; o1_1 = q->b; }
}
