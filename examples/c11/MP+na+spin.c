/* C11=forbidden */
/* exists o1_1=0 */
#include <stdatomic.h>

int x; atomic_int y;
int o1_1;

void P0(void)
{
  x = 1;
  atomic_store_explicit(&y, 1, memory_order_release);
}

void P1(void)
{
  while (!atomic_load_explicit(&y, memory_order_acquire)) ;
  o1_1 = x;
}
