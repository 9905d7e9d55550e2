/* C11=forbidden */
/* exists d=1 */
#include <stdatomic.h>

atomic_int f0, f1, turn; int d;

void P0(void)
{
  atomic_store_explicit(&f0, 1, memory_order_seq_cst);
  atomic_store_explicit(&turn, 1, memory_order_seq_cst);
  while (atomic_load_explicit(&f1, memory_order_seq_cst) && atomic_load_explicit(&turn, memory_order_seq_cst)==1) ;
  d = d+1;
  atomic_store_explicit(&f0, 0, memory_order_release);
}

void P1(void)
{
  atomic_store_explicit(&f1, 1, memory_order_seq_cst);
  atomic_store_explicit(&turn, 0, memory_order_seq_cst);
  while (atomic_load_explicit(&f0, memory_order_seq_cst) && atomic_load_explicit(&turn, memory_order_seq_cst)==0) ;
  d = d+1;
  atomic_store_explicit(&f1, 0, memory_order_release);
}
