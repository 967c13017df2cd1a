/* The constraints of diagrams/program.txt over BuDDy, built by the same operations in the same order. */
#include <bdd.h>
#include <stdio.h>
#include <stdlib.h>
#include <time.h>

static double now(void) {
  struct timespec t;
  clock_gettime(CLOCK_MONOTONIC, &t);
  return t.tv_sec * 1e6 + t.tv_nsec / 1e3;
}

static BDD keep(BDD old, BDD made) {
  bdd_addref(made);
  bdd_delref(old);
  return made;
}

static BDD rules(int row, int column) {
  BDD here = bdd_ithvar(row * 8 + column), all = bdd_addref(bddtrue);
  for (int place = 0; place < 64; place++) {
    int k = place / 8, l = place % 8;
    int attacks = k == row || l == column || abs(k - row) == abs(l - column);
    if (attacks && place != row * 8 + column) {
      BDD ruled = bdd_addref(bdd_ite(here, bdd_nithvar(place), bddtrue));
      all = keep(all, bdd_and(all, ruled));
      bdd_delref(ruled);
    }
  }
  return all;
}

static BDD queens(void) {
  BDD all = bdd_addref(bddtrue);
  for (int row = 0; row < 8; row++) {
    BDD one = bdd_addref(bddfalse);
    for (int column = 0; column < 8; column++)
      one = keep(one, bdd_or(one, bdd_ithvar(row * 8 + column)));
    all = keep(all, bdd_and(all, one));
    bdd_delref(one);
  }
  for (int place = 0; place < 64; place++) {
    BDD ruled = rules(place / 8, place % 8);
    all = keep(all, bdd_and(all, ruled));
    bdd_delref(ruled);
  }
  return all;
}

static BDD parity(void) {
  BDD odd = bdd_addref(bddfalse);
  for (int v = 0; v < 64; v++) {
    BDD not_odd = bdd_addref(bdd_not(odd));
    odd = keep(odd, bdd_ite(bdd_ithvar(v), not_odd, odd));
    bdd_delref(not_odd);
  }
  return odd;
}

int main(void) {
  for (int turn = 0; turn < 5; turn++) {
    double start = now();
    bdd_init(1000000, 100000);
    bdd_setvarnum(64);
    double ready = now();
    BDD all = queens();
    printf("queens 8: %d nodes of the result, %.0f solutions, %.0f us, %.0f us to make the tables\n", bdd_nodecount(all), bdd_satcount(all), now() - ready, ready - start);
    bdd_done();
    bdd_init(1000000, 100000);
    bdd_setvarnum(64);
    start = now();
    BDD odd = parity();
    printf("parity 64: %d nodes of the result, %.0f us\n", bdd_nodecount(odd), now() - start);
    bdd_done();
  }
  return 0;
}
