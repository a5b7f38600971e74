// The systems that are timed, made from dice that fall the same way every time.
#ifndef SYSTEMS_H
#define SYSTEMS_H

#include "contestants.h"

#include <random>

using Random = std::mt19937_64;

uint32_t below(Random &random, uint32_t bound);

Vector some_vector(Random &random, size_t n, uint32_t p);

Vector some_scales(Random &random, size_t n, uint32_t p); // 1 to p - 1

Vector times(const System &s, const Vector &v);

// n rows of k entries. With the diagonal among them the matrix is almost always regular; without it, and with
// few entries, some column is empty and it is singular.
System some_system(Random &random, size_t n, size_t k, uint32_t p, bool diagonal);

// The same, with b in a space of `degree` places that A takes into itself: two blocks of rows with k entries in
// each, b and its solution in the first, the places then mixed. So f has almost always that degree, and A's own
// least polynomial almost always degree n.
System short_system(Random &random, size_t n, size_t k, uint32_t p, size_t degree);

// The terms of the solver's first pass.
Vector first_terms(const System &s);

#endif
