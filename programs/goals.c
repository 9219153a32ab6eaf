/* The program `goals`: crates/programs says what it does. Here its arguments and its exit status are handed on. */
#include "called.h"

program cogalbin_goals_called;

int main(int argc, char **argv) { return call(cogalbin_goals_called, argc, argv); }
