/* The program `guest_listing`: crates/programs says what it does. Here its arguments and its exit status are handed on. */
#include "called.h"

program cogalbin_guest_listing_called;

int main(int argc, char **argv) { return call(cogalbin_guest_listing_called, argc, argv); }
