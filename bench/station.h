/* A station lent to the library: 48 rows, 24 entries of 24 bytes, and their summary; all zero is fresh. Its bytes alone, since bench/unproved also
   measures one of larger rows; host/spineyarrow.h has the fields. unproved reads the row's size here, and report.py that and the number of rows. */
#define ROWS 48
#ifndef ROW
#define ROW 280
#endif
struct lent_station { unsigned char rows[ROWS][ROW], book[24][24], summary[16]; } __attribute__((aligned(8)));
