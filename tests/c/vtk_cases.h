/* vtk_cases.h - VTK files written by hand, and the number that each must be given: what vtk.c reads. */
#ifndef VTK_CASES_H
#define VTK_CASES_H

#include <stdint.h>

/* ---------------------------------------------------------------- one cell, and what is wrong there */

static const char one_cell[] =
    "# vtk DataFile Version 3.0\n"
    "one cell\n"
    "ASCII\n"
    "DATASET UNSTRUCTURED_GRID\n"
    "POINTS 8 float\n"
    "0 0 0\n1 0 0\n1 1 0\n0 1 0\n0 0 1\n1 0 1\n1 1 1\n0 1 1\n"
    "CELLS 1 9\n"
    "8 0 1 2 3 4 5 6 7\n"
    "CELL_TYPES 1\n"
    "12\n";

/* A number of a thousand digits, 10^999 + 12: of 32 or 64 bits of it 12 is left. */
#define NINE "000000000"
#define NINES NINE NINE NINE NINE NINE NINE NINE NINE NINE NINE NINE
#define THOUSAND "1" NINES NINES NINES NINES NINES NINES NINES NINES NINES NINES "0000000" "12"

typedef struct {
    const char *from, *to;               /* what becomes what; NULL: behind all */
    uint32_t number;
} edit;

static const edit edits[] = {
    /* The version line. */
    {"3.0", "2.0", 0},
    {"3.0", "1.0", 19},
    {"3.0", "4.2", 19},
    {"3.0", "5.1", 19},
    {"3.0", "3.1", 19},
    {"3.0", "3", 19},
    {"3.0", "3.00", 19},
    {"3.0", "13.0", 19},
    {"3.0", "3.0 ", 19},
    {"3.0", "3.0\r", 19},
    {"3.0\n", "3.0 ", 19},
    {"3.0\n", "3.0\t", 19},
    {"3.0\n", "3.0", 19},
    {"# vtk", "#vtk", 19},
    {"# vtk", "#  vtk", 19},
    {"# vtk", " # vtk", 19},
    {"# vtk", "\n# vtk", 19},
    {"# vtk", "\xEF\xBB\xBF# vtk", 19},
    {"# vtk", "vtk", 19},
    {"vtk", "VTK", 19},
    {"DataFile", "datafile", 19},
    {"Version", "version", 19},
    {" Version", "\tVersion", 19},
    {"# vtk DataFile Version 3.0\n", "", 19},
    /* The title line. */
    {"one cell\n", "\n", 0},
    {"one cell\n", " \t \n", 0},
    {"one cell\n", "one\rcell\r\n", 0},
    {"one cell\n", "ASCII DATASET\n", 0},
    {"one cell\n", "\xFF\x80\x01\n", 0},
    {"one cell\n", "", 19},
    {"one cell\n", "one cell", 19},
    {"one cell\n", "one\ncell\n", 19},
    {"one cell\n", "\n\n", 0},
    /* ASCII and DATASET. */
    {"ASCII\n", "ASCII ", 0},
    {"ASCII\n", " \n\t ASCII \t\n ", 0},
    {"ASCII\n", "ASCII\r\n", 19},
    {"ASCII\n", "ASCII\vDATASET", 19},
    {"ASCII\n", "ASCII\f", 19},
    {"ASCII\n", "ASCII", 19},
    {"ASCII\n", "", 19},
    {"ASCII", "ascii", 19},
    {"ASCII", "Ascii", 19},
    {"ASCII", "BINARY", 19},
    {"ASCII", "ASCII ASCII", 19},
    {"ASCII", "ASCI", 19},
    {"ASCII", "ASCIII", 19},
    {"DATASET ", "DATASET\n\n\t", 0},
    {"DATASET", "dataset", 19},
    {"DATASET", "", 19},
    {"DATASET ", "DATASET", 19},
    {"UNSTRUCTURED_GRID", "unstructured_grid", 19},
    {"UNSTRUCTURED_GRID", "STRUCTURED_GRID", 19},
    {"UNSTRUCTURED_GRID", "POLYDATA", 19},
    {"UNSTRUCTURED_GRID", "UNSTRUCTURED_GRIDS", 19},
    {"UNSTRUCTURED_GRID", "UNSTRUCTURED_GRID\r", 19},
    {"UNSTRUCTURED_GRID", "UNSTRUCTURED_GRID FIELD a 0", 19},
    {"UNSTRUCTURED_GRID", "", 19},
    /* POINTS. */
    {"POINTS", "points", 19},
    {"POINTS", "Points", 19},
    {"POINTS", "", 19},
    {"POINTS 8 float", "POINTS\n8\tfloat", 0},
    {"POINTS 8", "POINTS 7", 19},
    {"POINTS 8", "POINTS 9", 19},
    {"POINTS 8", "POINTS 0", 19},
    {"POINTS 8", "POINTS 08", 19},
    {"POINTS 8", "POINTS +8", 19},
    {"POINTS 8", "POINTS -8", 19},
    {"POINTS 8", "POINTS 8.0", 19},
    {"POINTS 8", "POINTS 8.", 19},
    {"POINTS 8", "POINTS 8e0", 19},
    {"POINTS 8", "POINTS 0x8", 19},
    {"POINTS 8", "POINTS x", 19},
    {"POINTS 8", "POINTS", 19},
    {"POINTS 8", "POINTS 8 8", 19},
    {"POINTS 8", "POINTS 8\r", 19},
    {"POINTS 8", "POINTS 264", 19},                              /* 2^8 + 8 */
    {"POINTS 8", "POINTS 65544", 19},                            /* 2^16 + 8 */
    {"POINTS 8", "POINTS 16777224", 19},                         /* 2^24 + 8 */
    {"POINTS 8", "POINTS 4294967304", 19},                       /* 2^32 + 8 */
    {"POINTS 8", "POINTS 18446744073709551624", 19},             /* 2^64 + 8 */
    {"POINTS 8", "POINTS 6148914691236517213", 19},              /* three times that is 2^64 + 23 */
    {"POINTS 8", "POINTS 340282366920938463463374607431768211464", 19},
    {"POINTS 8", "POINTS " THOUSAND, 19},
    {"float", "double", 0},
    {"float", "CELLS", 0},
    {"float", "8", 0},
    {"float", "\r", 0},
    {"float", "", 19},
    {"float", "float float", 19},
    /* The points: any words. */
    {"0 0 0", "0\t0\n\n 0", 0},
    {"0 0 0", "nan inf -1.5e-300", 0},
    {"0 0 0", "CELLS 1 9", 0},
    {"0 0 0", "x,y \x01 \xFF", 0},
    {"0 0 0", "0 0 0\r", 0},
    {"0 0 0", "0 0 " THOUSAND, 0},
    {"0 0 0", "0 0", 19},
    {"0 0 0", "0 00", 19},
    {"0 0 0", "0 0 0 0", 19},
    {"0 0 0", "0 0 0 \r", 19},
    {"1 0 0\n1 1 0\n", "1 0 0 1 1 0\n", 0},
    {"POINTS 8 float\n", "POINTS 9 float\n5 5 5\n", 0},
    /* CELLS. */
    {"CELLS", "cells", 19},
    {"CELLS", "Cells", 19},
    {"CELLS", "CELL", 19},
    {"CELLS", "", 19},
    {"CELLS", "CELLS CELLS", 19},
    {"CELLS", "METADATA\nCELLS", 19},
    {"CELLS 1 9\n", "CELLS\n1\n9 ", 0},
    {"CELLS 1 9", "CELLS 1 9\r", 19},
    {"CELLS 1", "CELLS 2", 19},
    {"CELLS 1", "CELLS 0", 19},
    {"CELLS 1", "CELLS 01", 19},
    {"CELLS 1", "CELLS +1", 19},
    {"CELLS 1", "CELLS -1", 19},
    {"CELLS 1", "CELLS 1.0", 19},
    {"CELLS 1", "CELLS", 19},
    {"CELLS 1", "CELLS 4294967297", 19},
    {"CELLS 1", "CELLS 18446744073709551617", 19},
    {"CELLS 1", "CELLS 2305843009213693953", 19},                /* eight times that is 2^64 + 8 */
    {"CELLS 1", "CELLS " THOUSAND, 19},
    {"CELLS 1 9", "CELLS 1 8", 19},
    {"CELLS 1 9", "CELLS 1 10", 19},
    {"CELLS 1 9", "CELLS 1 0", 19},
    {"CELLS 1 9", "CELLS 1 09", 19},
    {"CELLS 1 9", "CELLS 1 +9", 19},
    {"CELLS 1 9", "CELLS 1 9.0", 19},
    {"CELLS 1 9", "CELLS 1 x", 19},
    {"CELLS 1 9", "CELLS 1", 19},
    {"CELLS 1 9", "CELLS 1 4294967305", 19},
    {"CELLS 1 9", "CELLS 1 18446744073709551625", 19},
    {"CELLS 1 9", "CELLS 1 " THOUSAND, 19},
    /* The row's length. */
    {"8 0 1 2 3", "8\n0\t1\n\n2   3", 0},
    {"8 0 1 2 3", "7 0 1 2 3", 19},
    {"8 0 1 2 3", "9 0 1 2 3", 19},
    {"8 0 1 2 3", "08 0 1 2 3", 19},
    {"8 0 1 2 3", "+8 0 1 2 3", 19},
    {"8 0 1 2 3", "8. 0 1 2 3", 19},
    {"8 0 1 2 3", "0 1 2 3", 19},
    {"8 0 1 2 3", "8 8 0 1 2 3", 19},
    {"8 0 1 2 3", "4294967304 0 1 2 3", 19},
    {"8 0 1 2 3", "18446744073709551624 0 1 2 3", 19},
    {"8 0 1 2 3", "18446744073709551615 0 1 2 3", 19},           /* one more is 2^64 */
    {"8 0 1 2 3", THOUSAND " 0 1 2 3", 19},
    {"CELLS 1 9\n8 0", "CELLS 1 8\n7", 19},
    {"CELLS 1 9\n8 0", "CELLS 1 10\n9 0 0", 19},
    {"CELLS 1 9\n8 0", "CELLS 1 9\n8", 19},
    {"CELLS 1 9\n8 0", "CELLS 1 9\n8 0 0", 19},
    {"CELLS 1 9\n8 0 1 2 3 4 5 6 7", "CELLS 1 1\n0", 19},
    {"CELLS 1 9\n8 0 1 2 3 4 5 6 7", "CELLS 1 0\n", 19},
    {"CELLS 1 9\n8 0 1 2 3 4 5 6 7", "CELLS 2 18\n8 0 1 2 3 4 5 6 7\n8 0 1 2 3 4 5 6 7", 19},
    {"CELLS 1 9\n8 0 1 2 3 4 5 6 7", "CELLS 1 18\n8 0 1 2 3 4 5 6 7\n8 0 1 2 3 4 5 6 7", 19},
    {"CELLS 1 9\n8 0 1 2 3 4 5 6 7\nCELL_TYPES 1\n12", "CELLS 0 0\nCELL_TYPES 0", 19},
    {"CELLS 1 9\n8 0 1 2 3 4 5 6 7\nCELL_TYPES 1\n12", "", 19},
    /* The row's numbers. */
    {"8 0 1", "8 00 1", 19},
    {"8 0 1", "8 +0 1", 19},
    {"8 0 1", "8 -0 1", 19},
    {"8 0 1", "8 -1 1", 19},
    {"8 0 1", "8 0.0 1", 19},
    {"8 0 1", "8 01", 19},
    {"8 0 1", "8 x 1", 19},
    {"8 0 1", "8 0\r 1", 19},
    {"8 0 1", "8 0, 1", 19},
    {"8 0 1", "8 8 1", 19},
    {"8 0 1", "8 9 1", 19},
    {"8 0 1", "8 10 1", 19},
    {"8 0 1", "8 256 1", 19},
    {"8 0 1", "8 65536 1", 19},
    {"8 0 1", "8 16777216 1", 19},
    {"8 0 1", "8 4294967295 1", 19},
    {"8 0 1", "8 4294967296 1", 19},
    {"8 0 1", "8 8589934592 1", 19},
    {"8 0 1", "8 1000000000000000000 1", 19},
    {"8 0 1", "8 18446744073709551615 1", 19},
    {"8 0 1", "8 18446744073709551616 1", 19},
    {"8 0 1", "8 " THOUSAND " 1", 19},
    {"6 7\n", "6 8\n", 19},
    {"6 7\n", "6 07\n", 19},
    {"6 7\n", "6 7\r\n", 19},
    {"6 7\n", "6 7 7\n", 19},
    {"6 7\n", "6\n", 19},
    {"6 7\n", "6 7", 19},
    {"8 0 1 2 3 4 5 6 7", "8 0 1 2 3 4 5 6 7 CELLS 1 9 8 0 1 2 3 4 5 6 7", 19},
    /* CELL_TYPES. */
    {"CELL_TYPES", "cell_types", 19},
    {"CELL_TYPES", "Cell_Types", 19},
    {"CELL_TYPES", "CELL_TYPE", 19},
    {"CELL_TYPES", "", 19},
    {"CELL_TYPES 1\n12\n", "", 19},
    {"CELL_TYPES 1\n12\n", "CELL_TYPES\t1 12 ", 0},
    {"CELL_TYPES 1\n12\n", "CELL_TYPES 1\n", 19},
    {"CELL_TYPES 1", "CELL_TYPES 2", 19},
    {"CELL_TYPES 1", "CELL_TYPES 0", 19},
    {"CELL_TYPES 1", "CELL_TYPES 01", 19},
    {"CELL_TYPES 1", "CELL_TYPES +1", 19},
    {"CELL_TYPES 1", "CELL_TYPES 1.", 19},
    {"CELL_TYPES 1", "CELL_TYPES", 19},
    {"CELL_TYPES 1", "CELL_TYPES 4294967297", 19},
    {"CELL_TYPES 1", "CELL_TYPES 18446744073709551617", 19},
    {"CELL_TYPES 1", "CELL_TYPES " THOUSAND, 19},
    {"CELL_TYPES 1\n12", "CELL_TYPES 2\n12 12", 19},
    {"CELL_TYPES 1\n12", "CELL_TYPES 1\n12 12", 19},
    /* The types. */
    {"12\n", "x12\n", 19},
    {"12\n", "12x\n", 19},
    {"12\n", "012\n", 19},
    {"12\n", "+12\n", 19},
    {"12\n", "-12\n", 19},
    {"12\n", "12.0\n", 19},
    {"12\n", "1 2\n", 19},
    {"12\n", "12\r\n", 19},
    {"12\n", "twelve\n", 19},
    {"12\n", "11\n", 20},
    {"12\n", "10\n", 20},
    {"12\n", "0\n", 20},
    {"12\n", "1\n", 20},
    {"12\n", "2\n", 20},
    {"12\n", "112\n", 20},
    {"12\n", "120\n", 20},
    {"12\n", "268\n", 20},                                       /* 2^8 + 12 */
    {"12\n", "65548\n", 20},
    {"12\n", "16777228\n", 20},
    {"12\n", "4294967308\n", 20},
    {"12\n", "1099511627788\n", 20},
    {"12\n", "1000000000000000012\n", 20},
    {"12\n", "18446744073709551628\n", 20},
    {"12\n", "340282366920938463463374607431768211468\n", 20},
    {"12\n", THOUSAND "\n", 20},
    {"12\n", THOUSAND, 20},
    {"12\n", "0" THOUSAND "\n", 19},
    {"12\n", THOUSAND "x\n", 19},
    /* The end. */
    {"12\n", "12", 0},
    {"12\n", "12 ", 0},
    {"12\n", "12\t", 0},
    {NULL, "\n", 0},
    {NULL, " \n\t\n\n   ", 0},
    {NULL, "x", 19},
    {NULL, "\r\n", 19},
    {NULL, "\r", 19},
    {NULL, "\v", 19},
    {NULL, "0", 19},
    {NULL, "12\n", 19},
    {NULL, "CELL_DATA 1\nSCALARS a int\nLOOKUP_TABLE default\n0\n", 19},
    {NULL, "POINT_DATA 8\n", 19},
    {NULL, "METADATA\nINFORMATION 0\n", 19},
    {NULL, "CELLS 1 9\n8 0 1 2 3 4 5 6 7\nCELL_TYPES 1\n12\n", 19},
    /* No points. */
    {"POINTS 8 float\n0 0 0\n1 0 0\n1 1 0\n0 1 0\n0 0 1\n1 0 1\n1 1 1\n0 1 1\n",
     "POINTS 0 float\n", 19},
};

/* ---------------------------------------------------------------- several cells */

#define HEX "8 0 1 2 3 4 5 6 7 "                 /* a cell, */
#define ABOVE "8 4 5 6 7 8 9 10 11 "             /* one on its face 4 5 6 7, */
#define ALSO "8 4 5 6 7 12 13 14 15 "            /* another one there, */
#define CROSSED "8 4 6 5 7 12 13 14 15 "         /* one that has the same vertices in another order, */
#define AWAY "8 16 17 18 19 20 21 22 23 "        /* one that touches none, */
#define REPEATED "8 16 17 18 19 20 21 22 16 "    /* and one that has a vertex twice. */

static const struct {
    const char *rows, *types;
    uint32_t number, cells;
} meshes[] = {
    {HEX, "12", 0, 1},
    {HEX ABOVE, "12 12", 0, 2},
    {HEX AWAY, "12 12", 0, 2},
    /* 20, and 19 before it */
    {HEX HEX, "12 10", 20, 0},
    {HEX "4 0 1 2 3", "12 10", 20, 0},
    {"4 0 1 2 3 " HEX, "10 12", 20, 0},
    {"4 0 1 2 3 " HEX, "10 11", 20, 0},
    {"2 0 1 4 0 1 2 3 " HEX, "3 9 12", 20, 0},
    {"0 " HEX, "7 12", 20, 0},
    {"0", "0", 20, 0},
    {"20 0 1 2 3 4 5 6 7 8 9 10 11 12 13 14 15 16 17 18 19", "25", 20, 0},
    {"4 0 1 2 3 " HEX, "12 10", 19, 0},
    {"4 0 1 2 3 " HEX, "12 12", 19, 0},
    {"7 0 1 2 3 4 5 6 " HEX, "12 10", 19, 0},
    {"9 0 1 2 3 4 5 6 7 8", "12", 19, 0},
    {"9 0 1 2 3 4 5 6 7 8 " HEX, "11 12", 20, 0},
    {"0", "12", 19, 0},
    {HEX "4 0 1 2 24", "12 10", 19, 0},
    {HEX "4 0 1 2 03", "12 10", 19, 0},
    {HEX "4 0 1 2", "12 10", 19, 0},
    {HEX "4 0 1 2 3 4", "12 10", 19, 0},
    {HEX HEX, "10 x", 19, 0},
    {"8 0 1 2 3 4 5 6 24 " HEX, "12 10", 19, 0},
    /* 20 before 21 */
    {REPEATED, "11", 20, 0},
    {REPEATED HEX, "12 11", 20, 0},
    {"8 0 0 0 0 0 0 0 0", "12", 21, 0},
    {HEX REPEATED, "12 12", 21, 0},
    /* 21 before 22 and 23 */
    {HEX ABOVE ALSO AWAY REPEATED, "12 12 12 12 12", 21, 0},
    {HEX CROSSED REPEATED, "12 12 12", 21, 0},
    /* 22 */
    {HEX ABOVE ALSO, "12 12 12", 22, 0},
    {HEX HEX HEX, "12 12 12", 22, 0},
    {HEX HEX HEX HEX, "12 12 12 12", 22, 0},
    {HEX HEX ABOVE, "12 12 12", 22, 0},
    {ABOVE AWAY ALSO HEX, "12 12 12 12", 22, 0},
    /* 22 before 23, at the same face and elsewhere, wherever each stands */
    {HEX ABOVE CROSSED, "12 12 12", 22, 0},
    {HEX CROSSED ABOVE, "12 12 12", 22, 0},
    {CROSSED HEX ABOVE, "12 12 12", 22, 0},
    {HEX CROSSED AWAY AWAY AWAY, "12 12 12 12 12", 22, 0},
    {AWAY AWAY AWAY HEX CROSSED, "12 12 12 12 12", 22, 0},
    /* 23 */
    {HEX CROSSED, "12 12", 23, 0},
    {CROSSED HEX, "12 12", 23, 0},
    {AWAY CROSSED AWAY HEX, "12 12 12 12", 23, 0},
    {HEX "8 4 5 7 6 12 13 14 15", "12 12", 23, 0},
    {HEX "8 4 7 5 6 12 13 14 15", "12 12", 23, 0},
    {HEX "8 0 2 1 3 4 6 5 7", "12 12", 23, 0},
    {HEX "8 0 1 2 3 4 6 5 7", "12 12", 23, 0},
    /* the same cell twice, and listed otherwise: all six faces are sewn */
    {HEX HEX, "12 12", 0, 2},
    {HEX "8 4 5 6 7 0 1 2 3", "12 12", 0, 2},
    {HEX "8 6 5 1 2 7 4 0 3", "12 12", 0, 2},
    {HEX HEX AWAY AWAY, "12 12 12 12", 0, 4},
    /* two faces in common: beside each other; opposite, straight and turned by a quarter or a half */
    {HEX "8 0 1 8 3 4 5 9 7", "12 12", 0, 2},
    {HEX "8 0 1 2 3 5 6 7 4", "12 12", 0, 2},
    {HEX "8 0 1 2 3 6 7 4 5", "12 12", 0, 2},
    /* the face in each of its eight ways */
    {HEX "8 5 6 7 4 8 9 10 11", "12 12", 0, 2},
    {HEX "8 6 7 4 5 8 9 10 11", "12 12", 0, 2},
    {HEX "8 7 4 5 6 8 9 10 11", "12 12", 0, 2},
    {HEX "8 7 6 5 4 8 9 10 11", "12 12", 0, 2},
    {HEX "8 6 5 4 7 8 9 10 11", "12 12", 0, 2},
    {HEX "8 5 4 7 6 8 9 10 11", "12 12", 0, 2},
    {HEX "8 4 7 6 5 8 9 10 11", "12 12", 0, 2},
    /* three vertices in common, or four that are no face of one: nothing is sewn */
    {HEX "8 4 5 6 8 9 10 11 12", "12 12", 0, 2},
    {HEX "8 0 1 6 7 8 9 10 11", "12 12", 0, 2},
    {HEX "8 0 5 2 7 8 9 10 11", "12 12", 0, 2},
};

#endif
