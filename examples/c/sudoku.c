/* A sudoku, by a search that calls itself for each cell that is empty: its stack gets as deep as the puzzle has those.
   It prints every solution, of which there is one, and how many digits were tried on the way. The status is the number
   of solutions. This is the long one of the programs here. */
#include "write.h"

static const char puzzle[] =
    "..5.8..29"
    "...3....."
    ".2....6.3"
    ".7.6..1.."
    ".1.2.7.6."
    "..3..4.5."
    "8.6....9."
    ".....5..."
    "19..7.5..";

/* The digits that stand in each row, column and box, a bit for each digit. */
static unsigned rows[9], columns[9], boxes[9];
static unsigned char cells[81];
static int solutions, tries;

/* Puts a digit into a cell, or takes it out again. */
static void turn(int cell, unsigned digit)
{
    unsigned bit = 1u << digit;

    rows[cell / 9] ^= bit;
    columns[cell % 9] ^= bit;
    boxes[cell / 27 * 3 + cell % 9 / 3] ^= bit;
    cells[cell] = cells[cell] ? 0 : digit;
}

/* Tries all that fits into the empty cells from this one on. */
static void search(int cell)
{
    while (cell < 81 && cells[cell])
        cell++;
    if (cell == 81) {
        solutions++;
        for (int shown = 0; shown < 81; shown++) {
            put('0' + cells[shown]);
            put(shown % 9 < 8 ? ' ' : '\n');
        }
        return;
    }
    unsigned taken = rows[cell / 9] | columns[cell % 9] | boxes[cell / 27 * 3 + cell % 9 / 3];
    for (unsigned digit = 1; digit <= 9; digit++)
        if (!(taken >> digit & 1)) {
            tries++;
            turn(cell, digit);
            search(cell + 1);
            turn(cell, digit);
        }
}

int main(void)
{
    for (int cell = 0; cell < 81; cell++)
        if (puzzle[cell] != '.')
            turn(cell, puzzle[cell] - '0');
    search(0);
    write_number(tries, 0);
    write_text(" digits tried\n");
    return solutions;
}
