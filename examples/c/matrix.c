/* Products of matrices by `mul`. Pascal's triangle times its mirror image is a table of binomials again; the triangle
   times itself with signs in turn is the matrix of ones in the diagonal.
   It prints both products, a row in a line. The status is the sum of the second one's diagonal, 8. */
#include "write.h"

enum { SIZE = 8 };

typedef int matrix[SIZE][SIZE];

static matrix triangle, mirrored, inverse, product;

static void multiply(matrix result, matrix left, matrix right)
{
    for (int row = 0; row < SIZE; row++)
        for (int column = 0; column < SIZE; column++) {
            int sum = 0;
            for (int k = 0; k < SIZE; k++)
                sum += left[row][k] * right[k][column];
            result[row][column] = sum;
        }
}

static void show(matrix shown)
{
    for (int row = 0; row < SIZE; row++) {
        for (int column = 0; column < SIZE; column++)
            write_number(shown[row][column], 5);
        put('\n');
    }
}

int main(void)
{
    int diagonal = 0;

    for (int row = 0; row < SIZE; row++)
        for (int column = 0; column <= row; column++) {
            int inside = column > 0 && column < row;
            int value = inside ? triangle[row - 1][column - 1] + triangle[row - 1][column] : 1;
            triangle[row][column] = mirrored[column][row] = value;
            inverse[row][column] = (row + column) % 2 ? -value : value;
        }
    multiply(product, triangle, mirrored);
    show(product);
    multiply(product, triangle, inverse);
    show(product);
    for (int k = 0; k < SIZE; k++)
        diagonal += product[k][k];
    return diagonal;
}
