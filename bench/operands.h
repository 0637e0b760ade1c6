/* What the float functions are called with, a row of the table at a time. */
enum { PREPARED = 4096 };

extern float a32[PREPARED], b32[PREPARED], c32[PREPARED];
extern double a64[PREPARED], b64[PREPARED], c64[PREPARED];

/* What a root is taken of: the sizes of a32, or subnormals alone in their row. */
extern float squares[PREPARED];

enum row {
    RANDOM,
    SPREAD,
    C_ZERO,
    A_ZERO,
    ZEROS,
    SUBNORMAL,
    FAR,
    NOT_A_NUMBER,
    A_ZERO_C_SUBNORMAL,
    SUBNORMAL_RESULT,
    TOP_RESULT,
    HALFWAY,
    HALFWAY_LOST,
    C_INFINITY,
    C_ZERO_SUBNORMAL_RESULT,
    ROWS
};

extern const char *const rows[ROWS];

void prepare(enum row row);
