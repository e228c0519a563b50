/* An independent twin: documents 01 and 02 in plain C, written from them and docs/DECISIONS.md and not from the
   library. Expressions are trees of pointers, matching goes by windows. It shares nothing with the library but the
   bytes in which a tree is handed over (crates/alf/specs/Bytes.antt). */
#ifndef TWIN_H
#define TWIN_H
#include "lines.h"

typedef unsigned char byte;

/* number 0: not refused */
typedef struct { int number; long place; } Refusal;
int refused(Refusal r);           /* says it, where it is one */

enum { MAX_TEXT = 4096, MAX_OPEN = 32, MAX_NODES = 256, MAX_ALTS = 64, MAX_STEPS = 16, MAX_TESTS = 64 };
enum { MAX_FILLED = 4096 }; /* nodes of a tree and of its filled one */
enum { BOOLEAN, VECTOR };
enum { NO, UNKNOWN, YES };

/* What a token or a node is. An operator's level is in `level_of`. */
typedef enum {
    NAME, LITERAL, EDGE, NOT,
    XOR, XNOR, EQ, NE, GT, LT, GE, LE,
    AND,
    THEN, EITHER, WITH_THEN, ANY_ORDER,
    OR,
    ASK, COLON, OPEN, CLOSE
} Kind;

/* code: a literal's state, how far on the partner of a `(` stands, an edge's number (9 f + t with halves
   ? 0 1 X H L W Z U; 81 is ?! and 82 is ?-) */
typedef struct { Kind kind; int place, length, code; } Token;

typedef struct Node Node;
/* given: whether some text gives it by itself, 1 yes, -1 no, 0 not asked yet */
struct Node { Kind kind; int place, code, sort, id, given; Node *a, *b, *c; };

typedef struct { int edge; Node *operand; } Test;
/* tests[j] of the tests belong to step j, one step after the other */
typedef struct { int steps, total, tests[MAX_STEPS]; Test test[MAX_TESTS]; } Alternative;
typedef struct { int count; Alternative *list[MAX_ALTS]; } Alternatives;

/* times: of each row, where the call takes them */
typedef struct { int names; long rows; const byte *states; const uint64_t *times; } Trace;

/* tokens.c */
int is_name_byte(int b);
int starts_name(int b);
int level_of(Kind kind);
Refusal take_tokens(const byte *text, long length, Token *tokens, int *count);
long extent_of(const byte *text, long length, Refusal r);

/* grammar.c: refusals 18 and 12, then 1 to 8; `names` are slots of 32 bytes */
Refusal check_names(const byte *names, long length);
void pair_brackets(Token *tokens, int count);
Node *tree_of(const Token *tokens, int count);
int sort_fault(Node *node, int *place);
Refusal read_text(const byte *names, long names_length, const byte *text, long length, int sort, Node **tree);

/* trees.c: a tree as bytes and back, its text, refusal 10 */
Node *new_node(Kind kind, int place, int code, Node *a, Node *b, Node *c);
void free_nodes(void);
int tree_bytes(const Node *node, byte *out, int at);
int parts_of(const byte *bytes, long length, int names, Node **parts);
int given_by_text(Node *node);
Refusal check_tree(const byte *bytes, long length, int names, int sort, Node **tree);
long text_of(const Node *node, const byte *names, char *out, int *deepest);
Refusal write_text(const byte *names, long names_length, const byte *tree, long length, int sort, long room,
                   char *out, long *size);

/* steady.c: the expression filled; as the rule has it that the program's argument sets */
extern int steady_pins;
Node *filled(Node *node);
Node *meant(Node *node);

/* alternatives.c: NULL where over limit 8 */
Alternatives *alternatives_of(const Node *node);
int contradictory(const Alternative *alternative);
int best_at(const Alternatives *all, const Trace *trace, long row);
long tries_at(const Alternatives *all, const Trace *trace, long row);
long began_at(const Alternatives *all, const Trace *trace, long row);

/* windows.c */
int reduce(int state);
extern int equal_branches; /* the rule for a ternary of an unknown choice; the program's argument sets it */
int value_at(const Node *node, const Trace *trace, long row);
int state_at(const Node *node, const Trace *trace, long row);
int edge_answer(int edge, int from, int to);
int answer_on(const Node *node, const Trace *trace, long a, long b);
int row_answer(const Node *node, const Trace *trace, long row, long longest);
void forget_windows(void);

/* traces.c */
typedef struct { int names; long rows; byte slots[32 * 32]; uint64_t *times; byte *states; } File;
Refusal read_file(const byte *file, long length, File *out);
Refusal write_file(const byte *names, long names_length, const uint64_t *times, long times_length,
                   const byte *states, long states_length, long n, long room, byte *out, long *size);
Refusal check_rows(long names, long n, long states_length);
Refusal first_code(const byte *states, long length);
long first_early(const uint64_t *times, long n);

/* asked.c: the pattern of a call over rows: a tree, or alternatives handed in as lists over one */
typedef struct { int listed, longest; Bytes tree, lists[4]; Node *node, *meant; const Alternatives *all; } Pattern;
Pattern take_pattern(int listed);
Refusal check_pattern(Pattern *pattern, long names, int sort);
int number_of(int answer);
int number_at(const Pattern *pattern, const Trace *trace, long row);
uint64_t time_at(const Pattern *pattern, const Trace *trace, long row, int *given);

/* patterns.c: a call over rows: 18 (`lists`: whether the other lists fit), 10, 15 */
typedef struct { long names, n; Pattern pattern; Bytes states, times; Trace trace; } Asked;
Asked take_asked(int listed);
Refusal check_asked(Asked *asked, int lists, int sort);
#endif
