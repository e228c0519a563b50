/* Part of stack.c: the inputs that recurse deepest. Texts of booleans and of vectors, which are read and then handed
   on as trees; trees that no text gives; the longest trace. */
static void put(size_t times_put, const char *s)
{
    for (size_t l = strlen(s); times_put--; text_len += l) memcpy(text + text_len, s, l);
}

/* the text, read for both sorts, and what it is as a tree, on so many rows */
static void on_text(size_t rows)
{
    n = rows;
    for (int sort = 0; sort < 2; sort++) {
        vector = sort;
        call(read_expression);
        if (expression.number) continue;
        tree_len = expression.len;
        memcpy(tree, expression.tree, tree_len);
        on_tree();
    }
    text_len = 0;
}

/* BEFORE so often, then MIDDLE, then BEHIND so often, as a text on so many rows */
static void nested(size_t before_times, const char *before, const char *middle, size_t behind_times, const char *behind,
                   size_t rows)
{
    put(before_times, before);
    put(1, middle);
    put(behind_times, behind);
    on_text(rows);
}

static void booleans(void)
{
    put(32, "( ");
    nested(255, "! ", "A", 32, " )", 2); /* 32 brackets around 255 prefix operators */
    put(32, "( ! ");
    nested(223, "! ", "A", 32, " )", 2);
    put(31, "! ( ");
    nested(224, "! ", "A", 31, " )", 2);
    nested(256, "! ", "", 0, "", 2); /* refused behind the last */
    put(32, "( ");
    nested(256, "! ", "", 0, "", 2);
    nested(0, "", "A", 127, " & A", 2); /* deepest on the left */
    nested(0, "", "A", 127, " ^ A", 2);
    nested(0, "", "A", 127, " | A", 2);
    put(32, "A & ( "); /* deepest on the right, then on the left */
    nested(0, "", "A", 95, " & A", 0);
    put(32, "A & ( ");
    put(1, "A");
    put(95, " | A");
    nested(0, "", "", 32, " )", 2);
    put(32, "A | A & A ^ ! ( ");
    nested(31, "! ", "A", 32, " )", 2);
    nested(85, "A ? A : ", "A", 0, "", 2); /* choices in the last operand, in the middle, in the condition */
    nested(85, "A ? ", "A", 85, " : A", 2);
    nested(32, "( ", "A", 32, " ? A : A )", 2);
    put(32, "( ");
    put(85, "A ? ");
    put(1, "A");
    put(85, " : A");
    nested(0, "", "", 32, " )", 2);
    put(32, "( A ? ");
    nested(96, "A ? ", "", 0, "", 2); /* refused at the end */
    nested(128, "A ? ", "", 0, "", 2);
    put(32, "( A ? ! ");
    nested(80, "A ? ", "", 0, "", 2);
}

static void vectors(void)
{
    nested(0, "", "01 A", 15, " -> 01 A", 17); /* 16 steps */
    nested(15, "01 A -> ( ", "01 A", 15, " )", 17);
    nested(0, "", "01 A", 63, " | 01 A", 2); /* 64 alternatives */
    put(32, "01 A | ( ");
    put(1, "01 A");
    put(31, " | 01 A");
    nested(0, "", "", 32, " )", 2);
    nested(0, "", "01 A", 63, " & 01 A", 2); /* 64 tests */
    put(32, "01 A & ( ");
    put(1, "01 A");
    put(31, " & 01 A");
    nested(0, "", "", 32, " )", 2);
    nested(0, "", "01 A", 84, " <&> 01 A", 3); /* refused with 8 */
    nested(0, "", "01 A", 9, " & 01 A", 2);
    nested(9, "01 A & ( ", "01 A", 9, " )", 2);
    nested(0, "", "01 A", 63, " & A", 2);
    nested(0, "", "( 01 A -> 01 A )", 31, " & A", 3);
    for (size_t i = 1; i < 5; i++) nested(0, "", "01 A", i, " <&> 01 A", 3);
    nested(0, "", "01 A", 5, " &> 01 A", 3);
    nested(0, "", "01 A", 5, " <-> 01 A", 7);
    nested(3, "01 A <&> ( ", "01 A", 3, " )", 3);
    nested(1, "01 ", "", 254, "! ", 2);
    put(1, "01 ");
    nested(254, "! ", "A", 0, "", 2); /* an operand, and a condition, that is deep */
    put(1, "01 A & ");
    nested(252, "! ", "A", 0, "", 2);
    put(1, "01 ");
    put(84, "A ? ");
    put(1, "A");
    nested(0, "", "", 84, " : A", 2);
    put(1, "01 A");
    put(60, " & A");
    put(1, " & ");
    nested(130, "! ", "A", 0, "", 2);
    put(62, "01 A & ");
    nested(66, "! ", "A", 0, "", 2);
}

/* trees that no text gives */
static void by_hand(void)
{
    n = 2;
    for (size_t sort = 0; sort < 2; sort++) {
        static const uint8_t ends[] = {40, 42, 60, 147, 0}, vectors_end[] = {50, 53, 54, 55, 147};
        vector = sort;
        for (size_t i = 0; i < 5; i++)
            for (size_t many = 256; many <= LONG; many += LONG - 256) {
                uint8_t end = sort ? vectors_end[i] : ends[i];
                memset(tree, end, sizeof tree);
                memset(tree, 0, end == 147 ? 1 : end == 60 ? 171 : many / 2);
                if (sort && i == 4) memset(tree, 147, many); /* no operand at all */
                if (sort && i < 4)
                    for (size_t j = 1; j < many / 2; j += 2) tree[j] = 64 + 12;
                tree_len = many;
                on_tree();
                tree_len = many - 1;
                on_tree();
            }
    }
    memset(tree, 147, sizeof tree); /* an operand at the end of a long lent tree */
    tree[0] = 0;
    tree_len = LONG;
    steps[0] = tests[0] = 1, edges[0] = 12, operands[0] = LONG;
    steps_len = tests_len = edges_len = 1;
    call(listed_fits), call(listed_match_row), call(listed_match_all), call(listed_totals), call(listed_push);
    for (size_t at = 0; at < 256; at++) {
        operands[0] = (uint16_t)(at + 1); /* .. and one of every depth */
        call(listed_fits), call(listed_match_row), call(listed_match_all), call(listed_totals), call(listed_push);
    }
}

/* the longest trace: 32 names of 32 bytes, 65,535 rows */
static void long_trace(void)
{
    k = 32, n = ROWS;
    for (size_t i = 0; i < k; i++) {
        memset(names + 32 * i, 'N', 32);
        names[32 * i + 31] = (uint8_t)('a' + i % 26), names[32 * i + 30] = (uint8_t)('a' + i / 26);
    }
    for (size_t i = 0; i < n; i++) times[i] = UINT64_MAX - ROWS + i;
    for (size_t i = 0; i < n * k; i++) states[i] = (uint8_t)(i * 7 % 8);
    call(version), call(check_names), call(write_trace);
    file_len = told.count;
    memcpy(file, out, file_len);
    tree[0] = 0, tree[1] = 64 + 12, tree_len = 2; /* an edge of the first name */
    call(read_trace), call(changes_at), call(list);
    memset(text, 'A', sizeof text);
    text_len = sizeof text;
    call(read_expression), call(table_heading), call(table_line), call(table_refused), call(table_total);
}
