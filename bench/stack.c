// stack: prints how many bytes of the stack each function takes on the largest block, list or entry.
//
// It paints the stack below a call, calls, and counts down to the lowest byte that has changed: what the call itself takes there is in it.
typedef unsigned char byte;
typedef unsigned long size;

extern int printf(const char *, ...);
extern size stack_step_unsigned(const byte *, size, size);
extern size stack_step_signed(const byte *, size, size);
extern size stack_set_down(const byte *, size, size);
extern size stack_read_strict(const byte *, size, size *, size);
extern size stack_write_list(const size *, size, byte *, size);
extern size stack_lay_listing(const byte *, size, byte *);
extern size stack_read_phrase(const size *, size, size *, size);
extern size stack_read_entry(const byte *, size, size, size *, size, long *, size);
extern size stack_write_entry(size, size, long, byte *, size);

enum { BLOCK = 65536, LIST = 16384, FORMS = 10 * LIST, TEXT = 17 + 28 * BLOCK, ENTRY = 24, REFUSALS = 100, PAINTED = 65536, PAINT = 0xa5 };

static byte block[BLOCK], entries[BLOCK], buffer[FORMS], text[TEXT];
static size slice[BLOCK], list[LIST], phrase[LIST];
static long turn;

// What a block is made of, again and again: numbers of one byte, a tail, numbers of ten bytes, gaps of two and gaps of ten.
static const byte sorts[][10] = {
    {5, 5, 5, 5, 5, 5, 5, 5, 5, 5},
    {128, 128, 128, 128, 128, 128, 128, 128, 128, 128},
    {255, 255, 255, 255, 255, 255, 255, 255, 255, 1},
    {128, 0, 128, 0, 128, 0, 128, 0, 128, 0},
    {128, 128, 128, 128, 128, 128, 128, 128, 128, 2},
};
enum { SORTS = sizeof sorts / sizeof *sorts };

// What a phrase is: so many branches around each other, and in the innermost this item, again and again, and leaves in what it leaves of the list.
// A branch of leaves, leaves inside eight branches, empty branches, nests as deep as may be, and leaves inside nine branches, which is refused.
static const struct {
    size branches, item[8], length;
} phrases[SORTS] = {
    {1, {10}, 1},
    {8, {10}, 1},
    {1, {1}, 1},
    {1, {3, 3, 3, 3, 3, 3, 3, 10}, 8},
    {9, {10}, 1},
};

static void make_phrase(size sort) {
    size at = 0, length = phrases[sort].length, left = LIST - phrases[sort].branches, items = left / length;
    while (at + 1 < phrases[sort].branches) phrase[at++] = 3;
    phrase[at++] = 2 * (items + left % length) + 1;
    for (size i = 0; i < items * length; i++) phrase[at++] = phrases[sort].item[i % length];
    while (at < LIST) phrase[at++] = 10;
}

// What a block of entries is: this at its front, and then that again and again. A good entry of small numbers, and others behind it; a good one as
// long as may be; bad ones: a mark and nothing, and numbers to the block's end; and no mark at all.
static const struct {
    byte front[ENTRY], rest[5];
    size front_length, rest_length;
} blocks[SORTS] = {
    {{0}, {128, 0, 5, 5, 5}, 0, 5},
    {{128, 0, 255, 255, 255, 255, 255, 255, 255, 255, 255, 1, 255, 255, 255, 255, 255, 255, 255, 255, 255, 1, 240, 124},
     {128, 0},
     ENTRY,
     2},
    {{0}, {128, 0}, 0, 2},
    {{128, 0}, {5}, 2, 1},
    {{0}, {128}, 0, 1},
};

static void make_entries(size sort) {
    size front = blocks[sort].front_length, rest = blocks[sort].rest_length;
    for (size i = 0; i < front; i++) entries[i] = blocks[sort].front[i];
    for (size i = front; i < BLOCK; i++) entries[i] = blocks[sort].rest[(i - front) % rest];
}

static size step_unsigned(void) { return stack_step_unsigned(block, BLOCK, 0); }
static size step_signed(void) { return stack_step_signed(block, BLOCK, 0); }
static size set_down(void) { return stack_set_down(block, BLOCK, 1); }
static size read_strict(void) { return stack_read_strict(block, BLOCK, slice, BLOCK); }
static size write_list(void) { return stack_write_list(list, LIST, buffer, FORMS); }
static size write_list_short(void) { return stack_write_list(list, LIST, buffer, FORMS - 1); }
static size lay_listing(void) { return stack_lay_listing(block, BLOCK, text); }
static size read_phrase(void) { return stack_read_phrase(phrase, LIST, slice, LIST); }
static size read_entry(void) { return stack_read_entry(entries, BLOCK, 0, slice, BLOCK, &turn, 1); }
static size write_entry(void) { return stack_write_entry(list[0], list[0], turn, buffer, ENTRY); }
static size write_entry_short(void) { return stack_write_entry(list[0], list[0], turn, buffer, ENTRY - 1); }

static const struct {
    const char *name;
    size (*call)(void);
} calls[] = {
    {"step, unsigned", step_unsigned},
    {"step, signed", step_signed},
    {"set_down", set_down},
    {"read_strict", read_strict},
    {"write_list", write_list},
    {"write_list, a byte short", write_list_short},
    {"lay_listing", lay_listing},
    {"read_phrase", read_phrase},
    {"read_entry", read_entry},
    {"write_entry", write_entry},
    {"write_entry, a byte short", write_entry_short},
};

static size answer;

// Called once before, so that nothing has to be looked up on the way any more.
__attribute__((noinline)) static size taken(size (*call)(void)) {
    call();
    volatile byte *top;
    __asm__ volatile("mov %%rsp, %0" : "=r"(top));
    for (size i = 1; i <= PAINTED; i++) top[-i] = PAINT;
    answer = call();
    size deep = PAINTED;
    while (deep > 0 && top[-deep] == PAINT) deep--;
    return deep;
}

int main(void) {
    for (size c = 0; c < sizeof calls / sizeof *calls; c++) {
        size most = 0, accepted = 0;
        for (size sort = 0; sort < SORTS; sort++) {
            for (size i = 0; i < BLOCK; i++) block[i] = sorts[sort][i % 10];
            for (size i = 0; i < LIST; i++) list[i] = -sort; // of one byte, then of ten
            make_phrase(sort);
            make_entries(sort);
            turn = sort == 0 ? 0 : -400; // of one byte, then of two
            size deep = taken(calls[c].call);
            if (deep > most) most = deep;
            if (answer >= REFUSALS) accepted++;
        }
        printf("%s: %lu bytes; %lu inputs accepted, %lu refused\n", calls[c].name, most, accepted, SORTS - accepted);
    }
    return 0;
}
