static int stack[100], top;

static void push(int value) { stack[top++] = value; }
static int pop(void) { return stack[--top]; }
